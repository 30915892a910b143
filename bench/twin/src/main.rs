//! The same cycles over the plain line as `pace` makes over the proved one, with the same arguments and the same output.
//!
//! `twin count` makes 100 cycles over 1, 4 and 16 lanes. `twin time LANES CYCLES` makes so many and says how long they took.
mod cycle;

use cycle::{Stop, Ticket};
use std::env;
use std::process::ExitCode;
use std::time::{Duration, Instant};
use twin::board::{Board, ByteBoard};
use twin::crew::Crew;

/// How many cells each lane has.
const CELLS: usize = 8;

/// How many cycles are made when only the counts are asked for.
const COUNT_CYCLES: u32 = 100;

/// Lays a line of so many lanes over bytes, makes so many cycles, and prints what they came to. Answers how long they took.
fn pace(lanes: u8, cycles: u32) -> Result<Duration, Stop> {
    let n = usize::from(lanes);
    let mut bytes = vec![0; 8 * (1 + 3 * n + n * CELLS)];
    let mut trays = vec![Ticket::BLANK; n + 1 + n * CELLS];
    let mut board = ByteBoard::over(&mut bytes);
    let mut crew = Crew::new();
    crew.lay(&mut board, &trays, n, CELLS, 0)?;
    let start = Instant::now();
    let mut tally = cycle::run(&mut crew, &mut board, &mut trays, lanes, cycles)?;
    let time = start.elapsed();
    for k in 0..board.len() {
        tally.fold(board.load(k));
    }
    let waiting = crew.fill(0)?;
    let totals = crew.drain().report()?;
    println!(
        "lanes {lanes}, cycles {cycles}: grants {}, posted {}, delivered {}, waiting {waiting}, check {}",
        tally.grants, totals.posted, totals.delivered, tally.check
    );
    Ok(time)
}

fn count() -> Result<(), Stop> {
    for lanes in [1, 4, 16] {
        pace(lanes, COUNT_CYCLES)?;
    }
    Ok(())
}

fn time(lanes: u8, cycles: u32) -> Result<(), Stop> {
    let nanoseconds = pace(lanes, cycles)?.as_nanos();
    println!("nanoseconds {nanoseconds}");
    Ok(())
}

/// Does what the arguments ask for, if they ask for something.
fn run(args: &[String]) -> Option<Result<(), Stop>> {
    match args {
        [mode] if mode == "count" => Some(count()),
        [mode, lanes, cycles] if mode == "time" => Some(time(lanes.parse().ok()?, cycles.parse().ok()?)),
        _ => None,
    }
}

fn main() -> ExitCode {
    let args: Vec<String> = env::args().skip(1).collect();
    match run(&args) {
        Some(Ok(())) => return ExitCode::SUCCESS,
        Some(Err(stop)) => eprintln!("{stop}"),
        None => eprintln!("arguments: count, or time LANES CYCLES"),
    }
    ExitCode::FAILURE
}
