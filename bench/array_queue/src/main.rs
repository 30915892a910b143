//! Tickets through crossbeam's `ArrayQueue` from one thread, for orientation beside the line.
//!
//! `array_queue time LANES CYCLES`: each cycle enqueues a ticket for every lane, then dequeues as many.
use crossbeam_queue::ArrayQueue;
use std::env;
use std::process::ExitCode;
use std::time::Instant;

const CELLS: usize = 8;

const FRAME_LENGTH: u32 = 4096;

#[derive(Clone, Copy)]
struct Ticket {
    frame: u32,
    place: u32,
    length: u32,
}

fn folded(check: u64, word: u32) -> u64 {
    check.rotate_left(5).wrapping_add(u64::from(word))
}

/// A check over the tickets that came out, or nothing if one could not be put in or taken out.
fn run(queue: &ArrayQueue<Ticket>, lanes: u8, cycles: u32) -> Option<u64> {
    let mut check = 0;
    for cycle in 0..cycles {
        for lane in 0..lanes {
            let ticket = Ticket { frame: cycle, place: u32::from(lane) * FRAME_LENGTH, length: FRAME_LENGTH };
            queue.push(ticket).ok()?;
        }
        for _ in 0..lanes {
            let Ticket { frame, place, length } = queue.pop()?;
            check = folded(folded(folded(check, frame), place), length);
        }
    }
    Some(check)
}

fn time(lanes: u8, cycles: u32) -> Option<()> {
    let queue = ArrayQueue::new(CELLS * usize::from(lanes));
    let start = Instant::now();
    let check = run(&queue, lanes, cycles)?;
    let nanoseconds = start.elapsed().as_nanos();
    println!("lanes {lanes}, cycles {cycles}: check {check}\nnanoseconds {nanoseconds}");
    Some(())
}

fn asked(args: &[String]) -> Option<()> {
    match args {
        [mode, lanes, cycles] if mode == "time" => time(lanes.parse().ok()?, cycles.parse().ok()?),
        _ => None,
    }
}

fn main() -> ExitCode {
    let args: Vec<String> = env::args().skip(1).collect();
    match asked(&args) {
        Some(()) => ExitCode::SUCCESS,
        None => ExitCode::FAILURE,
    }
}
