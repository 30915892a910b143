//! Performs the stored lists of calls, given on standard input, over the plain line, and prints what every call answered.
//!
//! It reads and writes what the program `crates/walks` does: a list begins with `line WORDS TRAYS` and ends with `end`; after
//! its answers come digests of the words and trays that it left.
use std::error::Error;
use std::fmt;
use std::io::{self, BufRead, Write};
use std::str::FromStr;
use twin::board::{Board, ByteBoard};
use twin::collector::{Collected, CollectorAnswer};
use twin::crew::{Crew, Draining, Open, Receipt, Refusal};
use twin::lane::LaneAnswer;

/// How many bytes stand behind the last word of the board.
const REST: usize = 5;

/// How many words, and how many trays, a spare has at most.
const SPARE: usize = 1152;

/// What a call answers, as its line of the output says it.
enum Answer {
    Accepted,
    Number(u64),
    Lane(LaneAnswer),
    Collector(CollectorAnswer),
    Refused(Refusal),
    Nothing,
    Spilled,
}

impl fmt::Display for Answer {
    fn fmt(&self, f: &mut fmt::Formatter) -> fmt::Result {
        match *self {
            Answer::Accepted => write!(f, "0"),
            Answer::Number(value) => write!(f, "0 {value}"),
            Answer::Lane(LaneAnswer::On) | Answer::Collector(CollectorAnswer::On) => write!(f, "0"),
            Answer::Lane(LaneAnswer::Posted { stamp, grants }) => write!(f, "0 {stamp} {grants}"),
            Answer::Lane(LaneAnswer::Full { grants }) => write!(f, "8 {grants}"),
            Answer::Lane(LaneAnswer::UsedUp { grants }) => write!(f, "9 {grants}"),
            Answer::Collector(CollectorAnswer::Ended(Collected::Empty { grants })) => {
                write!(f, "0 {grants}")
            }
            Answer::Collector(CollectorAnswer::Ended(Collected::Delivered { lane, stamp, grants })) => {
                write!(f, "0 {lane} {stamp} {grants}")
            }
            Answer::Refused(refusal) => write!(f, "{}", refusal.number()),
            Answer::Nothing => write!(f, "nothing"),
            Answer::Spilled => write!(f, "spilled"),
        }
    }
}

fn told<T>(result: Result<T, Refusal>, answer: impl FnOnce(T) -> Answer) -> Answer {
    match result {
        Ok(value) => answer(value),
        Err(refusal) => Answer::Refused(refusal),
    }
}

/// The crew of a list, open or draining.
enum Either {
    Open(Crew<Open>),
    Draining(Crew<Draining>),
}

/// A call that both kinds of crew have.
macro_rules! of_either {
    ($either:expr, $crew:ident => $call:expr) => {
        match $either {
            Either::Open($crew) => $call,
            Either::Draining($crew) => $call,
        }
    };
}

/// A list under way.
struct Walk {
    crew: Option<Either>,
    held: Option<Receipt>,
    bytes: Vec<u8>,
    trays: Vec<u64>,
}

impl Walk {
    fn begin(words: usize, trays: usize) -> Walk {
        let mut bytes = Vec::new();
        let mut word = 0u64;
        for _ in 0..words.min(SPARE) {
            word = word.wrapping_add(0x9e37_79b9_7f4a_7c15);
            bytes.extend(word.to_le_bytes());
        }
        bytes.extend([0; REST]);
        let trays = (0..trays as u64).map(|tray| 7_000_000 + tray).collect();
        Walk { crew: Some(Either::Open(Crew::new())), held: None, bytes, trays }
    }

    fn drain(&mut self) -> String {
        match self.crew.take() {
            Some(Either::Open(crew)) => {
                self.crew = Some(Either::Draining(crew.drain()));
                Answer::Accepted.to_string()
            }
            other => {
                self.crew = other;
                Answer::Nothing.to_string()
            }
        }
    }

    /// Performs a call with the list's own words and trays.
    fn call(&mut self, words: &[&str]) -> Result<String, Box<dyn Error>> {
        if words == ["drain"] {
            return Ok(self.drain());
        }
        let crew = self.crew.as_mut().ok_or("no list")?;
        perform(crew, &mut self.held, &mut self.bytes, &mut self.trays, words)
    }

    /// Performs a call with spare words and trays, which it must leave alone.
    fn call_short(&mut self, words: &[&str]) -> Result<String, Box<dyn Error>> {
        let mut bytes = vec![0; 8 * number::<usize>(words, 0)?.min(SPARE)];
        let mut trays = vec![0; number::<usize>(words, 1)?.min(SPARE)];
        let crew = self.crew.as_mut().ok_or("no list")?;
        let reply = perform(crew, &mut self.held, &mut bytes, &mut trays, &words[2..])?;
        if bytes.iter().any(|byte| *byte != 0) || trays.iter().any(|tray| *tray != 0) {
            return Ok(Answer::Spilled.to_string());
        }
        Ok(reply)
    }

    /// Grants an open collect to its end, and says what the list left.
    fn end(mut self) -> Result<String, Box<dyn Error>> {
        let crew = self.crew.as_mut().ok_or("no list")?;
        if self.held.is_some() {
            perform(crew, &mut self.held, &mut self.bytes, &mut self.trays, &["gc", "41"])?;
        }
        let board = ByteBoard::over(&mut self.bytes);
        let words = digest((0..board.len()).map(|k| board.load(k)));
        Ok(format!("same {words} {}", digest(self.trays.iter().copied())))
    }
}

fn perform(
    crew: &mut Either,
    held: &mut Option<Receipt>,
    bytes: &mut [u8],
    trays: &mut [u64],
    words: &[&str],
) -> Result<String, Box<dyn Error>> {
    let mut board = ByteBoard::over(bytes);
    let board = &mut board;
    let answer = match (words[0], &mut *crew) {
        ("lay", Either::Open(crew)) => {
            let (lanes, cells) = (number(words, 1)?, number(words, 2)?);
            told(crew.lay(board, trays, lanes, cells, number(words, 3)?), |()| Answer::Accepted)
        }
        ("post", Either::Open(crew)) => {
            let (lane, payload) = (number(words, 1)?, number(words, 2)?);
            told(crew.begin_post(trays, lane, payload), |()| Answer::Accepted)
        }
        ("grant", _) => {
            let lane = number(words, 1)?;
            return Ok(repeated(number(words, 2)?, || {
                told(of_either!(crew, c => c.grant_lane(board, trays, lane)), Answer::Lane)
            }));
        }
        ("gc", _) => {
            return Ok(repeated(number(words, 1)?, || {
                told(of_either!(crew, c => c.grant_collector(board, trays)), Answer::Collector)
            }));
        }
        ("collect", _) => match of_either!(crew, c => c.begin_collect()) {
            Ok(receipt) => {
                *held = Some(receipt);
                Answer::Accepted
            }
            Err(refusal) => Answer::Refused(refusal),
        },
        ("settle", _) => settle(crew, held)?,
        ("fill", _) => {
            let lane = number(words, 1)?;
            told(of_either!(crew, c => c.fill(lane)), |count| Answer::Number(count as u64))
        }
        ("see", _) => {
            let tray: usize = number(words, 1)?;
            trays.get(tray).map_or(Answer::Nothing, |payload| Answer::Number(*payload))
        }
        ("lay" | "post" | "drain", _) => Answer::Nothing,
        _ => return Err("unknown call".into()),
    };
    Ok(answer.to_string())
}

/// Up to so many grants, as long as the answer is on; says how many were made, and the last answer.
fn repeated(times: u64, mut grant: impl FnMut() -> Answer) -> String {
    for made in 1..=times {
        match grant() {
            Answer::Lane(LaneAnswer::On) | Answer::Collector(CollectorAnswer::On) => {}
            answer => return format!("{made}: {answer}"),
        }
    }
    format!("{times}: 0")
}

/// Settles with the receipt that is held, or with one that another crew gave out.
fn settle(crew: &mut Either, held: &mut Option<Receipt>) -> Result<Answer, Refusal> {
    let (receipt, own) = match held.take() {
        Some(receipt) => (receipt, true),
        None => (lent_receipt()?, false),
    };
    match of_either!(crew, c => c.settle(receipt)) {
        Ok(how) => Ok(Answer::Collector(CollectorAnswer::Ended(how))),
        Err(unspent) => {
            *held = Some(unspent.receipt).filter(|_| own);
            Ok(Answer::Refused(unspent.refusal))
        }
    }
}

fn lent_receipt() -> Result<Receipt, Refusal> {
    let mut bytes = [0; 48];
    let mut other = Crew::new();
    other.lay(&mut ByteBoard::over(&mut bytes), &[0; 4], 1, 2, 0)?;
    other.begin_collect()
}

fn digest(words: impl Iterator<Item = u64>) -> u64 {
    words.fold(0xcbf2_9ce4_8422_2325, |all, word| {
        let product = (all ^ word).wrapping_mul(0x100_0000_01b3);
        product ^ (product >> 29)
    })
}

fn number<T: FromStr>(words: &[&str], at: usize) -> Result<T, Box<dyn Error>> {
    let word = words.get(at).ok_or("a number is missing")?;
    word.parse().map_err(|_| format!("{word} is no number").into())
}

fn main() -> Result<(), Box<dyn Error>> {
    let mut out = io::stdout().lock();
    let mut walk = None;
    for line in io::stdin().lock().lines() {
        let line = line?;
        let words: Vec<&str> = line.split_whitespace().collect();
        match (&words[..], &mut walk) {
            (["line", ..], _) => walk = Some(Walk::begin(number(&words, 1)?, number(&words, 2)?)),
            (["end"], walk) => writeln!(out, "{}", walk.take().ok_or("no list")?.end()?)?,
            (["short", call @ ..], Some(walk)) => writeln!(out, "{}", walk.call_short(call)?)?,
            (call, Some(walk)) => writeln!(out, "{}", walk.call(call)?)?,
            (_, None) => return Err("no list".into()),
        }
    }
    Ok(())
}
