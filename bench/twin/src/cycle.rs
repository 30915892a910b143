//! Cycles: every lane posts a ticket, then as many collects take them out.
use std::fmt;
use twin::board::Board;
use twin::collector::{Collected, CollectorAnswer};
use twin::crew::{Crew, Open, Refusal, Unspent};
use twin::lane::LaneAnswer;

/// A frame that lies elsewhere: which one, where it starts and how long it is.
#[derive(Clone, Copy)]
pub struct Ticket {
    frame: u32,
    place: u32,
    length: u32,
}

impl Ticket {
    pub const BLANK: Ticket = Ticket { frame: 0, place: 0, length: 0 };

    fn of(cycle: u32, lane: u8) -> Ticket {
        Ticket { frame: cycle, place: u32::from(lane) * FRAME_LENGTH, length: FRAME_LENGTH }
    }
}

const FRAME_LENGTH: u32 = 4096;

/// More grants than a post, or a collect over sixteen lanes, can have.
const MOST_GRANTS: usize = 42;

/// Why the cycles stop.
pub enum Stop {
    Refused(Refusal),
    NotPosted,
    NotDelivered,
    Unsettled(Unspent),
}

impl fmt::Display for Stop {
    fn fmt(&self, f: &mut fmt::Formatter) -> fmt::Result {
        match self {
            Stop::Refused(refusal) => write!(f, "{refusal}"),
            Stop::NotPosted => write!(f, "a post did not end as posted"),
            Stop::NotDelivered => write!(f, "a collect did not end as delivered"),
            Stop::Unsettled(unspent) => write!(f, "a settling was {}", unspent.refusal),
        }
    }
}

impl From<Refusal> for Stop {
    fn from(refusal: Refusal) -> Stop {
        Stop::Refused(refusal)
    }
}

/// What was done: the grants, and a check over all that was delivered.
#[derive(Clone, Copy)]
pub struct Tally {
    pub grants: u64,
    pub check: u64,
}

impl Tally {
    const NOTHING: Tally = Tally { grants: 0, check: 0 };

    pub fn fold(&mut self, word: u64) {
        self.check = self.check.rotate_left(5).wrapping_add(word);
    }

    fn fold_ticket(&mut self, ticket: &Ticket) {
        self.fold(u64::from(ticket.frame));
        self.fold(u64::from(ticket.place));
        self.fold(u64::from(ticket.length));
    }
}

/// So many cycles over a line that was laid with `lanes` lanes.
pub fn run<B: Board>(
    crew: &mut Crew<Open>,
    board: &mut B,
    trays: &mut [Ticket],
    lanes: u8,
    cycles: u32,
) -> Result<Tally, Stop> {
    let mut tally = Tally::NOTHING;
    for cycle in 0..cycles {
        for lane in 0..lanes {
            let ticket = Ticket::of(cycle, lane);
            tally.grants += post(crew, board, trays, usize::from(lane), ticket)?;
        }
        for _ in 0..lanes {
            collect(crew, board, trays, usize::from(lanes), &mut tally)?;
        }
    }
    Ok(tally)
}

/// Posts a ticket, and says with how many grants.
fn post<B: Board>(
    crew: &mut Crew<Open>,
    board: &mut B,
    trays: &mut [Ticket],
    lane: usize,
    ticket: Ticket,
) -> Result<u64, Stop> {
    crew.begin_post(trays, lane, ticket)?;
    for _ in 0..MOST_GRANTS {
        match crew.grant_lane(board, trays, lane)? {
            LaneAnswer::On => {}
            LaneAnswer::Posted { grants, .. } => return Ok(grants),
            LaneAnswer::Full { .. } | LaneAnswer::UsedUp { .. } => return Err(Stop::NotPosted),
        }
    }
    Err(Stop::NotPosted)
}

/// Collects a ticket and tallies it; `hand` is the collector's hand.
fn collect<B: Board>(
    crew: &mut Crew<Open>,
    board: &mut B,
    trays: &mut [Ticket],
    hand: usize,
    tally: &mut Tally,
) -> Result<(), Stop> {
    let receipt = crew.begin_collect()?;
    for _ in 0..MOST_GRANTS {
        if let Ok(CollectorAnswer::Ended(_)) = crew.grant_collector(board, trays) {
            break;
        }
    }
    match crew.settle(receipt) {
        Ok(Collected::Delivered { stamp, grants, .. }) => {
            tally.grants += grants;
            tally.fold(stamp);
            if let Some(ticket) = trays.get(hand) {
                tally.fold_ticket(ticket);
            }
            Ok(())
        }
        Ok(Collected::Empty { .. }) => Err(Stop::NotDelivered),
        Err(unspent) => Err(Stop::Unsettled(unspent)),
    }
}
