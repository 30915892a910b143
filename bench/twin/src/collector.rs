//! The collector: how far its collect has come, and what one grant makes of it.
use crate::board::{Board, EMPTY};
use crate::lane::Attempt;
use crate::shape::Shape;

/// The smallest stamp that a scan has seen so far, and the lane whose slot held it.
#[derive(Clone, Copy)]
pub struct Kept {
    lane: u8,
    stamp: u64,
}

impl Kept {
    const NOTHING: Kept = Kept { lane: 0, stamp: EMPTY };

    fn or_smaller(self, lane: u8, stamp: u64) -> Kept {
        if stamp < self.stamp { Kept { lane, stamp } } else { self }
    }

    fn lane(self) -> usize {
        usize::from(self.lane)
    }
}

/// How a collect ended.
#[derive(Clone, Copy, PartialEq, Eq, Debug)]
pub enum Collected {
    Empty { grants: u64 },
    Delivered { lane: usize, stamp: u64, grants: u64 },
}

#[derive(Clone, Copy, PartialEq, Eq, Debug)]
pub enum CollectorAnswer {
    On,
    Ended(Collected),
}

/// What the next grant does.
#[derive(Clone, Copy)]
pub enum Stage {
    Idle,
    ScanFirst { next: u8, kept: Kept },
    ScanSecond { next: u8, bound: u8, kept: Kept },
    Fetch { kept: Kept },
    Free { kept: Kept },
    SeeSlot { attempt: Attempt, kept: Kept },
    SeeTail { attempt: Attempt, kept: Kept, seen: u64 },
    SeeFront { attempt: Attempt, kept: Kept, seen: u64 },
    RefreshSlot { attempt: Attempt, kept: Kept, seen: u64, fresh: u64 },
    Ended(Collected),
}

enum Next {
    Goes(Stage),
    EndsEmpty,
    EndsDelivered(Kept),
}

pub struct Collector {
    pub stage: Stage,
    grants: u64,
    /// For each lane the cell that is freed next: copies of the heads on the board.
    pub heads: [u8; 16],
    pub delivered: u64,
}

impl Collector {
    pub const RESTING: Collector = Collector { stage: Stage::Idle, grants: 0, heads: [0; 16], delivered: 0 };

    pub fn is_begun(&self) -> bool {
        !matches!(self.stage, Stage::Idle)
    }

    pub fn is_under_way(&self) -> bool {
        !matches!(self.stage, Stage::Idle | Stage::Ended(_))
    }

    pub fn begin(&mut self) {
        self.stage = Stage::ScanFirst { next: 0, kept: Kept::NOTHING };
        self.grants = 0;
    }

    pub fn rest(&mut self) {
        self.stage = Stage::Idle;
        self.grants = 0;
    }

    fn head(&self, kept: Kept) -> u8 {
        self.heads[kept.lane()]
    }

    /// One grant of the collector.
    pub fn grant<B: Board, P: Copy>(&mut self, shape: Shape, board: &mut B, trays: &mut [P]) -> CollectorAnswer {
        let next = match self.stage {
            Stage::ScanFirst { next, kept } => {
                let slot = board.load(shape.slot(usize::from(next)));
                after_first(shape.lanes, next, kept.or_smaller(next, slot))
            }
            Stage::ScanSecond { next, bound, kept } => {
                let slot = board.load(shape.slot(usize::from(next)));
                after_second(bound, next, kept.or_smaller(next, slot))
            }
            Stage::Fetch { kept } => {
                trays[shape.collectors_hand()] = trays[shape.payload(kept.lane(), self.head(kept))];
                Next::Goes(Stage::Free { kept })
            }
            Stage::Free { kept } => {
                let head = shape.after(self.head(kept));
                self.heads[kept.lane()] = head;
                board.store(shape.head(kept.lane()), u64::from(head));
                Next::Goes(Stage::SeeSlot { attempt: Attempt::First, kept })
            }
            Stage::SeeSlot { attempt, kept } => {
                let seen = board.load(shape.slot(kept.lane()));
                Next::Goes(Stage::SeeTail { attempt, kept, seen })
            }
            Stage::SeeTail { attempt, kept, seen } => {
                if shape.cell(board.load(shape.tail(kept.lane()))) == self.head(kept) {
                    Next::Goes(Stage::RefreshSlot { attempt, kept, seen, fresh: EMPTY })
                } else {
                    Next::Goes(Stage::SeeFront { attempt, kept, seen })
                }
            }
            Stage::SeeFront { attempt, kept, seen } => {
                let fresh = board.load(shape.stamp(kept.lane(), self.head(kept)));
                Next::Goes(Stage::RefreshSlot { attempt, kept, seen, fresh })
            }
            Stage::RefreshSlot { attempt, kept, seen, fresh } => {
                match (board.swap(shape.slot(kept.lane()), seen, fresh), attempt) {
                    (false, Attempt::First) => Next::Goes(Stage::SeeSlot { attempt: Attempt::Second, kept }),
                    _ => Next::EndsDelivered(kept),
                }
            }
            resting => Next::Goes(resting),
        };
        self.step(next)
    }

    fn step(&mut self, next: Next) -> CollectorAnswer {
        let grants = self.grants + 1;
        match next {
            Next::Goes(stage) => {
                self.stage = stage;
                self.grants = grants;
                CollectorAnswer::On
            }
            Next::EndsEmpty => self.end(Collected::Empty { grants }),
            Next::EndsDelivered(kept) => {
                self.delivered = self.delivered.saturating_add(1);
                self.end(Collected::Delivered { lane: kept.lane(), stamp: kept.stamp, grants })
            }
        }
    }

    fn end(&mut self, how: Collected) -> CollectorAnswer {
        self.stage = Stage::Ended(how);
        self.grants = 0;
        CollectorAnswer::Ended(how)
    }
}

/// What follows the slot `at` of the first scan over `lanes` lanes.
fn after_first(lanes: u8, at: u8, kept: Kept) -> Next {
    if at + 1 < lanes {
        Next::Goes(Stage::ScanFirst { next: at + 1, kept })
    } else if kept.stamp == EMPTY {
        Next::EndsEmpty
    } else if kept.lane == 0 {
        Next::Goes(Stage::Fetch { kept })
    } else {
        Next::Goes(Stage::ScanSecond { next: 0, bound: kept.lane, kept })
    }
}

/// What follows the slot `at` of the second scan over the lanes below `bound`.
fn after_second(bound: u8, at: u8, kept: Kept) -> Next {
    if at + 1 < bound {
        Next::Goes(Stage::ScanSecond { next: at + 1, bound, kept })
    } else {
        Next::Goes(Stage::Fetch { kept })
    }
}
