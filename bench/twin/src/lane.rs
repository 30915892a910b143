//! A lane: how far its post has come, and what one grant makes of it.
use crate::board::{Board, STAMP_LIMIT};
use crate::shape::Shape;

/// The first or the second of the two tries at the slot.
#[derive(Clone, Copy)]
pub enum Attempt {
    First,
    Second,
}

/// What the next grant does. `stamp` is the post's own.
#[derive(Clone, Copy)]
pub enum Stage {
    AtRest,
    TestSpace,
    TakeStamp,
    FillCell { stamp: u64 },
    MarkCell { stamp: u64 },
    Publish { stamp: u64 },
    Look { attempt: Attempt, stamp: u64 },
    LoadHead { attempt: Attempt, stamp: u64, seen: u64 },
    LoadFront { attempt: Attempt, stamp: u64, seen: u64, head: u8 },
    SwapSlot { attempt: Attempt, stamp: u64, seen: u64 },
}

#[derive(Clone, Copy, PartialEq, Eq, Debug)]
pub enum LaneAnswer {
    On,
    Posted { stamp: u64, grants: u64 },
    Full { grants: u64 },
    UsedUp { grants: u64 },
}

enum Next {
    Goes(Stage),
    EndsPosted { stamp: u64 },
    EndsFull,
    EndsUsedUp,
}

/// A lane as it lies in the crew's array.
#[derive(Clone, Copy)]
pub struct Lane {
    pub tail: u8,
    stage: Stage,
    grants: u64,
}

impl Lane {
    pub const RESTING: Lane = Lane { tail: 0, stage: Stage::AtRest, grants: 0 };

    pub fn is_at_rest(&self) -> bool {
        matches!(self.stage, Stage::AtRest)
    }

    pub fn begin(&mut self) {
        self.stage = Stage::TestSpace;
        self.grants = 0;
    }

    /// One grant of this lane, which has the number `lane`.
    pub fn grant<B: Board, P: Copy>(
        &mut self,
        shape: Shape,
        lane: usize,
        board: &mut B,
        trays: &mut [P],
    ) -> LaneAnswer {
        let next = match self.stage {
            Stage::AtRest => Next::Goes(Stage::AtRest),
            Stage::TestSpace => {
                let head = shape.cell(board.load(shape.head(lane)));
                if head == shape.after(self.tail) { Next::EndsFull } else { Next::Goes(Stage::TakeStamp) }
            }
            Stage::TakeStamp => match board.take(shape.counter()) {
                STAMP_LIMIT => Next::EndsUsedUp,
                stamp => Next::Goes(Stage::FillCell { stamp }),
            },
            Stage::FillCell { stamp } => {
                trays[shape.payload(lane, self.tail)] = trays[shape.hand(lane)];
                Next::Goes(Stage::MarkCell { stamp })
            }
            Stage::MarkCell { stamp } => {
                board.store(shape.stamp(lane, self.tail), stamp);
                Next::Goes(Stage::Publish { stamp })
            }
            Stage::Publish { stamp } => {
                self.tail = shape.after(self.tail);
                board.store(shape.tail(lane), u64::from(self.tail));
                Next::Goes(Stage::Look { attempt: Attempt::First, stamp })
            }
            Stage::Look { attempt, stamp } => {
                let seen = board.load(shape.slot(lane));
                Next::Goes(Stage::LoadHead { attempt, stamp, seen })
            }
            Stage::LoadHead { attempt, stamp, seen } => {
                let head = shape.cell(board.load(shape.head(lane)));
                if head == self.tail {
                    Next::EndsPosted { stamp }
                } else {
                    Next::Goes(Stage::LoadFront { attempt, stamp, seen, head })
                }
            }
            Stage::LoadFront { attempt, stamp, seen, head } => {
                if board.load(shape.stamp(lane, head)) == stamp {
                    Next::Goes(Stage::SwapSlot { attempt, stamp, seen })
                } else {
                    Next::EndsPosted { stamp }
                }
            }
            Stage::SwapSlot { attempt, stamp, seen } => match (board.swap(shape.slot(lane), seen, stamp), attempt) {
                (false, Attempt::First) => Next::Goes(Stage::Look { attempt: Attempt::Second, stamp }),
                _ => Next::EndsPosted { stamp },
            },
        };
        self.step(next)
    }

    fn step(&mut self, next: Next) -> LaneAnswer {
        let grants = self.grants + 1;
        match next {
            Next::Goes(stage) => {
                self.stage = stage;
                self.grants = grants;
                LaneAnswer::On
            }
            Next::EndsPosted { stamp } => {
                self.rest();
                LaneAnswer::Posted { stamp, grants }
            }
            Next::EndsFull => {
                self.rest();
                LaneAnswer::Full { grants }
            }
            Next::EndsUsedUp => {
                self.rest();
                LaneAnswer::UsedUp { grants }
            }
        }
    }

    fn rest(&mut self) {
        self.stage = Stage::AtRest;
        self.grants = 0;
    }
}
