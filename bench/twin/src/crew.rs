//! The crew and its calls. Each call tests in a fixed order, and the first test that fails gives the refusal.
use crate::board::{Board, EMPTY, STAMP_LIMIT};
use crate::collector::{Collected, Collector, CollectorAnswer, Stage};
use crate::lane::{Lane, LaneAnswer};
use crate::shape::Shape;
use std::error::Error;
use std::fmt;
use std::marker::PhantomData;

/// Why a call was refused. A refused call leaves board, trays and crew as they were.
#[derive(Clone, Copy, PartialEq, Eq, Debug)]
pub enum Refusal {
    BadShape,
    BadStart,
    TooShort,
    NeverLaid,
    NoLane,
    PostUnderWay,
    NoPost,
    CollectUnsettled,
    NoCollect,
    CollectNotEnded,
    NotDone,
}

impl Refusal {
    pub fn number(self) -> u8 {
        match self {
            Refusal::BadShape => 1,
            Refusal::BadStart => 2,
            Refusal::TooShort => 3,
            Refusal::NeverLaid => 4,
            Refusal::NoLane => 5,
            Refusal::PostUnderWay => 6,
            Refusal::NoPost => 7,
            Refusal::CollectUnsettled => 10,
            Refusal::NoCollect => 11,
            Refusal::CollectNotEnded => 12,
            Refusal::NotDone => 13,
        }
    }
}

impl fmt::Display for Refusal {
    fn fmt(&self, f: &mut fmt::Formatter) -> fmt::Result {
        write!(f, "refused with {}", self.number())
    }
}

impl Error for Refusal {}

/// A begun collect, as its owner holds it.
#[must_use]
#[derive(Debug)]
pub struct Receipt(());

/// A settling that was refused: why, and the receipt, which is not spent.
#[derive(Debug)]
pub struct Unspent {
    pub refusal: Refusal,
    pub receipt: Receipt,
}

#[derive(Clone, Copy, PartialEq, Eq, Debug)]
pub struct Totals {
    pub posted: u64,
    pub delivered: u64,
}

/// A crew for which posts can be begun.
pub struct Open;

/// A crew for which no post can be begun.
pub struct Draining;

pub struct Crew<State> {
    shape: Shape,
    lanes: [Lane; 16],
    collector: Collector,
    posted: u64,
    state: PhantomData<State>,
}

impl Crew<Open> {
    /// A crew that was never laid.
    pub fn new() -> Self {
        Crew::resting(Shape::NONE)
    }

    pub fn lay<B: Board, P>(
        &mut self,
        board: &mut B,
        trays: &[P],
        lanes: usize,
        cells: usize,
        start: u64,
    ) -> Result<(), Refusal> {
        let shape = Shape::new(lanes, cells).ok_or(Refusal::BadShape)?;
        if start > STAMP_LIMIT {
            return Err(Refusal::BadStart);
        }
        if self.collector.is_begun() {
            return Err(Refusal::CollectUnsettled);
        }
        if !shape.fits(board.len(), trays.len()) {
            return Err(Refusal::TooShort);
        }
        lay_words(board, shape, start);
        *self = Crew::resting(shape);
        Ok(())
    }

    pub fn begin_post<P: Copy>(&mut self, trays: &mut [P], lane: usize, payload: P) -> Result<(), Refusal> {
        let shape = self.laid()?;
        if trays.len() < shape.trays() {
            return Err(Refusal::TooShort);
        }
        if !shape.has_lane(lane) {
            return Err(Refusal::NoLane);
        }
        let own = &mut self.lanes[lane];
        if !own.is_at_rest() {
            return Err(Refusal::PostUnderWay);
        }
        trays[shape.hand(lane)] = payload;
        own.begin();
        Ok(())
    }

    pub fn drain(self) -> Crew<Draining> {
        Crew {
            shape: self.shape,
            lanes: self.lanes,
            collector: self.collector,
            posted: self.posted,
            state: PhantomData,
        }
    }
}

impl<State> Crew<State> {
    fn resting(shape: Shape) -> Self {
        Crew { shape, lanes: [Lane::RESTING; 16], collector: Collector::RESTING, posted: 0, state: PhantomData }
    }

    /// The shape of the line, once one was laid.
    fn laid(&self) -> Result<Shape, Refusal> {
        if self.shape.is_none() { Err(Refusal::NeverLaid) } else { Ok(self.shape) }
    }

    pub fn grant_lane<B: Board, P: Copy>(
        &mut self,
        board: &mut B,
        trays: &mut [P],
        lane: usize,
    ) -> Result<LaneAnswer, Refusal> {
        let shape = self.laid()?;
        if !shape.fits(board.len(), trays.len()) {
            return Err(Refusal::TooShort);
        }
        if !shape.has_lane(lane) {
            return Err(Refusal::NoLane);
        }
        let own = &mut self.lanes[lane];
        if own.is_at_rest() {
            return Err(Refusal::NoPost);
        }
        let answer = own.grant(shape, lane, board, trays);
        if let LaneAnswer::Posted { .. } = answer {
            self.posted = self.posted.saturating_add(1);
        }
        Ok(answer)
    }

    pub fn begin_collect(&mut self) -> Result<Receipt, Refusal> {
        self.laid()?;
        if self.collector.is_begun() {
            return Err(Refusal::CollectUnsettled);
        }
        self.collector.begin();
        Ok(Receipt(()))
    }

    pub fn grant_collector<B: Board, P: Copy>(
        &mut self,
        board: &mut B,
        trays: &mut [P],
    ) -> Result<CollectorAnswer, Refusal> {
        let shape = self.laid()?;
        if !shape.fits(board.len(), trays.len()) {
            return Err(Refusal::TooShort);
        }
        if !self.collector.is_under_way() {
            return Err(Refusal::NoCollect);
        }
        Ok(self.collector.grant(shape, board, trays))
    }

    pub fn settle(&mut self, receipt: Receipt) -> Result<Collected, Unspent> {
        if let Err(refusal) = self.laid() {
            return Err(Unspent { refusal, receipt });
        }
        match self.collector.stage {
            Stage::Idle => Err(Unspent { refusal: Refusal::NoCollect, receipt }),
            Stage::Ended(how) => {
                self.collector.rest();
                Ok(how)
            }
            _ => Err(Unspent { refusal: Refusal::CollectNotEnded, receipt }),
        }
    }

    pub fn fill(&self, lane: usize) -> Result<usize, Refusal> {
        let shape = self.laid()?;
        if !shape.has_lane(lane) {
            return Err(Refusal::NoLane);
        }
        Ok(self.frames_in(shape, lane))
    }

    fn frames_in(&self, shape: Shape, lane: usize) -> usize {
        shape.between(self.collector.heads[lane], self.lanes[lane].tail)
    }
}

impl Crew<Draining> {
    pub fn report(&self) -> Result<Totals, Refusal> {
        let shape = self.laid()?;
        if !self.is_done(shape) {
            return Err(Refusal::NotDone);
        }
        Ok(Totals { posted: self.posted, delivered: self.collector.delivered })
    }

    fn is_done(&self, shape: Shape) -> bool {
        !self.collector.is_begun()
            && (0..usize::from(shape.lanes))
                .all(|lane| self.lanes[lane].is_at_rest() && self.frames_in(shape, lane) == 0)
    }
}

/// Stores the words of a line with nothing under way.
fn lay_words<B: Board>(board: &mut B, shape: Shape, start: u64) {
    board.store(shape.counter(), start);
    for k in shape.slot(0)..shape.head(0) {
        board.store(k, EMPTY);
    }
    for k in shape.head(0)..shape.words() {
        board.store(k, 0);
    }
}
