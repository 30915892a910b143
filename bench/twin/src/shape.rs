//! How many lanes and cells a line has, and where its words and trays lie.

#[derive(Clone, Copy)]
pub struct Shape {
    pub lanes: u8,
    pub cells: u8,
}

impl Shape {
    /// Before the first laying.
    pub const NONE: Shape = Shape { lanes: 0, cells: 0 };

    pub fn new(lanes: usize, cells: usize) -> Option<Shape> {
        if (1..=16).contains(&lanes) && (2..=64).contains(&cells) {
            Some(Shape { lanes: lanes as u8, cells: cells as u8 })
        } else {
            None
        }
    }

    fn n(self) -> usize {
        usize::from(self.lanes)
    }

    fn cells_before(self, lane: usize) -> usize {
        lane * usize::from(self.cells)
    }

    pub fn has_lane(self, lane: usize) -> bool {
        lane < self.n()
    }

    pub fn is_none(self) -> bool {
        self.lanes == 0
    }

    pub fn words(self) -> usize {
        1 + 3 * self.n() + self.cells_before(self.n())
    }

    pub fn trays(self) -> usize {
        self.n() + 1 + self.cells_before(self.n())
    }

    pub fn fits(self, words: usize, trays: usize) -> bool {
        self.words() <= words && self.trays() <= trays
    }

    pub fn counter(self) -> usize {
        0
    }

    pub fn slot(self, lane: usize) -> usize {
        1 + lane
    }

    pub fn head(self, lane: usize) -> usize {
        1 + self.n() + lane
    }

    pub fn tail(self, lane: usize) -> usize {
        1 + 2 * self.n() + lane
    }

    pub fn stamp(self, lane: usize, cell: u8) -> usize {
        1 + 3 * self.n() + self.cells_before(lane) + usize::from(cell)
    }

    pub fn hand(self, lane: usize) -> usize {
        lane
    }

    pub fn collectors_hand(self) -> usize {
        self.n()
    }

    pub fn payload(self, lane: usize, cell: u8) -> usize {
        self.n() + 1 + self.cells_before(lane) + usize::from(cell)
    }

    /// The cell that a word means, whatever the word holds.
    pub fn cell(self, word: u64) -> u8 {
        (word % u64::from(self.cells)) as u8
    }

    /// The cell after `cell`, round the ring.
    pub fn after(self, cell: u8) -> u8 {
        (cell + 1) % self.cells
    }

    /// How many cells lie from `head` on and before `tail`.
    pub fn between(self, head: u8, tail: u8) -> usize {
        usize::from((tail + self.cells - head) % self.cells)
    }
}
