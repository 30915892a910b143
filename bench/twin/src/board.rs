//! The trait `Board`, and a board over lent bytes.

/// Marks an empty slot; what a load beyond the length answers.
pub const EMPTY: u64 = u64::MAX;

/// Where a counter stops: a take never answers more.
pub const STAMP_LIMIT: u64 = 1 << 62;

/// A list of 64-bit words of fixed length. A call that names a word beyond the length changes nothing.
pub trait Board {
    /// How many words there are.
    fn len(&self) -> usize;

    /// Word `k`, or `EMPTY` beyond the length.
    fn load(&self, k: usize) -> u64;

    /// Makes word `k` equal to `value`.
    fn store(&mut self, k: usize, value: u64);

    /// Says whether word `k` is `from`, and if it is, makes it `to`.
    fn swap(&mut self, k: usize, from: u64, to: u64) -> bool;

    /// Answers word `k` and raises it by one if it is below `STAMP_LIMIT`; otherwise answers `STAMP_LIMIT`.
    fn take(&mut self, k: usize) -> u64;
}

/// A board over lent bytes: word `k` lies little-endian at byte `8 * k`, and a rest under eight bytes is never touched.
pub struct ByteBoard<'a> {
    bytes: &'a mut [u8],
}

impl<'a> ByteBoard<'a> {
    pub fn over(bytes: &'a mut [u8]) -> Self {
        ByteBoard { bytes }
    }

    fn words(&self) -> &[[u8; 8]] {
        self.bytes.as_chunks().0
    }

    fn words_mut(&mut self) -> &mut [[u8; 8]] {
        self.bytes.as_chunks_mut().0
    }
}

impl Board for ByteBoard<'_> {
    fn len(&self) -> usize {
        self.words().len()
    }

    fn load(&self, k: usize) -> u64 {
        match self.words().get(k) {
            Some(word) => u64::from_le_bytes(*word),
            None => EMPTY,
        }
    }

    fn store(&mut self, k: usize, value: u64) {
        if let Some(word) = self.words_mut().get_mut(k) {
            *word = value.to_le_bytes();
        }
    }

    fn swap(&mut self, k: usize, from: u64, to: u64) -> bool {
        match self.words_mut().get_mut(k) {
            Some(word) if *word == from.to_le_bytes() => {
                *word = to.to_le_bytes();
                true
            }
            _ => false,
        }
    }

    fn take(&mut self, k: usize) -> u64 {
        let Some(word) = self.words_mut().get_mut(k) else {
            return STAMP_LIMIT;
        };
        let count = u64::from_le_bytes(*word);
        if count >= STAMP_LIMIT {
            return STAMP_LIMIT;
        }
        *word = (count + 1).to_le_bytes();
        count
    }
}
