//! An index by open addressing, as the store's `ProbeIndex`.
use crate::text::Text;

#[derive(Default)]
pub struct ProbeIndex {
    entries: Vec<(Text, u64)>,
    marks: Vec<u8>,
    numbers: Vec<u32>,
}

const WEIGHTS: [u64; 3] = [0x9e37_79b9_7f4a_7c15, 0xc2b2_ae3d_27d4_eb4f, 0x1656_67b1_9e37_79f9];
const FIRST_CELLS: usize = 40;

impl ProbeIndex {
    #[inline]
    fn hash(key: &Text) -> u64 {
        let mut sum = key.len;
        for (word, weight) in key.words.iter().zip(WEIGHTS) {
            sum = sum.wrapping_add(word.wrapping_mul(weight));
        }
        sum
    }

    #[inline]
    fn home(&self, hash: u64) -> usize {
        ((u128::from(hash) * self.marks.len() as u128) >> 64) as usize
    }

    #[inline]
    fn next(&self, cell: usize) -> usize {
        if cell + 1 == self.marks.len() {
            0
        } else {
            cell + 1
        }
    }

    /// The cell of a key, or the empty one in which it is to be put, and its mark.
    #[inline]
    fn cell(&self, key: &Text) -> (usize, u8) {
        let hash = ProbeIndex::hash(key);
        let mark = 128 + ((hash >> 32) % 128) as u8;
        let mut cell = self.home(hash);
        loop {
            let found = self.marks[cell];
            if found == 0 || (found == mark && self.entries[self.numbers[cell] as usize].0 == *key) {
                return (cell, mark);
            }
            cell = self.next(cell);
        }
    }

    #[inline]
    pub fn find(&self, key: &Text) -> Option<u64> {
        if self.entries.is_empty() {
            return None;
        }
        let (cell, _) = self.cell(key);
        (self.marks[cell] != 0).then(|| self.entries[self.numbers[cell] as usize].1)
    }

    /// Makes room for one more.
    #[inline]
    pub fn reserve(&mut self) {
        self.entries.reserve(1);
        if self.entries.len() >= self.marks.len() / 3 {
            self.grow();
        }
    }

    #[cold]
    fn grow(&mut self) {
        let cells = (self.marks.len() * 2).max(FIRST_CELLS);
        self.marks = vec![0; cells];
        self.numbers = vec![0; cells];
        for number in 0..self.entries.len() {
            let (cell, mark) = self.cell(&self.entries[number].0);
            self.marks[cell] = mark;
            self.numbers[cell] = number as u32;
        }
    }

    #[inline]
    pub fn put(&mut self, key: &Text, place: u64) {
        let (cell, mark) = self.cell(key);
        if self.marks[cell] != 0 {
            self.entries[self.numbers[cell] as usize].1 = place;
            return;
        }
        self.marks[cell] = mark;
        self.numbers[cell] = self.entries.len() as u32;
        self.entries.push((*key, place));
    }

    pub fn remove(&mut self, key: &Text) {
        let (cell, _) = self.cell(key);
        if self.marks[cell] == 0 {
            return;
        }
        let number = self.numbers[cell] as usize;
        let last = self.entries.len() - 1;
        if number != last {
            let (other, _) = self.cell(&self.entries[last].0);
            self.numbers[other] = number as u32;
        }
        self.entries.swap_remove(number);
        self.close_up(cell);
    }

    /// Keys behind an emptied cell move up, so that none is cut off from its home.
    fn close_up(&mut self, emptied: usize) {
        let cells = self.marks.len();
        let (mut hole, mut cell) = (emptied, self.next(emptied));
        while self.marks[cell] != 0 {
            let home = self.home(ProbeIndex::hash(&self.entries[self.numbers[cell] as usize].0));
            if (cell + cells - home) % cells >= (cell + cells - hole) % cells {
                self.marks[hole] = self.marks[cell];
                self.numbers[hole] = self.numbers[cell];
                hole = cell;
            }
            cell = self.next(cell);
        }
        self.marks[hole] = 0;
    }
}
