//! The pages of a listing: rooms that a call fills from the front with whole assignments.
use crate::Assignment;

/// The words of a listing's first page, and how far pages grow. Every page costs a whole walk.
pub const FIRST_PAGE: usize = 1 << 16;
const MOST_PAGE: usize = 1 << 22;

/// A page, of which the words from `at` to `end` are still to be given.
#[derive(Clone, Debug)]
pub struct Page {
    room: Vec<u64>,
    at: usize,
    end: usize,
}

impl Page {
    /// So many words, but room for at least one assignment of `longest` words.
    pub fn new(words: usize, longest: usize) -> Self {
        Self { room: vec![0; words.max(longest)], at: 0, end: 0 }
    }

    /// What is lent to the call.
    pub fn room(&mut self) -> &mut [u64] {
        &mut self.room
    }

    /// The call has written so many words.
    pub fn begin(&mut self, words: u64) {
        (self.at, self.end) = (0, words as usize);
    }

    /// How many words the call left free.
    pub fn free(&self) -> usize {
        self.room.len() - self.end
    }

    pub fn is_used_up(&self) -> bool {
        self.at == self.end
    }

    /// Room for a longer page behind this one.
    pub fn grow(&mut self) {
        let grown = (2 * self.room.len()).min(MOST_PAGE).max(self.room.len());
        self.room.resize(grown, 0);
    }

    /// The next assignment; none where the page is used up.
    pub fn give(&mut self) -> Option<Assignment> {
        let assignment = Assignment::front(&self.room[self.at..self.end])?;
        self.at += assignment.words().len();
        Some(assignment)
    }
}
