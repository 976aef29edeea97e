//! Sync records: what a sender had when its view was to change.

use crate::view::{View, MEMBERS};

/// The most words of one sender in one view.
pub const WORDS: usize = 128;

/// A sender's newest records are kept, no more than this many.
pub const KEPT: usize = 4;

/// Per sender a count 0 to 128.
pub type Cut = [u8; MEMBERS];

#[derive(Clone, PartialEq, Eq)]
pub struct Record {
    pub number: u32,
    pub view: View,
    pub cut: Cut,
}

impl Record {
    pub fn well_formed(&self) -> bool {
        let counted = |m: usize| match self.view.set.has(m) {
            true => self.cut[m] as usize <= WORDS,
            false => self.cut[m] == 0,
        };
        self.view.well_formed() && (0..MEMBERS).all(counted)
    }
}

/// One sender's records, oldest first.
#[derive(Clone, Default)]
pub struct Records(pub Vec<Record>);

impl Records {
    /// None held counts as 0.
    pub fn newest(&self) -> u32 {
        self.0.last().map_or(0, |record| record.number)
    }

    pub fn numbered(&self, number: u32) -> Option<&Record> {
        self.0.iter().find(|record| record.number == number)
    }

    pub fn store(&mut self, record: Record) {
        if self.0.len() == KEPT {
            self.0.remove(0);
        }
        self.0.push(record);
    }

    pub fn sound(&self) -> bool {
        let rising = self.0.windows(2).all(|pair| pair[0].number < pair[1].number);
        self.0.len() <= KEPT && rising && self.0.iter().all(Record::well_formed)
    }
}
