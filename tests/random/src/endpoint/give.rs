//! Give out: words handed to the application, one or many.

use super::{refuse_unless, Answer, EndPoint};
use crate::slots::place;
use crate::view::MEMBERS;

impl EndPoint {
    pub fn give(&mut self, area: &[u64], from: usize) -> Answer<u64> {
        self.may_give(area, from)?;
        let next = self.given[from] + 1;
        let slot = self.current_slot();
        let passed = from != self.number || next <= self.passed;
        refuse_unless(10, self.slots.holds(slot, from, next) && passed)?;
        refuse_unless(11, self.limit(from).is_none_or(|limit| next <= limit))?;
        self.given[from] = next;
        Ok(area[place(slot, from, next)])
    }

    /// As many words as there is room for; 10 or 11 merely ends it.
    pub fn batch(&mut self, area: &[u64], from: usize, room: usize) -> Answer<Vec<u64>> {
        self.may_give(area, from)?;
        let mut words = Vec::new();
        while words.len() < room {
            match self.give(area, from) {
                Ok(word) => words.push(word),
                Err(_) => break,
            }
        }
        Ok(words)
    }

    fn may_give(&self, area: &[u64], from: usize) -> Answer<()> {
        self.steady_with(area)?;
        refuse_unless(1, from < MEMBERS)?;
        refuse_unless(2, self.current.set.has(from))
    }

    /// How far words may be given out; none before the own sync.
    fn limit(&self, from: usize) -> Option<usize> {
        let own = self.records[self.number].numbered(self.start_number);
        let own = own.filter(|_| self.pending)?;
        match self.ready() {
            true => Some(self.moving().agreed(from)),
            false => Some(own.cut[from] as usize),
        }
    }
}
