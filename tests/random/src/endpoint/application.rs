//! What the application does: it sends words and lets itself be blocked.

use super::{refuse_unless, Answer, Block, EndPoint};
use crate::record::WORDS;
use crate::slots::place;

impl EndPoint {
    pub fn send(&mut self, area: &mut [u64], word: u64) -> Answer<()> {
        self.steady_with(area)?;
        refuse_unless(5, self.block != Block::Blocked)?;
        let run = self.run(self.number);
        refuse_unless(6, run < WORDS)?;
        self.hold(area, self.current_slot(), self.number, run + 1, word);
        Ok(())
    }

    pub fn block_ok(&mut self) -> Answer<()> {
        self.steady()?;
        refuse_unless(4, self.block == Block::Asked)?;
        self.block = Block::Blocked;
        Ok(())
    }

    /// Marks are kept apart from the words, so both change together here alone.
    pub(super) fn hold(&mut self, area: &mut [u64], slot: usize, sender: usize, index: usize, word: u64) {
        self.slots.mark(slot, sender, index);
        area[place(slot, sender, index)] = word;
    }
}
