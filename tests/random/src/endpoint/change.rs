//! A change of views: ask to block, sync, forward, install.

use super::{refuse_unless, Answer, Block, EndPoint, Sent};
use crate::message::Message;
use crate::record::Record;
use crate::slots::place;
use crate::view::{Set, View, MEMBERS};

impl EndPoint {
    pub fn ask(&mut self) -> Answer<()> {
        self.steady()?;
        refuse_unless(4, self.pending && self.block == Block::Free)?;
        self.block = Block::Asked;
        Ok(())
    }

    pub fn sync(&mut self) -> Answer<Sent> {
        self.steady()?;
        let synced = self.records[self.number].numbered(self.start_number).is_some();
        refuse_unless(4, self.pending && self.block == Block::Blocked && !synced)?;
        refuse_unless(8, self.start_set.within(self.declared))?;
        let count = |m: usize| if self.current.set.has(m) { self.run(m) as u8 } else { 0 };
        let record =
            Record { number: self.start_number, view: self.current, cut: std::array::from_fn(count) };
        self.records[self.number].store(record.clone());
        let to = self.start_set.without(self.number);
        Ok(Sent { to, message: Message::Sync(record) })
    }

    pub fn forward(&mut self, area: &[u64], to: usize, sender: usize) -> Answer<Sent> {
        self.steady_with(area)?;
        refuse_unless(1, to < MEMBERS && sender < MEMBERS)?;
        refuse_unless(4, self.ready())?;
        refuse_unless(9, self.unnamed().is_empty())?;
        let slot = self.current_slot();
        let owed = self.owed(&self.moving(), to, sender);
        let index = owed.into_iter().find(|&i| self.slots.holds(slot, sender, i)).ok_or(10)?;
        self.forwarded[to][sender] = index;
        let word = area[place(slot, sender, index)];
        let message = Message::Forward { sender, index, view: self.current, word };
        Ok(Sent { to: Set::only(to), message })
    }

    pub fn install(&mut self) -> Answer<(View, Set)> {
        self.steady()?;
        refuse_unless(4, self.ready())?;
        refuse_unless(9, self.unnamed().is_empty())?;
        let moving = self.moving();
        refuse_unless(12, !self.owes(&moving))?;
        let mut members = self.current.set.members();
        refuse_unless(13, members.all(|m| self.given[m] >= moving.agreed(m)))?;
        let mut members = self.current.set.members();
        refuse_unless(15, members.all(|m| self.given[m] <= moving.agreed(m)))?;
        self.enter(self.membership);
        Ok((self.current, moving.set))
    }

    fn enter(&mut self, view: View) {
        self.current = view;
        self.given = [0; MEMBERS];
        self.passed = 0;
        self.announced = false;
        self.pending = false;
        self.block = Block::Free;
        self.free_spent();
        if self.slots.of(&view).is_none() {
            self.slots.take(view);
        }
    }
}
