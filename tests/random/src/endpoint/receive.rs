//! Receive: a message from another end-point.

use super::{refuse_unless, Answer, EndPoint};
use crate::message::Message;
use crate::record::{Record, WORDS};
use crate::slots::place;
use crate::view::{View, MEMBERS};

impl EndPoint {
    pub fn receive(&mut self, area: &mut [u64], from: usize, bytes: &[u8]) -> Answer<()> {
        self.steady_with(area)?;
        refuse_unless(1, from < MEMBERS && from != self.number)?;
        match Message::read(bytes).ok_or(1)? {
            Message::View(view) => self.receive_view(from, view),
            Message::Word(word) => self.receive_word(area, from, word),
            Message::Sync(record) => self.receive_sync(from, record),
            Message::Forward { sender, index, view, word } => {
                let members = [self.number, from, sender].iter().all(|&m| view.set.has(m));
                refuse_unless(2, members && sender != self.number)?;
                self.receive_forward(area, sender, index, &view, word)
            }
        }
    }

    fn receive_view(&mut self, from: usize, view: View) -> Answer<()> {
        refuse_unless(2, view.set.has(self.number) && view.set.has(from))?;
        refuse_unless(3, view.id > self.announced_views[from].id)?;
        let needs_slot = !self.spent(&view) && self.slots.of(&view).is_none();
        refuse_unless(7, !(needs_slot && self.slots.is_full()))?;
        self.announced_views[from] = view;
        self.received[from] = 0;
        if needs_slot {
            self.slots.take(view);
        }
        Ok(())
    }

    fn receive_word(&mut self, area: &mut [u64], from: usize, word: u64) -> Answer<()> {
        let view = self.announced_views[from];
        refuse_unless(4, !view.is_initial())?;
        if self.spent(&view) {
            return Ok(());
        }
        refuse_unless(6, self.received[from] < WORDS)?;
        let slot = self.slots.of(&view).expect("the announced view's slot");
        self.place_word(area, slot, from, self.received[from] + 1, word)?;
        self.received[from] += 1;
        Ok(())
    }

    fn receive_sync(&mut self, from: usize, record: Record) -> Answer<()> {
        refuse_unless(2, record.view.set.has(from))?;
        refuse_unless(3, record.number > self.records[from].newest())?;
        self.records[from].store(record);
        Ok(())
    }

    fn receive_forward(
        &mut self,
        area: &mut [u64],
        sender: usize,
        index: usize,
        view: &View,
        word: u64,
    ) -> Answer<()> {
        if *view != self.current {
            return Ok(());
        }
        self.place_word(area, self.current_slot(), sender, index, word)
    }

    /// A word may come both from its sender and forwarded: then the two must be equal.
    fn place_word(
        &mut self,
        area: &mut [u64],
        slot: usize,
        sender: usize,
        index: usize,
        word: u64,
    ) -> Answer<()> {
        let held = self.slots.holds(slot, sender, index);
        refuse_unless(14, !held || area[place(slot, sender, index)] == word)?;
        self.hold(area, slot, sender, index, word);
        Ok(())
    }
}
