//! What goes out while a view lasts: the declared set, the view and the words.

use super::{refuse_unless, Answer, EndPoint, Sent};
use crate::message::Message;
use crate::slots::place;
use crate::view::Set;

impl EndPoint {
    pub fn declare(&mut self) -> Answer<Set> {
        self.steady()?;
        self.declared = self.wanted();
        Ok(self.declared)
    }

    /// The set that a declare would bring about.
    pub fn wanted(&self) -> Set {
        match self.pending {
            true => self.current.set.joined(self.start_set),
            false => self.current.set,
        }
    }

    pub fn announce(&mut self) -> Answer<Sent> {
        self.steady()?;
        refuse_unless(8, self.current.set.within(self.declared))?;
        refuse_unless(10, !self.announced)?;
        self.announced = true;
        Ok(self.to_others(Message::View(self.current)))
    }

    pub fn pass(&mut self, area: &[u64]) -> Answer<Sent> {
        self.steady_with(area)?;
        refuse_unless(4, self.announced)?;
        refuse_unless(10, self.passed < self.run(self.number))?;
        self.passed += 1;
        let word = area[place(self.current_slot(), self.number, self.passed)];
        Ok(self.to_others(Message::Word(word)))
    }

    fn to_others(&self, message: Message) -> Sent {
        Sent { to: self.current.set.without(self.number), message }
    }
}
