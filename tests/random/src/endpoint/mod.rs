//! One end-point: what it remembers, fresh, and how a step answers.

mod application;
mod change;
mod give;
mod membership;
mod outgoing;
mod ready;
mod receive;
mod sound;
mod spent;

use crate::message::Message;
use crate::record::Records;
use crate::slots::{Slots, AREA};
use crate::view::{Set, View, MEMBERS};

/// A refusal is the scope's number.
pub type Answer<T> = Result<T, u8>;

#[derive(Clone, Copy, PartialEq, Eq)]
pub enum Block {
    Free,
    Asked,
    Blocked,
}

/// A message and the members it goes to.
pub struct Sent {
    pub to: Set,
    pub message: Message,
}

#[derive(Clone)]
pub struct EndPoint {
    pub number: usize,
    pub current: View,
    pub membership: View,
    pub start_number: u32,
    pub start_set: Set,
    pub open: bool,
    pub pending: bool,
    pub block: Block,
    pub declared: Set,
    pub announced: bool,
    pub passed: usize,
    /// Per other sender; the own entry is never looked at.
    pub announced_views: [View; MEMBERS],
    pub received: [usize; MEMBERS],
    pub given: [usize; MEMBERS],
    pub records: [Records; MEMBERS],
    /// Destination by sender.
    pub forwarded: [[usize; MEMBERS]; MEMBERS],
    pub slots: Slots,
}

impl EndPoint {
    pub fn fresh(number: usize) -> Answer<EndPoint> {
        refuse_unless(1, number < MEMBERS)?;
        Ok(EndPoint {
            number,
            current: View::initial(number),
            membership: View::initial(number),
            start_number: 0,
            start_set: Set(0),
            open: false,
            pending: false,
            block: Block::Free,
            declared: Set::only(number),
            announced: true,
            passed: 0,
            announced_views: std::array::from_fn(View::initial),
            received: [0; MEMBERS],
            given: [0; MEMBERS],
            records: Default::default(),
            forwarded: [[0; MEMBERS]; MEMBERS],
            slots: Slots::with_first(View::initial(number)),
        })
    }

    /// A sound end-point's current view always has a slot.
    pub fn current_slot(&self) -> usize {
        self.slots.of(&self.current).expect("the current view's slot")
    }

    /// The run of a sender in the current view.
    pub fn run(&self, sender: usize) -> usize {
        self.slots.run(self.current_slot(), sender)
    }

    /// Every step looks at this first.
    fn steady(&self) -> Answer<()> {
        refuse_unless(1, self.sound())
    }

    /// The same for a step that is lent the word area.
    fn steady_with(&self, area: &[u64]) -> Answer<()> {
        refuse_unless(1, self.sound() && area.len() == AREA)
    }
}

fn refuse_unless(number: u8, holds: bool) -> Answer<()> {
    if holds {
        Ok(())
    } else {
        Err(number)
    }
}
