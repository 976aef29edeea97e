//! The four slots of the word area and the marks of held words.

use crate::record::WORDS;
use crate::view::{View, MEMBERS};

pub const SLOTS: usize = 4;

/// The exact length of a word area.
pub const AREA: usize = SLOTS * MEMBERS * WORDS;

/// The place of word i (from 1) of a sender in a slot.
pub fn place(slot: usize, sender: usize, index: usize) -> usize {
    slot * MEMBERS * WORDS + sender * WORDS + index - 1
}

#[derive(Clone)]
pub struct Slot {
    pub view: View,
    /// Per sender: bit i − 1 marks word i as held.
    pub held: [u128; MEMBERS],
}

#[derive(Clone)]
pub struct Slots(pub [Option<Slot>; SLOTS]);

impl Slots {
    pub fn with_first(view: View) -> Slots {
        let mut slots = Slots([None, None, None, None]);
        slots.take(view);
        slots
    }

    pub fn used(&self) -> impl Iterator<Item = &Slot> {
        self.0.iter().flatten()
    }

    pub fn of(&self, view: &View) -> Option<usize> {
        self.0.iter().position(|slot| slot.as_ref().is_some_and(|slot| slot.view == *view))
    }

    pub fn is_full(&self) -> bool {
        self.0.iter().all(Option::is_some)
    }

    /// Callers have made sure that a slot is free.
    pub fn take(&mut self, view: View) -> usize {
        let free = self.0.iter().position(Option::is_none).expect("a free slot");
        self.0[free] = Some(Slot { view, held: [0; MEMBERS] });
        free
    }

    pub fn free_where(&mut self, gone: impl Fn(&View) -> bool) {
        for slot in &mut self.0 {
            if slot.as_ref().is_some_and(|slot| gone(&slot.view)) {
                *slot = None;
            }
        }
    }

    pub fn holds(&self, slot: usize, sender: usize, index: usize) -> bool {
        let held = self.0[slot].as_ref().map_or(0, |slot| slot.held[sender]);
        (1..=WORDS).contains(&index) && held >> (index - 1) & 1 == 1
    }

    pub fn mark(&mut self, slot: usize, sender: usize, index: usize) {
        let slot = self.0[slot].as_mut().expect("a used slot");
        slot.held[sender] |= 1 << (index - 1);
    }

    /// The longest k with words 1 to k all held.
    pub fn run(&self, slot: usize, sender: usize) -> usize {
        self.0[slot].as_ref().map_or(0, |slot| slot.held[sender].trailing_ones() as usize)
    }
}
