//! Which views no longer matter, and what becomes of their slots.

use super::EndPoint;
use crate::view::View;

impl EndPoint {
    pub fn spent(&self, view: &View) -> bool {
        let start = view.starts[self.number];
        let past = start < self.start_number || start == self.start_number && !self.pending;
        *view != self.current && (view.id <= self.current.id || past)
    }

    /// To be called by the steps that make views spent, before they take a slot.
    pub(super) fn free_spent(&mut self) {
        let mut slots = self.slots.clone();
        slots.free_where(|view| self.spent(view));
        self.slots = slots;
    }
}
