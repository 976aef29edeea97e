//! What the membership service says: start changes and views.

use super::{refuse_unless, Answer, EndPoint};
use crate::view::{Set, View, MEMBERS};

impl EndPoint {
    pub fn start(&mut self, number: u32, set: Set) -> Answer<()> {
        self.steady()?;
        refuse_unless(2, set.has(self.number))?;
        refuse_unless(3, number > self.start_number)?;
        self.start_number = number;
        self.start_set = set;
        self.open = true;
        self.pending = true;
        self.free_spent();
        Ok(())
    }

    pub fn membership_view(&mut self, view: View) -> Answer<()> {
        self.steady()?;
        refuse_unless(1, view.well_formed())?;
        refuse_unless(2, view.set.has(self.number))?;
        refuse_unless(3, view.id > self.membership.id)?;
        let in_turn =
            self.open && view.starts[self.number] == self.start_number && view.set.within(self.start_set);
        refuse_unless(4, in_turn)?;
        self.membership = view;
        self.open = false;
        self.forwarded = [[0; MEMBERS]; MEMBERS];
        Ok(())
    }
}
