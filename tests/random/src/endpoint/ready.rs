//! What the records held say of the change under way: named, T, agreed, due.

use super::EndPoint;
use crate::record::{Cut, Record, WORDS};
use crate::view::{Set, MEMBERS};

/// T, and what its members had of each sender.
pub struct Moving {
    pub set: Set,
    current: Set,
    cuts: [Cut; MEMBERS],
}

impl Moving {
    fn cut(&self, member: usize, sender: usize) -> usize {
        self.cuts[member][sender] as usize
    }

    pub fn agreed(&self, sender: usize) -> usize {
        self.set.members().map(|m| self.cut(m, sender)).max().unwrap_or(0)
    }

    /// Whether word i of a sender is due from one member to another.
    pub fn due(&self, from: usize, to: usize, sender: usize, index: usize) -> bool {
        let of_one_outside = self.current.has(sender) && !self.set.has(sender);
        let between_two = self.set.has(from) && self.set.has(to) && from != to;
        let mut lower = self.set.members().filter(|&m| m < from);
        of_one_outside
            && between_two
            && self.cut(to, sender) < index
            && self.cut(from, sender) >= index
            && !lower.any(|m| self.cut(m, sender) >= index)
    }
}

impl EndPoint {
    pub fn ready(&self) -> bool {
        self.pending
            && self.membership.id > self.current.id
            && self.membership.starts[self.number] == self.start_number
    }

    /// The members of both views.
    pub fn both(&self) -> Set {
        self.current.set.common(self.membership.set)
    }

    pub fn named(&self, member: usize) -> Option<&Record> {
        self.records[member].numbered(self.membership.starts[member])
    }

    /// The members of both views whose named record is not held.
    pub fn unnamed(&self) -> Set {
        self.both().members().filter(|&m| self.named(m).is_none()).fold(Set(0), Set::with)
    }

    pub fn moving(&self) -> Moving {
        let mut moving = Moving { set: Set(0), current: self.current.set, cuts: [[0; MEMBERS]; MEMBERS] };
        for member in self.both().members() {
            if let Some(record) = self.named(member).filter(|record| record.view == self.current) {
                moving.set = moving.set.with(member);
                moving.cuts[member] = record.cut;
            }
        }
        moving
    }

    /// The words of a sender that are due from here to a member, above the mark.
    pub fn owed(&self, moving: &Moving, to: usize, sender: usize) -> Vec<usize> {
        let above = self.forwarded[to][sender] + 1;
        (above..=WORDS).filter(|&index| moving.due(self.number, to, sender, index)).collect()
    }

    /// Whether a due word has not been forwarded.
    pub fn owes(&self, moving: &Moving) -> bool {
        let to_one = |to: usize| (0..MEMBERS).any(|sender| !self.owed(moving, to, sender).is_empty());
        moving.set.members().any(to_one)
    }
}
