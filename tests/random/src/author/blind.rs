//! Any command with any arguments, in season or out.

use super::Author;
use crate::script::NAMES;
use crate::show;
use crate::view::{Set, View, MEMBERS};

impl Author {
    pub(super) fn blind(&mut self) {
        let line = self.some_line();
        self.say(&line);
    }

    pub(super) fn some_line(&mut self) -> String {
        let p = self.actor();
        let name = self.chance.pick(&NAMES);
        match name {
            "fresh" => {
                let late = if self.chance.percent(10) { self.chance.below(MEMBERS) } else { p };
                format!("fresh {}", self.chance.pick(&[late, late, late, 8, 200]))
            }
            "lose" | "channel" => {
                let q = self.some_member();
                format!("{name} {p} {q}")
            }
            "bytes" => format!("{p} bytes {} -", self.some_member()),
            "show" | "area" if self.chance.percent(80) => format!("{p} declare"),
            _ => format!("{p} {name}{}", self.arguments(p, name)),
        }
    }

    /// Mostly one that was made.
    fn actor(&mut self) -> usize {
        match self.chance.below(60) {
            0 => 8 + self.chance.below(248),
            1 => self.chance.below(MEMBERS),
            _ => self.anyone(),
        }
    }

    pub(super) fn some_member(&mut self) -> usize {
        match self.chance.below(40) {
            0 => 8 + self.chance.below(3),
            1 => self.chance.pick(&[15, 16, 64, 127, 128, 255]),
            _ => self.chance.below(MEMBERS),
        }
    }

    fn arguments(&mut self, p: usize, name: &str) -> String {
        match name {
            "send" => format!(" {}", self.word()),
            "start" => self.some_start(p),
            "view" => self.some_membership(p),
            "receive" | "give" => format!(" {}", self.some_member()),
            "forward" => format!(" {} {}", self.some_member(), self.some_member()),
            "batch" => {
                let room = self.chance.pick(&[0, 1, 2, 5, 100, 127, 128, 129, 255, 256]);
                format!(" {} {room}", self.some_member())
            }
            _ => String::new(),
        }
    }

    /// Near the latest start number, with and without the end-point itself.
    fn some_start(&mut self, p: usize) -> String {
        let latest = self.stage.desk(p).map_or(0, |desk| desk.end_point.start_number);
        let number = match self.chance.below(8) {
            0..=2 => latest,
            3..=5 => latest.saturating_add(1),
            6 => latest.saturating_sub(1),
            // A number near the top leaves an end-point little to live for, so it is rare.
            _ if self.chance.percent(10) => self.wild_number(),
            _ => latest.saturating_add(2),
        };
        let mut set = self.some_set();
        if p < MEMBERS && self.chance.percent(60) {
            set = set.with(p);
        }
        format!(" {number} {}", show::set(set))
    }

    /// Near what the end-point waits for: each part may be off.
    fn some_membership(&mut self, p: usize) -> String {
        let Some(desk) = self.stage.desk(p) else {
            return format!(" {}", show::view(&View::initial(p % MEMBERS)));
        };
        let e = desk.end_point.clone();
        let q = self.other_than(p);
        let mut set = e.start_set;
        match self.chance.below(6) {
            0 => set = set.without(p),
            1 => set = set.with(q),
            2 => set = self.some_set(),
            _ => {}
        }
        let off = self.chance.pick(&[0, 0, 0, 1, -1]);
        let id = e.membership.id.saturating_add_signed(self.chance.pick(&[1, 1, 1, 2, 0, -1]));
        let id = if self.chance.percent(3) { self.wild_number() } else { id };
        let mut starts = self.likely_starts(set);
        if set.has(p) {
            starts[p] = e.start_number.saturating_add_signed(off);
        }
        let view = View { id, set, starts };
        let view = if self.chance.percent(10) { self.variant(view) } else { view };
        let view = if self.chance.percent(4) { View::initial(self.chance.below(MEMBERS)) } else { view };
        format!(" {}", show::view(&view))
    }

    fn likely_starts(&mut self, set: Set) -> [u32; MEMBERS] {
        let numbers = self.service.changes.last().map_or([0; MEMBERS], |change| change.numbers);
        std::array::from_fn(|m| if set.has(m) { numbers[m].max(1) } else { 0 })
    }
}
