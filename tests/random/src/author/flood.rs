//! Channels filled to the brim, so that a step finds no room for its message.

use super::forge::bytes_line;
use super::Author;
use crate::channels::CHANNEL;
use crate::message::Message;
use crate::record::Record;
use crate::show;
use crate::view::{View, MEMBERS};

impl Author {
    /// Records for one start change after another fill the channels, nearly or wholly.
    pub(super) fn flood(&mut self) {
        if self.chance.percent(50) {
            self.drive(60);
            self.conclude();
            self.drive(60);
        }
        let p = self.anyone();
        let current = self.end_point(p).current.set;
        let others: Vec<usize> = current.without(p).members().collect();
        let leaver = if others.is_empty() { p } else { self.chance.pick(&others) };
        if leaver != p {
            self.hear(p, leaver, 12);
            self.say(&self.next_start(p, current.without(leaver)));
        }
        let room = if leaver == p { self.chance.pick(&[0, 0, 1]) } else { self.chance.below(9) };
        let level = CHANNEL - room;
        while self.fullest(p) < level && self.lines < self.body {
            self.start_and_sync(p);
        }
        self.forward_all(p, leaver);
        self.drive(60);
    }

    fn fullest(&self, p: usize) -> usize {
        (0..MEMBERS).map(|q| self.stage.channels.between(p, q).len()).max().unwrap_or(0)
    }

    /// The others lack words of one that left, so each of these is due to them.
    fn forward_all(&mut self, p: usize, leaver: usize) {
        let e = self.end_point(p);
        let number = |q: usize| e.records[q].newest().saturating_add((q != p) as u32);
        let starts = std::array::from_fn(|q| if e.start_set.has(q) { number(q) } else { 0 });
        let view = View { id: e.membership.id.saturating_add(1), set: e.start_set, starts };
        self.say(&format!("{p} view {}", show::view(&view)));
        let others: Vec<usize> = e.current.set.common(view.set).without(p).members().collect();
        for &q in &others {
            let mut cut = self.some_cut(&e, e.current.set);
            cut[leaver] = self.chance.below(3) as u8;
            let record = Record { number: starts[q], view: e.current, cut };
            self.say(&bytes_line(p, q, &Message::Sync(record).write()));
        }
        for &q in &others {
            for _ in 0..12 {
                self.say(&format!("{p} forward {q} {leaver}"));
            }
        }
    }
}
