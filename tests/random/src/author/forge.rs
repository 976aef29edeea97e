//! Messages that no end-point sent, near to what the receiver expects.

use super::Author;
use crate::endpoint::EndPoint;
use crate::message::Message;
use crate::record::{Cut, Record, WORDS};
use crate::show;
use crate::view::{Set, View, MEMBERS};

impl Author {
    pub(super) fn forge(&mut self) {
        let p = self.anyone();
        let e = self.end_point(p);
        let q = match self.chance.below(50) {
            0 => p,
            1 => 8 + self.chance.below(248),
            _ => self.suspect(p),
        };
        let mut bytes = self.some_message(&e, q % MEMBERS).write();
        if self.chance.percent(12) {
            self.damage(&mut bytes);
        }
        self.say(&bytes_line(p, q, &bytes));
    }

    /// Mostly a member that was not made: what is forged for others upsets their channels.
    fn suspect(&mut self, p: usize) -> usize {
        let ghosts: Vec<usize> = (0..MEMBERS).filter(|&q| q != p && !self.is_made(q)).collect();
        match ghosts.is_empty() || self.chance.percent(10) {
            true => self.other_than(p),
            false => self.chance.pick(&ghosts),
        }
    }

    fn some_message(&mut self, e: &EndPoint, q: usize) -> Message {
        match self.chance.below(10) {
            0..=2 => Message::View(self.some_view(e, q)),
            3 | 4 => {
                let next = e.received[q] + 1;
                Message::Word(self.word_of(q, next))
            }
            5..=7 => Message::Sync(self.some_record(e, q)),
            _ => self.some_forward(e, q),
        }
    }

    /// A view that an end-point knows, or one ahead of it, or nearly one of these.
    pub(super) fn some_view(&mut self, e: &EndPoint, q: usize) -> View {
        let slot = self.chance.below(e.slots.0.len());
        let other = self.chance.below(MEMBERS);
        let given = self.service.views.last().copied();
        let view = match self.chance.below(12) {
            0..=2 => e.current,
            3 => e.membership,
            4 => e.slots.0[slot].as_ref().map_or(e.current, |slot| slot.view),
            5 => e.announced_views[other],
            6 => given.unwrap_or(e.membership),
            7 => View::initial(other),
            _ => self.view_ahead(e, q),
        };
        match self.chance.percent(25) {
            true => self.variant(view),
            false => view,
        }
    }

    /// A view with both members that comes after the current one.
    pub(super) fn view_ahead(&mut self, e: &EndPoint, q: usize) -> View {
        let set = self.some_set().with(e.number).with(q);
        let mut starts = [0; MEMBERS];
        for m in set.members() {
            let ghost = self.service.ghosts[m].saturating_add(self.chance.below(3) as u32);
            starts[m] = ghost.max(1);
        }
        let off = self.chance.pick(&[0, 0, 0, 0, 1, 2, -1]);
        starts[e.number] = e.start_number.saturating_add_signed(off).max(1);
        let seen = e.current.id.max(e.announced_views[q].id);
        let step = self.chance.pick(&[0, 1, 1, 1, 2, 3]);
        View { id: seen.saturating_add(step).max(1), set, starts }
    }

    /// A view that differs in one part; it may be malformed.
    pub(super) fn variant(&mut self, view: View) -> View {
        let mut other = view;
        let members: Vec<usize> = view.set.members().collect();
        let m = if members.is_empty() { 0 } else { self.chance.pick(&members) };
        match self.chance.below(20) {
            0..=7 => other.starts[m] = view.starts[m].wrapping_add(1),
            8..=10 => other.starts[m] = view.starts[m].saturating_sub(1),
            11..=13 => other.id = view.id.wrapping_add(1),
            14 | 15 => {
                other.set = view.set.without(m);
                other.starts[m] = 0;
            }
            // Like an initial view, but mostly not of exactly one member.
            16 => other = View { id: 0, set: view.set.with(m), starts: [0; MEMBERS] },
            17 => other = View { id: view.id, set: Set(0), starts: [0; MEMBERS] },
            _ => {
                let new = self.chance.below(MEMBERS);
                other.set = view.set.with(new);
                other.starts[new] = view.starts[new].max(1);
            }
        }
        other
    }

    pub(super) fn some_record(&mut self, e: &EndPoint, q: usize) -> Record {
        let view = match self.chance.below(10) {
            0..=5 if e.current.set.has(q) => e.current,
            4..=6 => View::initial(q),
            _ => self.some_view(e, q),
        };
        let newest = e.records[q].newest();
        let number = match self.chance.below(10) {
            0..=3 => e.membership.starts[q],
            4..=7 => newest.saturating_add(1 + self.chance.below(2) as u32),
            8 => newest,
            _ => self.wild_number(),
        };
        Record { number, view, cut: self.some_cut(e, view.set) }
    }

    /// Counts near what the end-point itself has.
    pub(super) fn some_cut(&mut self, e: &EndPoint, set: Set) -> Cut {
        let mut cut = [0; MEMBERS];
        for m in set.members() {
            let off = self.chance.pick(&[0, 0, 0, 1, 2, 4, -1, -2, -4]);
            let most = if m == e.number && !self.chance.percent(5) { e.run(m) } else { WORDS };
            cut[m] = e.run(m).saturating_add_signed(off).min(most) as u8;
            if self.chance.percent(2) {
                cut[m] = self.chance.pick(&[0, 127, 128, 129, 255]);
            }
        }
        if self.chance.percent(1) {
            cut[self.chance.below(MEMBERS)] = 1;
        }
        cut
    }

    fn some_forward(&mut self, e: &EndPoint, q: usize) -> Message {
        let ahead = e.slots.used().map(|slot| slot.view).find(|view| *view != e.current);
        let view = match self.chance.below(10) {
            0 => self.some_view(e, q),
            1 => self.variant(e.current),
            2 | 3 => ahead.unwrap_or(e.current),
            _ => e.current,
        };
        let sender = self.chance.below(MEMBERS);
        let run = e.run(sender);
        let index = match self.chance.below(8) {
            0..=3 => run + 1 + self.chance.below(3),
            4 | 5 => self.chance.below(run + 1),
            6 => self.chance.pick(&[1, 63, 64, 65, 127, 128, 129, 255]),
            _ => 1 + self.chance.below(WORDS),
        };
        let sender = if self.chance.percent(2) { 8 + self.chance.below(248) } else { sender };
        let word = self.word_of(sender, index);
        Message::Forward { sender, index: index.min(255), view, word }
    }

    /// Bytes that are nearly a message, or nothing like one.
    pub(super) fn damage(&mut self, bytes: &mut Vec<u8>) {
        let at = self.chance.below(bytes.len());
        match self.chance.below(8) {
            0 => bytes.truncate(at),
            1 => {
                bytes.pop();
            }
            2 => bytes.push(0),
            3 => bytes[0] = self.chance.pick(&[0, 1, 2, 3, 4, 5, 6, 7, 255]),
            4 | 5 => bytes[at] = self.chance.long() as u8,
            6 => *bytes = self.membership_bytes(),
            _ => {
                let length = self.chance.pick(&[0, 1, 6, 9, 38, 48, 50, 51, 300]);
                *bytes = (0..length).map(|_| self.chance.long() as u8).collect();
            }
        }
    }

    /// A start change or a membership view: well formed, but never from an end-point.
    fn membership_bytes(&mut self) -> Vec<u8> {
        let mut bytes = vec![5, 1, 0, 0, 0, 255];
        if self.chance.percent(50) {
            bytes = Message::View(View { id: 1, set: Set(255), starts: [1; MEMBERS] }).write();
            bytes[0] = 6;
        }
        bytes
    }

    pub(super) fn wild_number(&mut self) -> u32 {
        match self.chance.below(4) {
            0 => self.chance.below(4) as u32,
            1 => u32::MAX - self.chance.below(3) as u32,
            2 => (1 << 31) - 1 + self.chance.below(3) as u32,
            _ => self.chance.long() as u32,
        }
    }
}

pub fn bytes_line(p: usize, q: usize, bytes: &[u8]) -> String {
    let hex = if bytes.is_empty() { "-".to_string() } else { show::hex(bytes) };
    format!("{p} bytes {q} {hex}")
}
