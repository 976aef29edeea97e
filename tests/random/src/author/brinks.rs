//! Bounds reached and overstepped: four slots, four records, 128 words.

use super::forge::bytes_line;
use super::Author;
use crate::endpoint::Block;
use crate::message::Message;
use crate::record::WORDS;
use crate::show;
use crate::view::Set;

impl Author {
    /// Views ahead of the end-point until no slot is free, with words in them.
    pub(super) fn ahead(&mut self) {
        let p = self.anyone();
        for _ in 0..3 + self.chance.below(6) {
            let q = self.other_than(p);
            let e = self.end_point(p);
            let view = self.view_ahead(&e, q);
            self.say(&bytes_line(p, q, &Message::View(view).write()));
            for _ in 0..self.chance.below(3) {
                let word = self.word();
                self.say(&bytes_line(p, q, &Message::Word(word).write()));
            }
            let other = self.other_than(p);
            if self.chance.percent(30) {
                self.say(&bytes_line(p, other, &Message::View(view).write()));
            }
        }
    }

    /// Start changes with a record for each, more than are kept.
    pub(super) fn cascade(&mut self) {
        let p = self.anyone();
        let q = self.other_than(p);
        for _ in 0..2 + self.chance.below(5) {
            self.start_and_sync(p);
            if self.chance.percent(50) {
                let e = self.end_point(p);
                let record = self.some_record(&e, q);
                self.say(&bytes_line(p, q, &Message::Sync(record).write()));
            }
        }
        self.conclude_alone();
        self.drive(10);
    }

    pub(super) fn next_start(&self, p: usize, set: Set) -> String {
        let number = match self.end_point(p).start_number {
            0 => self.taste.first_start,
            latest => latest.saturating_add(1),
        };
        format!("{p} start {number} {}", show::set(set))
    }

    pub(super) fn start_and_sync(&mut self, p: usize) {
        let e = self.end_point(p);
        let other = self.other_than(p);
        let set = match e.start_set.without(p).is_empty() {
            true => self.some_set().with(p).with(other),
            false => e.start_set.with(p),
        };
        self.say(&self.next_start(p, set));
        if e.block == Block::Free {
            self.say(&format!("{p} ask"));
        }
        if e.block != Block::Blocked {
            self.say(&format!("{p} block-ok"));
        }
        if !set.within(e.declared) {
            self.say(&format!("{p} declare"));
        }
        self.say(&format!("{p} sync"));
    }

    /// Words up to the last place, and one too many.
    pub(super) fn fill(&mut self) {
        let p = self.anyone();
        let e = self.end_point(p);
        let others: Vec<usize> = e.current.set.without(p).members().collect();
        if others.is_empty() || self.chance.percent(30) {
            let most = if e.block == Block::Blocked { e.run(p) } else { WORDS };
            for _ in e.run(p)..most + 2 {
                let word = self.word();
                self.say(&format!("{p} send {word}"));
            }
            return;
        }
        let q = self.chance.pick(&others);
        self.hear(p, q, 0);
        let have = self.end_point(p).received[q];
        let short = self.chance.below(4);
        for next in have + 1..=WORDS + 2 - short {
            let word = self.word_of(q, next);
            self.say(&bytes_line(p, q, &Message::Word(word).write()));
        }
        if self.chance.percent(60) {
            self.begin_with(e.current.set.without(q));
            self.drive(20);
            self.settle();
        }
    }
}
