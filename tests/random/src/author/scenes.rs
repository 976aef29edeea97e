//! Longer stretches that lead to states which single steps seldom reach.

use super::forge::bytes_line;
use super::Author;
use crate::message::Message;
use crate::record::WORDS;
use crate::view::{Set, MEMBERS};

impl Author {
    pub(super) fn scene(&mut self) {
        match self.chance.below(10) {
            0..=3 => self.fade(),
            4 => self.ahead(),
            5 => self.cascade(),
            6 => self.fill(),
            7 => self.collect(),
            8 => self.loss(),
            _ => self.settle(),
        }
    }

    /// Useful steps of anyone, with the plan, and hardly a word sent.
    pub(super) fn drive(&mut self, lines: usize) {
        for _ in 0..lines {
            if self.lines >= self.body {
                return;
            }
            match self.plan.pop_front() {
                Some(line) if self.chance.percent(60) => {
                    self.say(&line);
                }
                Some(line) => self.plan.push_front(line),
                None => {}
            }
            let p = self.anyone();
            self.further(p, 2);
        }
    }

    pub(super) fn settle(&mut self) {
        let lines = 20 * self.made().len();
        self.conclude();
        self.drive(lines);
    }

    /// A member talks, is heard unevenly and leaves: cuts differ and forwards are due.
    fn fade(&mut self) {
        let p = self.anyone();
        let e = self.end_point(p);
        let current = e.current;
        let others: Vec<usize> = current.set.without(p).members().collect();
        if e.pending || others.len() < 2 {
            return self.settle();
        }
        let leaver = self.chance.pick(&others);
        self.talk_unevenly(leaver, current.set);
        if self.chance.percent(20) {
            let liar = self.chance.pick(&others);
            self.mislead(p, liar, leaver);
        }
        let slow: Vec<usize> = self.taste.speed[leaver].to_vec();
        self.taste.speed[leaver] = [1; MEMBERS];
        self.begin_with(current.set.without(leaver));
        self.drive(10 + 5 * others.len());
        self.settle();
        self.taste.speed[leaver].copy_from_slice(&slow);
    }

    fn talk_unevenly(&mut self, leaver: usize, set: Set) {
        let mut words = 1 + self.chance.below(7);
        if self.is_made(leaver) {
            for _ in 0..words {
                let word = self.word();
                self.say(&format!("{leaver} send {word}"));
            }
            self.say(&format!("{leaver} announce"));
            for _ in 0..words {
                self.say(&format!("{leaver} pass"));
            }
        }
        let hearers: Vec<usize> = set.without(leaver).members().filter(|&m| self.is_made(m)).collect();
        for &m in &hearers {
            // Now and then to the last place, where counts are prone to go wrong.
            let brink = hearers.len() <= 2 && !self.is_made(leaver) && self.chance.percent(5);
            words = if brink { WORDS } else { words };
            let heard = words - self.chance.below(words.min(7) + 1);
            self.hear(m, leaver, heard);
        }
    }

    /// A forged word where another is to come.
    fn mislead(&mut self, p: usize, liar: usize, sender: usize) {
        let e = self.end_point(p);
        let word = self.word();
        let index = WORDS.min(e.run(sender) + 1);
        let message = Message::Forward { sender, index, view: e.current, word };
        self.say(&bytes_line(p, liar, &message.write()));
    }

    /// Some words of a member, through its channel or forged.
    pub(super) fn hear(&mut self, p: usize, q: usize, words: usize) {
        let current = self.end_point(p).current;
        if self.is_made(q) {
            let waiting = self.stage.channels.between(q, p).len();
            for _ in 0..words.min(waiting) {
                self.say(&format!("{p} receive {q}"));
            }
            return;
        }
        if self.end_point(p).announced_views[q] != current {
            self.say(&bytes_line(p, q, &Message::View(current).write()));
        }
        let have = self.end_point(p).received[q];
        for next in have + 1..=words.max(have) {
            let word = self.word_of(q, next);
            self.say(&bytes_line(p, q, &Message::Word(word).write()));
        }
    }

    /// Everything that can be given out, in one batch or word by word.
    fn collect(&mut self) {
        let p = self.anyone();
        let set = self.end_point(p).current.set;
        for q in set.members() {
            if self.chance.percent(50) {
                let room = self.chance.pick(&[1, 64, 127, 128]);
                self.say(&format!("{p} batch {q} {room}"));
            }
            self.say(&format!("{p} give {q}"));
        }
    }

    /// Messages towards members that are no longer declared are lost, the last first.
    fn loss(&mut self) {
        for p in self.made() {
            let declared = self.end_point(p).declared;
            for q in (0..MEMBERS).filter(|&q| !declared.has(q)) {
                let waiting = self.stage.channels.between(p, q).len();
                if waiting > 0 && self.chance.percent(40) {
                    for _ in 0..1 + self.chance.below(waiting.min(4)) {
                        self.say(&format!("lose {p} {q}"));
                    }
                }
            }
        }
    }
}
