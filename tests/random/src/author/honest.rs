//! Steps that take a group further: what an end-point can do now, it does.

use super::Author;
use crate::endpoint::{Block, EndPoint};
use crate::play::Heard;
use crate::record::WORDS;
use crate::view::MEMBERS;

/// The weight of a step that will hardly be accepted.
const FUTILE: usize = 2;

/// Lines with their weights.
pub type Choices = Vec<(usize, String)>;

impl Author {
    pub(super) fn honest(&mut self) {
        let p = self.anyone();
        let talk = self.taste.talk;
        self.further(p, talk);
        // A group that is stuck needs another change, or the rest of the script is idle.
        if self.idle > 8 * self.made().len() && self.plan.is_empty() {
            self.idle = 0;
            self.disturb();
        }
    }

    /// One useful step of an end-point; talk is how readily it sends.
    pub(super) fn further(&mut self, p: usize, talk: usize) {
        let e = self.end_point(p);
        let mut choices = control(&e);
        self.traffic(p, &mut choices);
        self.handing(&e, &mut choices);
        forwards(&e, &mut choices);
        if e.ready() {
            choices.push((FUTILE, format!("{p} forward {} {}", self.some_member(), self.some_member())));
        }
        self.ghost_moves(&e, &mut choices);
        if e.block != Block::Blocked && e.run(p) < WORDS {
            choices.push((talk, format!("{p} send")));
        }
        // To rest is a choice too, else one that has little to do would do it all the time.
        choices.push((30, String::new()));
        let useful = choices.iter().any(|(weight, line)| *weight > FUTILE && !line.is_empty());
        self.idle = if useful { 0 } else { self.idle + 1 };
        match self.chance.weighted(&choices) {
            Some(line) if !line.is_empty() => self.follow(p, &line),
            _ => {}
        }
    }

    fn follow(&mut self, p: usize, line: &str) {
        if line.ends_with(" send") {
            return self.burst(p);
        }
        let heard = self.say(line);
        if let Some((_, from)) = line.split_once(" receive ") {
            let from: usize = from.parse().unwrap_or(0);
            self.stuck[from][p] = matches!(heard, Some(Heard::Refused(_)));
        }
    }

    fn burst(&mut self, p: usize) {
        for _ in 0..1 + self.chance.below(self.taste.burst) {
            let word = self.word();
            self.say(&format!("{p} send {word}"));
        }
    }

    /// What waits in the channels towards an end-point.
    fn traffic(&mut self, p: usize, choices: &mut Choices) {
        for q in 0..MEMBERS {
            if !self.stage.channels.between(q, p).is_empty() {
                let speed = if self.stuck[q][p] { FUTILE } else { 2 + 2 * self.taste.speed[q][p] };
                choices.push((speed, format!("{p} receive {q}")));
            }
        }
    }

    /// Words that could be given out; those beyond the cut are tried seldom.
    fn handing(&mut self, e: &EndPoint, choices: &mut Choices) {
        let p = e.number;
        let slot = e.current_slot();
        for q in e.current.set.members() {
            let next = e.given[q] + 1;
            if !e.slots.holds(slot, q, next) || q == p && next > e.passed {
                continue;
            }
            let area = &self.stage.desk(p).expect("a made end-point").area;
            let allowed = e.clone().give(area, q).is_ok();
            let any = self.chance.below(WORDS + 1);
            let room = self.chance.pick(&[0, 1, 2, 3, 5, 127, 128, any]);
            let weight = if allowed { 20 } else { FUTILE };
            choices.push((weight, format!("{p} give {q}")));
            choices.push((weight, format!("{p} batch {q} {room}")));
        }
    }
}

/// What the end-point's own state asks for.
fn control(e: &EndPoint) -> Choices {
    let synced = e.records[e.number].numbered(e.start_number).is_some();
    let blocked = e.block == Block::Blocked;
    let steps = [
        (60, "ask", e.pending && e.block == Block::Free),
        (60, "block-ok", e.block == Block::Asked),
        (80, "declare", e.declared != e.wanted()),
        (80, "announce", !e.announced && e.current.set.within(e.declared)),
        (80, "pass", e.announced && e.passed < e.run(e.number)),
        (90, "sync", e.pending && blocked && !synced && e.start_set.within(e.declared)),
        (FUTILE, "install", e.ready()),
        (20, "install", e.ready() && e.owes(&e.moving())),
        (200, "install", e.ready() && e.clone().install().is_ok()),
    ];
    let wanted = steps.into_iter().filter(|(_, _, wanted)| *wanted);
    wanted.map(|(weight, step, _)| (weight, format!("{} {step}", e.number))).collect()
}

fn forwards(e: &EndPoint, choices: &mut Choices) {
    if !e.ready() || !e.unnamed().is_empty() {
        return;
    }
    let moving = e.moving();
    for to in moving.set.members() {
        for sender in e.current.set.members() {
            if !e.owed(&moving, to, sender).is_empty() {
                choices.push((150, format!("{} forward {to} {sender}", e.number)));
            }
        }
    }
}
