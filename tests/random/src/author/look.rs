//! Looking at end-points, areas and channels, not so often that transcripts explode.

use super::Author;
use crate::view::MEMBERS;

/// The lines kept for the end: two for each end-point and some channels.
pub const ROOM: usize = 28;

/// Areas and channels with more in them are shown seldom.
const MUCH: usize = 200;

impl Author {
    pub(super) fn look(&mut self) {
        let p = self.anyone();
        let q = self.chance.below(MEMBERS);
        match self.chance.below(4) {
            0 | 1 => {
                self.say(&format!("{p} show"));
            }
            2 => self.show_area(p, 10),
            _ => self.show_channel(p, q, 10),
        }
    }

    fn show_area(&mut self, p: usize, seldom: usize) {
        let area = &self.stage.desk(p).expect("a made end-point").area;
        let words = area.iter().filter(|&&word| word != 0).count();
        if words < MUCH || self.chance.percent(seldom) {
            self.say(&format!("{p} area"));
        }
    }

    fn show_channel(&mut self, p: usize, q: usize, seldom: usize) {
        let waiting = self.stage.channels.between(p, q).len();
        if waiting < MUCH / 4 || self.chance.percent(seldom) {
            self.say(&format!("channel {p} {q}"));
        }
    }

    /// The end of a script: what all came to, so that no difference stays hidden.
    pub(super) fn look_around(&mut self) {
        for p in self.made() {
            self.say(&format!("{p} show"));
            self.show_area(p, 60);
        }
        while self.lines < self.total {
            let (p, q) = (self.anyone(), self.chance.below(MEMBERS));
            self.show_channel(p, q, 30);
        }
    }
}
