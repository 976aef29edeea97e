//! When an end-point is sound.

use super::EndPoint;
use crate::record::WORDS;
use crate::view::MEMBERS;

impl EndPoint {
    pub fn sound(&self) -> bool {
        self.number < MEMBERS
            && self.views_sound()
            && self.counts_sound()
            && self.records_sound()
            && self.slots_sound()
            && self.runs_sound()
    }

    fn others(&self) -> impl Iterator<Item = usize> + '_ {
        (0..MEMBERS).filter(|&m| m != self.number)
    }

    fn views_sound(&self) -> bool {
        self.current.well_formed()
            && self.membership.well_formed()
            && self.current.set.has(self.number)
            && self.membership.set.has(self.number)
            && self.others().all(|m| self.announced_views[m].well_formed())
            && self.slots.used().all(|slot| slot.view.well_formed())
    }

    fn counts_sound(&self) -> bool {
        self.passed <= WORDS
            && self.others().all(|m| self.received[m] <= WORDS)
            && self.given.iter().all(|&given| given <= WORDS)
            && self.forwarded.iter().flatten().all(|&mark| mark <= WORDS)
    }

    fn records_sound(&self) -> bool {
        let own = &self.records[self.number];
        self.records.iter().all(|records| records.sound()) && own.newest() <= self.start_number
    }

    fn slots_sound(&self) -> bool {
        let views: Vec<_> = self.slots.used().map(|slot| &slot.view).collect();
        let different = (0..views.len()).all(|k| !views[..k].contains(&views[k]));
        let has_slot = |m: usize| {
            let view = &self.announced_views[m];
            view.is_initial() || self.spent(view) || self.slots.of(view).is_some()
        };
        different
            && views.iter().all(|view| !self.spent(view))
            && self.slots.of(&self.current).is_some()
            && self.others().all(has_slot)
    }

    fn runs_sound(&self) -> bool {
        let no_gap = |held: u128| held.count_ones() == held.trailing_ones();
        self.slots.used().all(|slot| no_gap(slot.held[self.number]))
            && (0..MEMBERS).all(|m| self.given[m] <= self.run(m))
            && self.passed <= self.run(self.number)
    }
}
