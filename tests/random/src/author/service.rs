//! The membership service, as far as the author plays it: start changes, views, partitions, merges.

use super::Author;
use crate::show;
use crate::view::{Set, View, MEMBERS};

/// A change under way: who was told, and with which start numbers.
#[derive(Clone)]
pub struct Change {
    pub set: Set,
    pub numbers: [u32; MEMBERS],
}

#[derive(Default)]
pub struct Service {
    pub changes: Vec<Change>,
    /// The latest start numbers of the members that were not made.
    pub ghosts: [u32; MEMBERS],
    /// Views that were given to someone.
    pub views: Vec<View>,
    /// The line of its last act.
    pub last: usize,
}

impl Author {
    /// A change is begun when all is quiet, concluded when it is open, and seldom disturbed.
    pub(super) fn serve(&mut self) {
        if let Some(line) = self.plan.pop_front() {
            self.say(&line);
            return;
        }
        let made = self.made();
        let open = made.iter().any(|&p| self.end_point(p).open);
        let pending = made.iter().any(|&p| self.end_point(p).pending);
        let late = self.lines > self.service.last + 30 + 20 * made.len();
        match (open, pending) {
            (_, true) if late || self.chance.percent(self.taste.unrest) => self.disturb(),
            (true, _) => self.conclude(),
            (false, true) => return self.honest(),
            (false, false) => self.begin(),
        }
        self.service.last = self.lines;
    }

    pub(super) fn disturb(&mut self) {
        match self.chance.below(8) {
            0..=2 => self.begin(),
            3 => self.conclude(),
            4 => self.conclude_alone(),
            5 => self.part(),
            _ => self.again(),
        }
    }

    /// Plans start changes for a company.
    pub(super) fn begin(&mut self) {
        let set = self.company();
        self.begin_with(set);
    }

    pub(super) fn begin_with(&mut self, set: Set) -> Change {
        let numbers = std::array::from_fn(|m| if set.has(m) { self.next_number(m) } else { 0 });
        let told = match self.chance.percent(10) {
            true => set.joined(self.some_set()),
            false => set,
        };
        let mut members: Vec<usize> = set.members().filter(|&m| self.is_made(m)).collect();
        self.chance.shuffle(&mut members);
        let missed = if self.chance.percent(self.taste.flaws) { 30 } else { 0 };
        for m in members {
            if !self.chance.percent(missed) {
                self.plan.push_back(format!("{m} start {} {}", numbers[m], show::set(told)));
            }
        }
        let change = Change { set, numbers };
        self.service.changes.push(change.clone());
        change
    }

    /// A start number that is newer, mostly by one.
    fn next_number(&mut self, m: usize) -> u32 {
        let latest = match self.stage.desk(m) {
            Some(desk) => desk.end_point.start_number,
            None => self.service.ghosts[m],
        };
        let step = if self.chance.percent(85) { 1 } else { 1 + self.chance.below(4) as u32 };
        let next = match latest {
            0 => self.taste.first_start + step - 1,
            _ => latest.saturating_add(step),
        };
        if !self.is_made(m) {
            self.service.ghosts[m] = next;
        }
        next
    }

    /// Who is to be in the next view: all, some, fewer, more.
    fn company(&mut self) -> Set {
        let p = self.anyone();
        let made = self.made().into_iter().fold(Set(0), Set::with);
        let current = self.end_point(p).current.set;
        let other = self.anyone();
        let set = match self.chance.below(10) {
            0 | 1 => made,
            2..=4 => current,
            5 | 6 => current.without(self.other_than(p)),
            7 => current.joined(self.end_point(other).current.set),
            8 => current.with(self.other_than(p)),
            _ => self.some_set(),
        };
        let with_ghosts = self.chance.percent(self.taste.ghosts);
        let set = if with_ghosts { self.some_ghosts(set) } else { set.common(made) };
        set.with(p)
    }

    /// A few members that were not made, for without them a lone end-point has no company.
    fn some_ghosts(&mut self, set: Set) -> Set {
        match set.size() {
            0..=2 => set.joined(self.some_set()),
            _ => set,
        }
    }

    /// Plans the view that ends a change, for its members; mostly one that somebody waits for.
    pub(super) fn conclude(&mut self) {
        let Some(change) = self.recent_change() else { return };
        if self.waiting(&change) > 0 || self.chance.percent(10) {
            self.conclude_change(&change);
        }
    }

    fn conclude_change(&mut self, change: &Change) {
        let mut set = change.set;
        if self.chance.percent(20) {
            set = set.without(self.chance.below(MEMBERS));
        }
        let numbers = std::array::from_fn(|m| if set.has(m) { change.numbers[m] } else { 0 });
        let view = View { id: self.next_id(set), set, starts: numbers };
        self.plan_view(view);
    }

    /// Mostly the change whose start numbers are still the latest for most of its members.
    fn recent_change(&mut self) -> Option<Change> {
        let likely = self.chance.percent(85);
        let mut changes = self.service.changes.iter().rev().take(5);
        match likely {
            true => changes.max_by_key(|change| self.waiting(change)).cloned(),
            false => changes.next().cloned(),
        }
    }

    /// How many of its members wait for a change's view.
    fn waiting(&self, change: &Change) -> usize {
        let told = change.set.members().filter_map(|m| self.stage.desk(m)).map(|desk| &desk.end_point);
        told.filter(|e| e.open && e.start_number == change.numbers[e.number]).count()
    }

    /// An id that is newer for all, the same in partitions that went alike.
    fn next_id(&mut self, set: Set) -> u32 {
        let ids = set.members().filter_map(|m| self.stage.desk(m)).map(|desk| desk.end_point.membership.id);
        let latest = ids.max().unwrap_or(0);
        let step = if self.chance.percent(85) { 1 } else { 1 + self.chance.below(5) as u32 };
        match latest {
            0 => self.taste.first_id + step - 1,
            _ => latest.saturating_add(step),
        }
    }

    fn plan_view(&mut self, view: View) {
        self.service.views.push(view);
        let mut members: Vec<usize> = view.set.members().filter(|&m| self.is_made(m)).collect();
        self.chance.shuffle(&mut members);
        let missed = if self.chance.percent(self.taste.flaws) { 30 } else { 0 };
        let mistaken = if self.chance.percent(self.taste.flaws) { 30 } else { 0 };
        for m in members {
            let told = if self.chance.percent(mistaken) { self.variant(view) } else { view };
            if !self.chance.percent(missed) {
                self.plan.push_back(format!("{m} view {}", show::view(&told)));
            }
        }
    }

    /// A view for one end-point that fits its latest start change and names records that it holds.
    pub(super) fn conclude_alone(&mut self) {
        let p = self.anyone();
        let e = self.end_point(p);
        let mut set = e.start_set.with(p);
        if self.chance.percent(30) {
            set = set.without(self.other_than(p));
        }
        let mut starts = [0; MEMBERS];
        for m in set.members() {
            let held = &e.records[m].0;
            let older = if self.chance.percent(30) { self.chance.below(4) } else { 0 };
            starts[m] = match held.iter().rev().nth(older).or(held.last()) {
                _ if m == p => e.start_number,
                Some(record) => record.number.max(1),
                None => self.service.ghosts[m].max(1),
            };
        }
        let view = View { id: self.next_id(Set::only(p)), set, starts };
        self.service.views.push(view);
        self.plan.push_front(format!("{p} view {}", show::view(&view)));
    }

    /// Two companies go apart, each with its own view of the same id.
    fn part(&mut self) {
        let all = self.made().into_iter().fold(Set(0), Set::with);
        let half = self.some_set();
        for set in [all.common(half), all.common(Set(!half.0))] {
            if !set.is_empty() {
                let change = self.begin_with(set);
                self.conclude_change(&change);
            }
        }
    }

    /// A cascade: those who were told last are told again before any view.
    fn again(&mut self) {
        let Some(change) = self.recent_change() else { return };
        for _ in 0..1 + self.chance.below(3) {
            self.begin_with(change.set);
        }
    }
}
