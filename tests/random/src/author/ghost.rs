//! What members that were not made would send: forged, but as if they were there.

use super::forge::bytes_line;
use super::honest::Choices;
use super::Author;
use crate::endpoint::EndPoint;
use crate::message::Message;
use crate::record::{Record, WORDS};
use crate::view::View;

impl Author {
    pub(super) fn ghost_moves(&mut self, e: &EndPoint, choices: &mut Choices) {
        let company = e.current.set.joined(e.start_set).joined(e.membership.set);
        for q in company.members().filter(|&q| q != e.number) {
            if !self.is_made(q) {
                self.ghost_talk(e, q, choices);
                self.ghost_sync(e, q, choices);
                self.ghost_forward(e, q, choices);
            }
        }
    }

    /// The ghost announces the current view and sends words in it.
    fn ghost_talk(&mut self, e: &EndPoint, q: usize, choices: &mut Choices) {
        let announced = e.announced_views[q];
        if e.current.set.has(q) && announced.id < e.current.id {
            push(choices, 50, e, q, Message::View(e.current));
        }
        if announced == e.current && e.received[q] < WORDS {
            let weight = self.taste.talk * self.taste.speed[q][e.number] / 100;
            let word = self.word_of(q, e.received[q] + 1);
            push(choices, weight, e, q, Message::Word(word));
        }
    }

    /// The ghost's record: for the start number that it was told, or the one that is named.
    fn ghost_sync(&mut self, e: &EndPoint, q: usize, choices: &mut Choices) {
        let newest = e.records[q].newest();
        let named = e.membership.starts[q];
        let told = self.service.ghosts[q];
        let missing = e.ready() && e.unnamed().has(q) && named > newest;
        let (weight, number) = match missing {
            true => (150, named),
            false => (40, told),
        };
        if number > newest && e.pending {
            let view = match self.chance.below(12) {
                0 => self.variant(e.current),
                1 => View::initial(q),
                _ if !e.current.set.has(q) => View::initial(q),
                _ => e.current,
            };
            let cut = self.some_cut(e, view.set);
            push(choices, weight, e, q, Message::Sync(Record { number, view, cut }));
        }
    }

    /// The ghost forwards a word that the end-point still needs.
    fn ghost_forward(&mut self, e: &EndPoint, q: usize, choices: &mut Choices) {
        let moving = e.moving();
        if !e.ready() || !moving.set.has(q) {
            return;
        }
        for sender in e.current.set.members().filter(|&r| r != e.number) {
            let run = e.run(sender);
            let agreed = moving.agreed(sender);
            if agreed > run {
                let index = run + 1 + self.chance.below(agreed - run);
                let word = self.word_of(sender, index);
                push(choices, 60, e, q, Message::Forward { sender, index, view: e.current, word });
            }
        }
    }
}

fn push(choices: &mut Choices, weight: usize, e: &EndPoint, q: usize, message: Message) {
    choices.push((weight, bytes_line(e.number, q, &message.write())));
}
