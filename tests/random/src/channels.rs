//! The channels between end-points: first in, first out, and bounded.

use crate::endpoint::Sent;
use crate::view::MEMBERS;
use std::collections::VecDeque;

/// The most messages that a channel holds.
pub const CHANNEL: usize = 256;

#[derive(Default)]
pub struct Channels([[VecDeque<Vec<u8>>; MEMBERS]; MEMBERS]);

impl Channels {
    pub fn between(&self, from: usize, to: usize) -> &VecDeque<Vec<u8>> {
        &self.0[from][to]
    }

    pub fn between_mut(&mut self, from: usize, to: usize) -> &mut VecDeque<Vec<u8>> {
        &mut self.0[from][to]
    }

    /// A destination that has not been made counts too.
    pub fn have_room(&self, from: usize, sent: &Sent) -> bool {
        sent.to.members().all(|to| self.0[from][to].len() < CHANNEL)
    }

    pub fn put(&mut self, from: usize, sent: &Sent) {
        for to in sent.to.members() {
            self.0[from][to].push_back(sent.message.write());
        }
    }
}
