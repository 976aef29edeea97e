//! Which answers came up, and which had to.

use crate::play::{Heard, Line};
use crate::script::NAMES;
use std::collections::BTreeMap;

/// Counts of (command, answer); a command that receives a message is named with the message's kind.
#[derive(Default)]
pub struct Seen(BTreeMap<(String, String), usize>);

/// What the scope lists for each command, and the errors of its own.
const WANTED: [(&str, &str); 29] = [
    ("fresh", "0,1,made twice"),
    ("send", "0,5,6"),
    ("block-ok", "0,4"),
    ("start", "0,2,3"),
    ("view", "0,1,2,3,4"),
    ("receive", "1,empty channel"),
    ("receive view", "0,3,7"),
    ("receive word", "0,6,14"),
    ("receive sync", "0,3"),
    ("receive forward", "0,14"),
    ("bytes odd", "1"),
    ("bytes view", "0,1,2,3,7"),
    ("bytes word", "0,1,4,6,14"),
    ("bytes sync", "0,1,2,3"),
    ("bytes forward", "0,1,2,14"),
    ("ask", "0,4"),
    ("declare", "0"),
    ("announce", "0,10,full channel"),
    ("pass", "0,4,10,full channel"),
    ("sync", "0,4,8,full channel"),
    ("forward", "0,1,4,9,10,full channel"),
    ("give", "0,1,2,10,11"),
    ("batch", "0,1,2,too many words"),
    ("install", "0,4,9,12,13"),
    ("lose", "0,empty channel,declared member,no such channel"),
    ("show", "0"),
    ("area", "0"),
    ("channel", "0,no such channel"),
    ("unknown", "unreadable"),
];

/// Listed for a step, but no end-point that began fresh comes to them, whatever it is given.
const BEYOND_REACH: [(&str, &str); 2] = [("announce", "8"), ("install", "15")];

impl Seen {
    pub fn count(&mut self, line: &Line) {
        let answer = match &line.heard {
            Heard::Accepted(..) => "0".to_string(),
            Heard::Refused(number) => number.to_string(),
            Heard::Wrong(wrong) => wrong.text().to_string(),
        };
        *self.0.entry((line.name.clone(), answer)).or_default() += 1;
    }

    pub fn join(&mut self, other: Seen) {
        for (pair, count) in other.0 {
            *self.0.entry(pair).or_default() += count;
        }
    }

    /// One line for each command: its answers, each with its count.
    pub fn table(&self) -> String {
        let mut rows: BTreeMap<&str, Vec<String>> = BTreeMap::new();
        for ((name, answer), count) in &self.0 {
            rows.entry(name).or_default().push(format!("{answer} × {count}"));
        }
        let lines = rows.into_iter().map(|(name, answers)| format!("{name:<16} {}\n", answers.join(", ")));
        lines.collect()
    }

    /// The pairs that had to come up and did not, and those that came up beyond reach.
    pub fn faults(&self) -> Vec<String> {
        let mut faults = Vec::new();
        for (name, answers) in WANTED {
            for answer in answers.split(',').filter(|answer| !self.has(name, answer)) {
                faults.push(format!("never came up: {name} {answer}"));
            }
        }
        for name in NAMES {
            let made = ["fresh", "channel"].contains(&name);
            let errors = if made { &["unreadable"][..] } else { &["unreadable", "not made"] };
            for error in errors.iter().filter(|error| !self.has_any(name, error)) {
                faults.push(format!("never came up: {name} {error}"));
            }
        }
        for (name, answer) in BEYOND_REACH.into_iter().filter(|(name, answer)| self.has(name, answer)) {
            faults.push(format!("came up, though beyond reach: {name} {answer}"));
        }
        faults
    }

    fn has(&self, name: &str, answer: &str) -> bool {
        self.0.contains_key(&(name.to_string(), answer.to_string()))
    }

    /// Whatever kind of message the command was about.
    fn has_any(&self, word: &str, answer: &str) -> bool {
        self.0.keys().any(|(name, given)| name.split(' ').next() == Some(word) && given == answer)
    }
}
