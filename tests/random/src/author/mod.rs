//! Writes a random script, playing it on the model meanwhile so as to know where it stands.

mod blind;
mod brinks;
mod dress;
mod flood;
mod forge;
mod ghost;
mod honest;
mod look;
mod noise;
mod scenes;
mod service;
mod taste;

use crate::chance::Chance;
use crate::edges::BUFFER;
use crate::endpoint::EndPoint;
use crate::play::{Heard, Stage};
use crate::script::{self, Command};
use crate::view::{Set, MEMBERS};
use service::Service;
use std::collections::VecDeque;
use taste::{Flavour, Kind, Taste, Words};

pub struct Author {
    chance: Chance,
    taste: Taste,
    service: Service,
    stage: Stage,
    script: Vec<u8>,
    lines: usize,
    /// Where the author stops telling and only looks around.
    body: usize,
    total: usize,
    plan: VecDeque<String>,
    /// Channels whose head was refused, from and to.
    stuck: [[bool; MEMBERS]; MEMBERS],
    /// How often in a row nobody had anything useful to do.
    idle: usize,
}

/// The script of a seed, of so many lines.
pub fn script(seed: u64, lines: usize) -> Vec<u8> {
    let mut chance = Chance::new(seed);
    let taste = Taste::draw(&mut chance);
    let mut author = Author {
        chance,
        taste,
        service: Service::default(),
        stage: Stage::default(),
        script: Vec::new(),
        lines: 0,
        body: if lines >= 100 { lines - look::ROOM } else { lines },
        total: lines,
        plan: VecDeque::new(),
        stuck: Default::default(),
        idle: 0,
    };
    if lines > 0 {
        author.open();
        author.tell();
        author.look_around();
        author.close();
    }
    author.script
}

impl Author {
    fn open(&mut self) {
        let mut made: Vec<usize> = self.taste.made.members().collect();
        self.chance.shuffle(&mut made);
        for p in made {
            self.say(&format!("fresh {p}"));
        }
        self.begin();
        if self.taste.flavour == Flavour::Flood {
            self.flood();
        }
    }

    fn tell(&mut self) {
        while self.lines < self.body {
            if self.chance.percent(self.taste.keen) {
                if let Some(line) = self.plan.pop_front() {
                    self.say(&line);
                    continue;
                }
            }
            match self.chance.weighted(&self.taste.weights) {
                Some(Kind::Service) => self.serve(),
                Some(Kind::Scene) => self.scene(),
                Some(Kind::Blind) => self.blind(),
                Some(Kind::Forge) => self.forge(),
                Some(Kind::Noise) => self.noise(),
                Some(Kind::Look) => self.look(),
                Some(Kind::Honest) | None => self.honest(),
            }
        }
    }

    /// Now and then the last line lacks its end, or the script is as long as any buffer must hold.
    fn close(&mut self) {
        if self.chance.percent(2) && self.script.len() + 2 < BUFFER {
            let comment = BUFFER - self.script.len() - 1;
            self.script.push(b'#');
            self.script.extend(vec![b'x'; comment]);
        } else if self.chance.percent(10) {
            let ended = self.script.strip_suffix(b"\n").unwrap_or(&self.script);
            let bare = ended.strip_suffix(b"\r").unwrap_or(ended);
            // A last line that ends in CR alone could be read in two ways.
            if !bare.ends_with(b"\r") {
                self.script.truncate(bare.len());
            }
        }
    }

    /// Writes a command, perhaps in an unusual way.
    fn say(&mut self, line: &str) -> Option<Heard> {
        let dressed = match self.chance.percent(self.taste.dressed) {
            true => dress::dress(&mut self.chance, line),
            false => line.as_bytes().to_vec(),
        };
        self.write(&dressed)
    }

    fn write(&mut self, line: &[u8]) -> Option<Heard> {
        if self.script.len() + line.len() > BUFFER / 4 * 3 {
            self.hurry(line.len());
        }
        if self.lines >= self.total || self.leaves_open(line) {
            return None;
        }
        let end: &[u8] = if self.chance.percent(self.taste.dressed) { b"\r\n" } else { b"\n" };
        let start = self.script.len();
        self.script.extend(line);
        self.script.extend(end);
        self.lines += 1;
        // The line is read back from the script, for an odd line may end in CR itself.
        let line = script::lines(&self.script[start..])[0];
        self.stage.line(line).map(|line| line.heard)
    }

    /// A script that outgrew the buffer would test nothing, so it comes to its end before.
    fn hurry(&mut self, length: usize) {
        self.body = self.body.min(self.lines);
        self.total = self.total.min(self.body + look::ROOM);
        if self.script.len() + length + 2 > BUFFER {
            self.total = self.lines;
        }
    }

    /// Texts whose meaning the format leaves open are not written.
    fn leaves_open(&self, line: &[u8]) -> bool {
        let fields = script::fields(line);
        let unclear = |field: &&[u8]| script::set(field).is_some_and(|set| field.len() != text_length(set));
        let unmade = match script::command(&fields) {
            Some(Command::Channel(p, q)) => p < MEMBERS && (self.stage.desk(p).is_none() || p == q),
            _ => false,
        };
        line.contains(&b'\n') || fields.iter().any(unclear) || unmade
    }

    fn made(&self) -> Vec<usize> {
        (0..MEMBERS).filter(|&p| self.stage.desk(p).is_some()).collect()
    }

    fn is_made(&self, p: usize) -> bool {
        self.stage.desk(p).is_some()
    }

    /// A made end-point; the first line makes one.
    fn anyone(&mut self) -> usize {
        let made = self.made();
        self.chance.pick(&made)
    }

    /// A copy, so that it may be tried out.
    fn end_point(&self, p: usize) -> EndPoint {
        self.stage.desk(p).expect("a made end-point").end_point.clone()
    }

    fn other_than(&mut self, p: usize) -> usize {
        (p + 1 + self.chance.below(MEMBERS - 1)) % MEMBERS
    }

    fn some_set(&mut self) -> Set {
        Set(self.chance.long() as u8)
    }

    fn word(&mut self) -> u64 {
        match self.taste.words {
            Words::Few => self.chance.below(3) as u64,
            Words::Counted => self.lines as u64,
            Words::OneBit => 1 << self.chance.below(64),
            Words::Any => self.chance.long(),
        }
    }

    /// The same word for the same place at every end-point, mostly.
    fn word_of(&mut self, sender: usize, index: usize) -> u64 {
        let word = (sender * 1000 + index) as u64;
        let word = match self.taste.words {
            Words::Any => word.wrapping_mul(0x9e37_79b9_7f4a_7c15),
            Words::OneBit => 1 << (word % 64),
            _ => word,
        };
        match self.chance.below(50) {
            0 => self.word(),
            1 => word ^ 1 << self.chance.below(64),
            _ => word,
        }
    }
}

/// The length of a set written plainly: each member once, with one digit.
fn text_length(set: Set) -> usize {
    if set.is_empty() {
        2
    } else {
        2 * set.size() + 1
    }
}
