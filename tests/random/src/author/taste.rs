//! What one script is like: who plays, what happens how often, which numbers and words.

use crate::chance::Chance;
use crate::view::{Set, MEMBERS};

#[derive(Clone, Copy, PartialEq, Eq)]
pub enum Kind {
    Honest,
    Service,
    Scene,
    Blind,
    Forge,
    Noise,
    Look,
}

#[derive(Clone, Copy, PartialEq, Eq)]
pub enum Flavour {
    /// Many end-points that talk to each other.
    Troupe,
    /// Few end-points in groups whose other members are forged.
    Solo,
    /// Words by the hundred.
    Chatter,
    /// Channels filled to the brim.
    Flood,
    /// Mostly forged messages.
    Forged,
    /// Mostly lines that can't be read.
    Noisy,
}

#[derive(Clone, Copy)]
pub enum Words {
    Few,
    Counted,
    OneBit,
    Any,
}

pub struct Taste {
    pub flavour: Flavour,
    pub made: Set,
    pub weights: Vec<(usize, Kind)>,
    /// The percentage of lines that follow the plan, where there is one.
    pub keen: usize,
    /// The percentage of changes that take in members that were not made.
    pub ghosts: usize,
    /// The percentage of the service's acts that come while a change is under way.
    pub unrest: usize,
    /// The percentage of changes that some members hear nothing of, or something else.
    pub flaws: usize,
    /// How readily a message from one member to another is received.
    pub speed: [[usize; MEMBERS]; MEMBERS],
    /// How many words are sent in a row, at most.
    pub burst: usize,
    pub talk: usize,
    pub words: Words,
    pub first_start: u32,
    pub first_id: u32,
    /// The percentage of lines that are written in an unusual way.
    pub dressed: usize,
}

const FIRST: [u32; 10] = [1, 1, 1, 1, 1, 254, 65_534, 0x7fff_fffd, 0xff_fffe, 0xffff_ffe0];

impl Taste {
    pub fn draw(chance: &mut Chance) -> Taste {
        let flavours = [
            (32, Flavour::Troupe),
            (30, Flavour::Solo),
            (12, Flavour::Chatter),
            (5, Flavour::Flood),
            (16, Flavour::Forged),
            (5, Flavour::Noisy),
        ];
        let flavour = chance.weighted(&flavours).unwrap_or(Flavour::Troupe);
        let words = [Words::Few, Words::Counted, Words::Counted, Words::OneBit, Words::Any];
        Taste {
            flavour,
            made: draw_made(chance, flavour),
            weights: weights(flavour),
            keen: chance.pick(&[20, 50, 80]),
            ghosts: draw_ghosts(chance, flavour),
            unrest: chance.pick(&[0, 0, 3, 10, 40]),
            flaws: chance.pick(&[0, 0, 8, 25]),
            speed: draw_speed(chance),
            burst: draw_burst(chance, flavour),
            talk: chance.pick(&[1, 4, 12]),
            words: chance.pick(&words),
            first_start: chance.pick(&FIRST),
            first_id: chance.pick(&FIRST),
            dressed: chance.pick(&[0, 3, 3, 10, 60]),
        }
    }
}

fn weights(flavour: Flavour) -> Vec<(usize, Kind)> {
    let [honest, service, scene, blind, forge, noise, look] = match flavour {
        Flavour::Troupe => [80, 3, 1, 8, 1, 3, 2],
        Flavour::Solo => [60, 3, 2, 12, 10, 3, 2],
        Flavour::Chatter => [85, 2, 1, 4, 3, 1, 1],
        Flavour::Flood => [70, 2, 2, 6, 4, 1, 2],
        Flavour::Forged => [30, 4, 3, 15, 40, 3, 2],
        Flavour::Noisy => [30, 3, 1, 15, 10, 40, 3],
    };
    vec![
        (honest, Kind::Honest),
        (service, Kind::Service),
        (scene, Kind::Scene),
        (blind, Kind::Blind),
        (forge, Kind::Forge),
        (noise, Kind::Noise),
        (look, Kind::Look),
    ]
}

fn draw_made(chance: &mut Chance, flavour: Flavour) -> Set {
    let count = match flavour {
        Flavour::Troupe => 2 + chance.below(7),
        Flavour::Chatter | Flavour::Noisy => 2 + chance.below(2),
        Flavour::Solo | Flavour::Forged => 1 + chance.below(3),
        Flavour::Flood => 1,
    };
    let mut members: Vec<usize> = (0..MEMBERS).collect();
    chance.shuffle(&mut members);
    members[..count].iter().fold(Set(0), |set, &member| set.with(member))
}

fn draw_ghosts(chance: &mut Chance, flavour: Flavour) -> usize {
    match flavour {
        Flavour::Troupe => chance.pick(&[0, 0, 0, 20]),
        Flavour::Chatter => chance.pick(&[0, 100]),
        _ => 100,
    }
}

fn draw_speed(chance: &mut Chance) -> [[usize; MEMBERS]; MEMBERS] {
    let speeds: &[usize] = match chance.below(3) {
        0 => &[100],
        1 => &[100, 40, 15],
        _ => &[100, 100, 20, 3],
    };
    std::array::from_fn(|_| std::array::from_fn(|_| chance.pick(speeds)))
}

fn draw_burst(chance: &mut Chance, flavour: Flavour) -> usize {
    match flavour {
        Flavour::Chatter => chance.pick(&[20, 60, 130]),
        _ => chance.pick(&[1, 3, 8]),
    }
}
