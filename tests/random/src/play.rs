//! The stage: end-points with their areas, the channels, and every command played on them.

use crate::channels::Channels;
use crate::endpoint::{Answer, EndPoint, Sent};
use crate::script::{self, Command, Step};
use crate::show;
use crate::slots::AREA;
use crate::view::MEMBERS;

/// An end-point with the word area that is lent to it.
pub struct Desk {
    pub end_point: EndPoint,
    pub area: Vec<u64>,
}

#[derive(Default)]
pub struct Stage {
    pub desks: [Option<Desk>; MEMBERS],
    pub channels: Channels,
}

/// Why a command itself is wrong.
#[derive(Clone, Copy)]
pub enum Wrong {
    Unreadable,
    NotMade,
    MadeTwice,
    EmptyChannel,
    Declared,
    NoSuchChannel,
    TooManyWords,
    FullChannel,
}

pub enum Heard {
    Accepted(String, Vec<String>),
    Refused(u8),
    Wrong(Wrong),
}

/// What a line was: its name for the counts, and the answer.
pub struct Line {
    pub name: String,
    pub heard: Heard,
}

type Played = Result<Heard, Wrong>;

impl Stage {
    /// A line with no field has no answer.
    pub fn line(&mut self, line: &[u8]) -> Option<Line> {
        let fields = script::fields(line);
        if fields.is_empty() {
            return None;
        }
        let Some(command) = script::command(&fields) else {
            let name = script::name(&fields).unwrap_or("unknown").to_string();
            return Some(Line { name, heard: Heard::Wrong(Wrong::Unreadable) });
        };
        let name = self.name(script::name(&fields).unwrap_or("unknown"), &command);
        let heard = self.command(command).unwrap_or_else(Heard::Wrong);
        Some(Line { name, heard })
    }

    /// A message's kind is part of the name, for the steps that receive one.
    fn name(&self, word: &str, command: &Command) -> String {
        let bytes = match command {
            Command::Step(_, Step::Bytes(_, bytes)) => Some(bytes),
            Command::Step(p, Step::Receive(q)) if *p < MEMBERS && *q < MEMBERS => {
                self.channels.between(*q, *p).front()
            }
            _ => None,
        };
        let kinds = ["odd", "view", "word", "sync", "forward"];
        match bytes {
            Some(bytes) => {
                let kind = bytes.first().and_then(|&kind| kinds.get(kind as usize));
                format!("{word} {}", kind.unwrap_or(&"odd"))
            }
            None => word.to_string(),
        }
    }

    pub fn desk(&self, p: usize) -> Option<&Desk> {
        self.desks.get(p)?.as_ref()
    }

    fn command(&mut self, command: Command) -> Played {
        match command {
            Command::Fresh(p) => self.fresh(p),
            Command::Lose(p, q) => self.lose(p, q),
            Command::Channel(p, q) => self.channel(p, q),
            Command::Step(p, _) if self.desk(p).is_none() => Err(Wrong::NotMade),
            Command::Step(p, Step::Receive(q)) => self.receive(p, q),
            Command::Step(p, step @ (Step::Announce | Step::Pass | Step::Sync | Step::Forward(..))) => {
                self.send_out(p, step)
            }
            Command::Step(p, step) => self.desks[p].as_mut().ok_or(Wrong::NotMade)?.step(step),
        }
    }

    fn fresh(&mut self, p: usize) -> Played {
        if self.desk(p).is_some() {
            return Err(Wrong::MadeTwice);
        }
        Ok(heard(EndPoint::fresh(p), |end_point| {
            self.desks[p] = Some(Desk { end_point, area: vec![0; AREA] });
            String::new()
        }))
    }

    fn lose(&mut self, p: usize, q: usize) -> Played {
        within_eight(p, q)?;
        let desk = self.desk(p).ok_or(Wrong::NotMade)?;
        if desk.end_point.declared.has(q) {
            return Err(Wrong::Declared);
        }
        self.channels.between_mut(p, q).pop_back().ok_or(Wrong::EmptyChannel)?;
        Ok(Heard::Accepted(String::new(), Vec::new()))
    }

    fn channel(&mut self, p: usize, q: usize) -> Played {
        within_eight(p, q)?;
        let messages = self.channels.between(p, q).iter().map(|bytes| show::hex(bytes)).collect();
        Ok(Heard::Accepted(String::new(), messages))
    }

    fn receive(&mut self, p: usize, q: usize) -> Played {
        let desk = self.desks[p].as_mut().ok_or(Wrong::NotMade)?;
        if q >= MEMBERS || q == p {
            return Ok(Heard::Refused(1));
        }
        let channel = self.channels.between_mut(q, p);
        let head = channel.front().ok_or(Wrong::EmptyChannel)?;
        let answer = desk.end_point.receive(&mut desk.area, q, head);
        if answer.is_ok() {
            channel.pop_front();
        }
        Ok(heard(answer, |()| String::new()))
    }

    /// The step is tried on a copy: a full channel leaves everything as it was.
    fn send_out(&mut self, p: usize, step: Step) -> Played {
        let desk = self.desks[p].as_mut().ok_or(Wrong::NotMade)?;
        let mut after = desk.end_point.clone();
        let answer = match step {
            Step::Announce => after.announce(),
            Step::Pass => after.pass(&desk.area),
            Step::Sync => after.sync(),
            Step::Forward(q, r) => after.forward(&desk.area, q, r),
            _ => unreachable!("a step that sends nothing"),
        };
        if let Ok(sent) = &answer {
            if !self.channels.have_room(p, sent) {
                return Err(Wrong::FullChannel);
            }
            desk.end_point = after;
            self.channels.put(p, sent);
        }
        Ok(heard(answer, |sent| sent_text(&sent)))
    }
}

impl Desk {
    fn step(&mut self, step: Step) -> Played {
        let (e, area) = (&mut self.end_point, &mut self.area);
        let nothing = |()| String::new();
        Ok(match step {
            Step::Send(word) => heard(e.send(area, word), nothing),
            Step::BlockOk => heard(e.block_ok(), nothing),
            Step::Start(number, set) => heard(e.start(number, set), nothing),
            Step::View(view) => heard(e.membership_view(view), nothing),
            Step::Bytes(q, bytes) => heard(e.receive(area, q, &bytes), nothing),
            Step::Ask => heard(e.ask(), nothing),
            Step::Declare => heard(e.declare(), show::set),
            Step::Give(q) => heard(e.give(area, q), |word| word.to_string()),
            Step::Batch(_, room) if room > 128 => return Err(Wrong::TooManyWords),
            Step::Batch(q, room) => heard(e.batch(area, q, room as usize), |words| batch_text(&words)),
            Step::Install => {
                heard(e.install(), |(view, moving)| format!("{} T {}", show::view(&view), show::set(moving)))
            }
            Step::Show => Heard::Accepted(String::new(), show::end_point(e, area)),
            Step::Area => Heard::Accepted(String::new(), show::area(area)),
            _ => unreachable!("a step that uses the channels"),
        })
    }
}

fn heard<T>(answer: Answer<T>, text: impl FnOnce(T) -> String) -> Heard {
    match answer {
        Ok(given) => Heard::Accepted(text(given), Vec::new()),
        Err(number) => Heard::Refused(number),
    }
}

fn within_eight(p: usize, q: usize) -> Result<(), Wrong> {
    if p < MEMBERS && q < MEMBERS {
        Ok(())
    } else {
        Err(Wrong::NoSuchChannel)
    }
}

fn sent_text(sent: &Sent) -> String {
    format!("to {} {}", show::set(sent.to), show::hex(&sent.message.write()))
}

fn batch_text(words: &[u64]) -> String {
    format!("{} {}", words.len(), show::numbers(words)).trim_end().to_string()
}
