//! How sets, views, messages, an end-point and its words are written.

use crate::endpoint::{Block, EndPoint};
use crate::record::WORDS;
use crate::slots::place;
use crate::view::{Set, View, MEMBERS};
use std::fmt::Display;

pub fn set(set: Set) -> String {
    let members: Vec<String> = set.members().map(|member| member.to_string()).collect();
    format!("{{{}}}", members.join(","))
}

pub fn view(view: &View) -> String {
    format!("{} {} {}", view.id, set(view.set), numbers(&view.starts))
}

pub fn hex(bytes: &[u8]) -> String {
    bytes.iter().map(|byte| format!("{byte:02x}")).collect()
}

pub fn numbers<T: Display>(numbers: &[T]) -> String {
    let texts: Vec<String> = numbers.iter().map(|number| number.to_string()).collect();
    texts.join(" ")
}

pub fn end_point(e: &EndPoint, area: &[u64]) -> Vec<String> {
    let mut lines = Vec::new();
    state(&mut lines, e);
    others(&mut lines, e);
    slots(&mut lines, e);
    words(&mut lines, e, area);
    lines
}

fn state(lines: &mut Vec<String>, e: &EndPoint) {
    let block = match e.block {
        Block::Free => "free",
        Block::Asked => "asked",
        Block::Blocked => "blocked",
    };
    lines.push(format!("end-point {}", e.number));
    lines.push(format!("current {}", view(&e.current)));
    lines.push(format!("membership {}", view(&e.membership)));
    lines.push(format!("start {} {}", e.start_number, set(e.start_set)));
    lines.push(format!("open {} pending {} block {block}", e.open as u8, e.pending as u8));
    lines.push(format!("declared {} announced {} passed {}", set(e.declared), e.announced as u8, e.passed));
    lines.push(format!("given {}", numbers(&e.given)));
}

fn others(lines: &mut Vec<String>, e: &EndPoint) {
    for q in (0..MEMBERS).filter(|&q| q != e.number) {
        lines.push(format!("announced {q} {} received {}", view(&e.announced_views[q]), e.received[q]));
    }
    for q in 0..MEMBERS {
        for record in &e.records[q].0 {
            lines.push(format!(
                "record {q} {} {} cut {}",
                record.number,
                view(&record.view),
                numbers(&record.cut)
            ));
        }
    }
    for q in 0..MEMBERS {
        lines.push(format!("forwarded {q} {}", numbers(&e.forwarded[q])));
    }
}

fn slots(lines: &mut Vec<String>, e: &EndPoint) {
    for (s, slot) in e.slots.0.iter().enumerate() {
        let holds = slot.as_ref().map_or("free".to_string(), |slot| view(&slot.view));
        lines.push(format!("slot {s} {holds}"));
    }
}

fn words(lines: &mut Vec<String>, e: &EndPoint, area: &[u64]) {
    for s in 0..e.slots.0.len() {
        for r in 0..MEMBERS {
            for i in (1..=WORDS).filter(|&i| e.slots.holds(s, r, i)) {
                lines.push(format!("word {s} {r} {i} {}", area[place(s, r, i)]));
            }
        }
    }
}

pub fn area(area: &[u64]) -> Vec<String> {
    let not_zero = area.iter().enumerate().filter(|(_, &word)| word != 0);
    not_zero.map(|(place, word)| format!("{place} {word}")).collect()
}
