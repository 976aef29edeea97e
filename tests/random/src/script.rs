//! A script's text: lines, fields, numbers, sets, commands.

use crate::view::{Set, View, MEMBERS};

pub enum Command {
    Fresh(usize),
    Step(usize, Step),
    Lose(usize, usize),
    Channel(usize, usize),
}

pub enum Step {
    Send(u64),
    BlockOk,
    Start(u32, Set),
    View(View),
    Receive(usize),
    Bytes(usize, Vec<u8>),
    Ask,
    Declare,
    Announce,
    Pass,
    Sync,
    Forward(usize, usize),
    Give(usize),
    Batch(usize, u64),
    Install,
    Show,
    Area,
}

/// The words that name a command.
#[rustfmt::skip]
pub const NAMES: [&str; 20] = [
    "fresh", "send", "block-ok", "start", "view", "receive", "bytes", "ask", "declare", "announce", "pass",
    "sync", "forward", "give", "batch", "install", "lose", "show", "area", "channel",
];

/// The lines without their ends; an end is LF or CR LF, and the last line may lack it.
pub fn lines(script: &[u8]) -> Vec<&[u8]> {
    let mut lines: Vec<&[u8]> = script.split(|&byte| byte == b'\n').collect();
    let last = lines.pop().filter(|last| !last.is_empty());
    for line in &mut lines {
        *line = line.strip_suffix(b"\r").unwrap_or(line);
    }
    lines.extend(last);
    lines
}

/// Nothing but spaces and tabs separates fields, so other odd bytes belong to one.
pub fn fields(line: &[u8]) -> Vec<&[u8]> {
    let command = line.split(|&byte| byte == b'#').next().unwrap_or(line);
    command.split(|&byte| byte == b' ' || byte == b'\t').filter(|field| !field.is_empty()).collect()
}

/// The word that names the command, where there is one.
pub fn name(fields: &[&[u8]]) -> Option<&'static str> {
    let is = |field: Option<&&[u8]>, name: &str| field.is_some_and(|field| *field == name.as_bytes());
    NAMES.into_iter().find(|name| is(fields.first(), name) || is(fields.get(1), name))
}

pub fn command(fields: &[&[u8]]) -> Option<Command> {
    match fields {
        [b"fresh", p] => Some(Command::Fresh(member(p)?)),
        [b"lose", p, q] => Some(Command::Lose(member(p)?, member(q)?)),
        [b"channel", p, q] => Some(Command::Channel(member(p)?, member(q)?)),
        [p, step @ ..] => Some(Command::Step(member(p)?, self::step(step)?)),
        [] => None,
    }
}

fn step(fields: &[&[u8]]) -> Option<Step> {
    Some(match fields {
        [b"send", w] => Step::Send(number(w)?),
        [b"block-ok"] => Step::BlockOk,
        [b"start", n, set] => Step::Start(short(n)?, self::set(set)?),
        [b"view", id, set, starts @ ..] => Step::View(view(id, set, starts)?),
        [b"receive", q] => Step::Receive(member(q)?),
        [b"bytes", q, hex] => Step::Bytes(member(q)?, bytes(hex)?),
        [b"ask"] => Step::Ask,
        [b"declare"] => Step::Declare,
        [b"announce"] => Step::Announce,
        [b"pass"] => Step::Pass,
        [b"sync"] => Step::Sync,
        [b"forward", q, r] => Step::Forward(member(q)?, member(r)?),
        [b"give", q] => Step::Give(member(q)?),
        [b"batch", q, k] => Step::Batch(member(q)?, number(k)?),
        [b"install"] => Step::Install,
        [b"show"] => Step::Show,
        [b"area"] => Step::Area,
        _ => return None,
    })
}

/// Decimal, or hexadecimal after `0x`, below 2^64.
pub fn number(field: &[u8]) -> Option<u64> {
    let (digits, base) = match field.strip_prefix(b"0x") {
        Some(digits) => (digits, 16),
        None => (field, 10),
    };
    if digits.is_empty() {
        return None;
    }
    let mut value: u64 = 0;
    for &byte in digits {
        let digit = (byte as char).to_digit(base)?;
        value = value.checked_mul(base as u64)?.checked_add(digit as u64)?;
    }
    Some(value)
}

fn short(field: &[u8]) -> Option<u32> {
    number(field)?.try_into().ok()
}

/// A member number may be read up to 255; above 7 it is for the step to refuse.
fn member(field: &[u8]) -> Option<usize> {
    number(field).filter(|&member| member <= 255).map(|member| member as usize)
}

pub fn set(field: &[u8]) -> Option<Set> {
    let inside = field.strip_prefix(b"{")?.strip_suffix(b"}")?;
    if inside.is_empty() {
        return Some(Set(0));
    }
    let mut set = Set(0);
    for member in inside.split(|&byte| byte == b',') {
        let member = number(member).filter(|&member| member < MEMBERS as u64)?;
        set = set.with(member as usize);
    }
    Some(set)
}

fn view(id: &[u8], set: &[u8], starts: &[&[u8]]) -> Option<View> {
    let numbers: Option<Vec<u32>> = starts.iter().map(|start| short(start)).collect();
    let starts = numbers?.try_into().ok()?;
    Some(View { id: short(id)?, set: self::set(set)?, starts })
}

fn bytes(field: &[u8]) -> Option<Vec<u8>> {
    if field == b"-" {
        return Some(Vec::new());
    }
    if field.len() % 2 == 1 {
        return None;
    }
    let digit = |byte: u8| (byte as char).to_digit(16).map(|digit| digit as u8);
    field.chunks(2).map(|pair| Some(digit(pair[0])? << 4 | digit(pair[1])?)).collect()
}
