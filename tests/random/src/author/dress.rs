//! The same command written in an unusual way: spaces, tabs, comments, hexadecimal.

use crate::chance::Chance;

pub fn dress(chance: &mut Chance, line: &str) -> Vec<u8> {
    let mut dressed = Vec::new();
    let fields: Vec<&str> = line.split(' ').collect();
    let message = fields.get(1) == Some(&"bytes");
    if chance.percent(20) {
        dressed.extend(gap(chance));
    }
    for (k, field) in fields.iter().enumerate() {
        if k > 0 {
            dressed.extend(gap(chance));
        }
        let text = if message && k == 3 { digits(chance, field) } else { number(chance, field) };
        dressed.extend(text.bytes());
    }
    if chance.percent(20) {
        dressed.extend(gap(chance));
    }
    if chance.percent(15) {
        dressed.extend(comment(chance));
    }
    dressed
}

/// Mostly short; no length is too great.
fn gap(chance: &mut Chance) -> Vec<u8> {
    let length = if chance.below(200) == 0 { chance.below(5000) } else { chance.pick(&[1, 1, 1, 2, 3]) };
    let length = length.max(1);
    (0..length).map(|_| chance.pick(b"  \t")).collect()
}

/// Bytes may be written with either kind of letters.
fn digits(chance: &mut Chance, field: &str) -> String {
    match chance.percent(50) {
        true => field.to_uppercase(),
        false => field.to_string(),
    }
}

fn number(chance: &mut Chance, field: &str) -> String {
    let Ok(number) = field.parse::<u64>() else {
        return field.to_string();
    };
    match chance.below(12) {
        0 | 1 => format!("0x{number:x}"),
        2 => format!("0x{number:X}"),
        3 => format!("0x000{number:x}"),
        4 => format!("00{number}"),
        5 => format!("{number:030}"),
        _ => field.to_string(),
    }
}

/// A comment may hold any byte but LF.
pub fn comment(chance: &mut Chance) -> Vec<u8> {
    let mut comment = vec![b'#'];
    for _ in 0..chance.below(12) {
        comment.push(chance.pick(b" \tab#019{},-\r\0\x80\xff"));
    }
    comment
}
