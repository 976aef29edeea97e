//! Lines that can't be read, or nearly can't.

use super::dress;
use super::Author;

#[rustfmt::skip]
const NUMBERS: [&str; 28] = [
    "-1", "+1", "1.0", "1,", "0x", "0xg", "0X1", "x1", "1x", "1e3", "1_0", "0b1", "1h", "", "256", "257", "4294967295",
    "4294967296", "4294967297", "18446744073709551615", "18446744073709551616", "18446744073709551617",
    "0xffffffffffffffff", "0x10000000000000000", "0x10000000000000001", "99999999999999999999",
    "340282366920938463463374607431768211457", "\u{661}",
];

#[rustfmt::skip]
const SETS: [&str; 20] = [
    "{8}", "{0,}", "{,0}", "{,}", "{0", "0}", "0", "{", "}", "{0;1}", "{a}", "{0,,1}", "{-1}", "{{0}}", "{0}}", "[0]",
    "{10}", "{256}", "{18446744073709551616}", "{0.1}",
];

const BYTES: [&str; 10] = ["0", "0x00", "--", "-0", "0g", "01 ", "012", "zz", "0200000000000000000", "{}"];

#[rustfmt::skip]
const LINES: [&str; 16] = [
    "sing", "0", "fresh", "lose 0", "channel 1", "0 sing", "FRESH 0", "0 Show", "0 block", "0 blockok", "0 block-o",
    "0 block-ok-", "fresh 0 1", "lose 0 1 2", "- send 1", "0 0 0",
];

impl Author {
    pub(super) fn noise(&mut self) {
        let line = match self.chance.below(9) {
            0 => self.chance.pick(&LINES).replace('0', &self.anyone().to_string()).into_bytes(),
            1 => self.with_number_changed(),
            2 => self.with_set_changed(),
            3 => self.with_bytes_changed(),
            4 => self.with_more_or_less(),
            5 => self.with_odd_byte(),
            6 => self.blank(),
            7 => self.random_bytes(),
            _ => self.cut_by_comment(),
        };
        self.write(&line);
    }

    fn with_number_changed(&mut self) -> Vec<u8> {
        let line = self.some_line();
        let mut fields: Vec<&str> = line.split(' ').collect();
        let is_number = |k: &usize| fields[*k].bytes().all(|byte| byte.is_ascii_digit());
        let numbers: Vec<usize> = (0..fields.len()).filter(is_number).collect();
        let k = self.chance.pick(&numbers);
        fields[k] = self.chance.pick(&NUMBERS);
        fields.join(" ").into_bytes()
    }

    fn with_set_changed(&mut self) -> Vec<u8> {
        let p = self.anyone();
        let set = self.chance.pick(&SETS);
        match self.chance.percent(50) {
            true => format!("{p} start 1 {set}").into_bytes(),
            false => format!("{p} view 1 {set} 1 1 1 1 1 1 1 1").into_bytes(),
        }
    }

    fn with_bytes_changed(&mut self) -> Vec<u8> {
        let (p, q) = (self.anyone(), self.some_member());
        let bytes = self.chance.pick(&BYTES);
        match self.chance.percent(10) {
            true => format!("{p} bytes {q} {}", "00".repeat(1 + self.chance.below(3000))).into_bytes(),
            false => format!("{p} bytes {q} {bytes}").into_bytes(),
        }
    }

    /// One field too many, too few, or twice.
    fn with_more_or_less(&mut self) -> Vec<u8> {
        let line = self.some_line();
        let mut fields: Vec<&str> = line.split(' ').collect();
        let k = self.chance.below(fields.len());
        match self.chance.below(4) {
            0 => fields.push("0"),
            1 => fields.insert(k, fields[k]),
            2 => {
                fields.remove(k);
            }
            _ => fields.push("{}"),
        }
        fields.join(" ").into_bytes()
    }

    /// A byte put in, changed or taken out, often where fields meet.
    fn with_odd_byte(&mut self) -> Vec<u8> {
        let mut line = self.some_line().into_bytes();
        let gap = line.iter().position(|&byte| byte == b' ').unwrap_or(0);
        let at = self.chance.below(line.len());
        let at = self.chance.pick(&[gap, gap, at, at, at, line.len()]);
        let byte = match self.chance.percent(80) {
            true => self.chance.pick(b"\0\r\x0b\x0c\x1b\x7f\x80\xa0\xff#,{}-+x \t"),
            false => self.chance.long() as u8,
        };
        match self.chance.below(4) {
            0 | 1 if at < line.len() => line[at] = byte,
            2 if at < line.len() => {
                line.remove(at);
            }
            _ => line.insert(at, byte),
        }
        line
    }

    fn blank(&mut self) -> Vec<u8> {
        let blanks: [&[u8]; 10] =
            [b"", b" ", b"\t", b" \t ", b"#", b" # ", b"\r", b"\r\r", b"\0", b"#\0\xff\r"];
        self.chance.pick(&blanks).to_vec()
    }

    fn random_bytes(&mut self) -> Vec<u8> {
        let length = self.chance.pick(&[1, 2, 5, 20, 20, 20, 3000]);
        (0..length).map(|_| self.chance.long() as u8).collect()
    }

    /// A comment that starts anywhere, inside a field too.
    fn cut_by_comment(&mut self) -> Vec<u8> {
        let mut line = self.some_line().into_bytes();
        line.truncate(self.chance.below(line.len() + 1));
        line.extend(dress::comment(&mut self.chance));
        line
    }
}
