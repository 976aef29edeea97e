//! The transcript: each answer as the program writes it.

use crate::play::{Heard, Stage, Wrong};
use crate::script;
use crate::seen::Seen;

/// The transcript of a script; what came up is counted.
pub fn transcript(script: &[u8], seen: &mut Seen) -> String {
    let mut stage = Stage::default();
    let mut transcript = String::new();
    for (k, line) in script::lines(script).into_iter().enumerate() {
        if let Some(line) = stage.line(line) {
            seen.count(&line);
            write_answer(&mut transcript, k + 1, &line.heard);
        }
    }
    transcript
}

fn write_answer(transcript: &mut String, number: usize, heard: &Heard) {
    let (text, lines): (String, &[String]) = match heard {
        Heard::Accepted(text, lines) => (format!("0 {text}"), lines),
        Heard::Refused(refusal) => (format!("{refusal} {}", reason(*refusal)), &[]),
        Heard::Wrong(wrong) => (format!("error {}", wrong.text()), &[]),
    };
    transcript.push_str(&format!("{number}: {}\n", text.trim_end()));
    for line in lines {
        transcript.push_str(&format!("  {line}\n"));
    }
}

impl Wrong {
    pub fn text(self) -> &'static str {
        match self {
            Wrong::Unreadable => "unreadable",
            Wrong::NotMade => "not made",
            Wrong::MadeTwice => "made twice",
            Wrong::EmptyChannel => "empty channel",
            Wrong::Declared => "declared member",
            Wrong::NoSuchChannel => "no such channel",
            Wrong::TooManyWords => "too many words",
            Wrong::FullChannel => "full channel",
        }
    }
}

fn reason(refusal: u8) -> &'static str {
    match refusal {
        1 => "malformed",
        2 => "a member is absent",
        3 => "not newer",
        4 => "out of turn",
        5 => "blocked",
        6 => "128 words are there",
        7 => "no free slot",
        8 => "not declared",
        9 => "a named record is missing",
        10 => "nothing to do",
        11 => "beyond the cut",
        12 => "a due word has not been forwarded",
        13 => "too few words given out",
        14 => "another word is held",
        _ => "too many words given out",
    }
}
