//! random: plays random scripts on a program and compares its transcripts with a model's.
//!
//!   random PROGRAM [SCRIPTS [LINES [SEED]]]   compares; 1,000 scripts of 1,000 lines where nothing is said
//!                                             (fewer lines where a script would outgrow a buffer of 1 MiB)
//!   random model                              plays the script on standard input on the model itself
//!   random script SEED [LINES]                writes the script of a seed

mod author;
mod chance;
mod channels;
mod child;
mod compare;
mod edges;
mod endpoint;
mod message;
mod play;
mod record;
mod script;
mod seen;
mod show;
mod slots;
mod transcript;
mod trial;
mod view;

use std::io::{self, Read, Write};
use std::process::ExitCode;
use std::{env, iter};

const USAGE: &str = "random PROGRAM [SCRIPTS [LINES [SEED]]] | random model | random script SEED [LINES]";

fn main() -> ExitCode {
    let arguments: Vec<String> = env::args().skip(1).collect();
    let words: Vec<&str> = arguments.iter().map(String::as_str).collect();
    let done = match words[..] {
        ["model"] => model().ok(),
        ["script", seed, ref lines @ ..] if lines.len() <= 1 => write_script(seed, lines),
        [program, ref numbers @ ..] if numbers.len() <= 3 => compare(program, numbers),
        _ => None,
    };
    match done {
        Some(true) => ExitCode::SUCCESS,
        Some(false) => ExitCode::FAILURE,
        None => {
            eprintln!("{USAGE}");
            ExitCode::from(2)
        }
    }
}

fn compare(program: &str, numbers: &[&str]) -> Option<bool> {
    let given: Option<Vec<u64>> = numbers.iter().map(|number| number.parse().ok()).collect();
    let mut given = given?.into_iter().map(Some).chain(iter::repeat(None));
    let mut next = |usual: u64| given.next().flatten().unwrap_or(usual);
    let (scripts, lines) = (next(1000) as usize, next(1000) as usize);
    let program = program.to_string();
    Some(trial::Trial { program, scripts, lines, seed: next(1) }.run())
}

fn model() -> io::Result<bool> {
    let mut script = Vec::new();
    io::stdin().read_to_end(&mut script)?;
    let transcript = transcript::transcript(&script, &mut seen::Seen::default());
    io::stdout().write_all(transcript.as_bytes())?;
    Ok(true)
}

fn write_script(seed: &str, lines: &[&str]) -> Option<bool> {
    let lines = lines.first().map_or(Some(1000), |lines| lines.parse().ok())?;
    let script = author::script(seed.parse().ok()?, lines);
    Some(io::stdout().write_all(&script).is_ok())
}
