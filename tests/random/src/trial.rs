//! The trial: many scripts on a program, against the model.

use crate::author;
use crate::child;
use crate::compare::{first_difference, refused_as_too_long, Difference};
use crate::edges::{self, BUFFER};
use crate::script;
use crate::seen::Seen;
use crate::transcript::transcript;
use std::path::PathBuf;
use std::sync::atomic::{AtomicBool, AtomicUsize, Ordering};
use std::sync::Mutex;
use std::{env, fs, thread};

pub struct Trial {
    pub program: String,
    pub scripts: usize,
    pub lines: usize,
    pub seed: u64,
}

struct Failure {
    script: usize,
    text: String,
}

/// A script's line may be of any length; so much of it is shown.
const SHOWN: usize = 400;

/// Fewer or shorter scripts than usual can't be expected to meet every answer.
const ENOUGH: (usize, usize) = (1000, 1000);

impl Trial {
    /// Whether no difference was found and every answer came up.
    pub fn run(&self) -> bool {
        let next = AtomicUsize::new(0);
        let stop = AtomicBool::new(false);
        let all_seen = Mutex::new(Seen::default());
        let failures = Mutex::new(Vec::new());
        let edges = edges::scripts();
        let work = || {
            let mut seen = Seen::default();
            while !stop.load(Ordering::Relaxed) {
                let script = next.fetch_add(1, Ordering::Relaxed);
                let failed = match script.checked_sub(edges.len()) {
                    None => self.play(&format!("edge-{script}"), &edges[script], &mut seen),
                    Some(k) if k < self.scripts => self.random(k, &mut seen),
                    Some(_) => break,
                };
                if let Some(text) = failed {
                    stop.store(true, Ordering::Relaxed);
                    failures.lock().unwrap().push(Failure { script, text });
                }
            }
            all_seen.lock().unwrap().join(seen);
        };
        let threads = thread::available_parallelism().map_or(1, |count| count.get());
        thread::scope(|scope| (0..threads).for_each(|_| drop(scope.spawn(work))));
        self.report(failures.into_inner().unwrap(), &all_seen.into_inner().unwrap())
    }

    fn report(&self, failures: Vec<Failure>, seen: &Seen) -> bool {
        // Scripts are handed out in order, so the lowest that failed does not hang on the threads.
        if let Some(first) = failures.into_iter().min_by_key(|failure| failure.script) {
            println!("{}", first.text);
            return false;
        }
        print!("{}", seen.table());
        let faults = seen.faults();
        for fault in &faults {
            println!("{fault}");
        }
        let few = self.scripts < ENOUGH.0 || self.lines < ENOUGH.1;
        let played = format!("{} scripts of {} lines, no difference", self.scripts, self.lines);
        match faults.len() {
            0 => println!("{played}"),
            count if few => println!("{played}; too few for {count} of the answers"),
            count => println!("{played}, but {count} of the answers amiss"),
        }
        faults.is_empty() || few
    }

    fn random(&self, k: usize, seen: &mut Seen) -> Option<String> {
        let seed = self.seed.wrapping_add(k as u64);
        let script = author::script(seed, self.lines);
        let failed = self.play(&format!("seed-{seed}"), &script, seen)?;
        Some(format!("{failed}\nagain: random PROGRAM 1 {} {seed}", self.lines))
    }

    /// Plays one script; where it fails, keeps it and says how.
    fn play(&self, name: &str, script: &[u8], seen: &mut Seen) -> Option<String> {
        let want = transcript(script, seen);
        let (got, why) = match child::play(&self.program, script) {
            Ok(got) if script.len() > BUFFER && refused_as_too_long(&got) => return None,
            Ok(got) => {
                let difference = first_difference(want.as_bytes(), &got)?;
                (got, explain(script, &difference))
            }
            Err(why) => (Vec::new(), why),
        };
        Some(format!("{name}: {why}\n{}", keep(name, script, &want, &got)))
    }
}

fn explain(text: &[u8], difference: &Difference) -> String {
    let Difference { script_line, want, got } = difference;
    let line = script_line.checked_sub(1).and_then(|k| script::lines(text).get(k).copied());
    let line = line.unwrap_or(b"");
    let shown = line[..line.len().min(SHOWN)].escape_ascii();
    format!("line {script_line}: {shown}\n  the model: {want}\n  the program: {got}")
}

/// Beside this program: the script, the model's transcript and the program's.
fn keep(name: &str, text: &[u8], want: &str, got: &[u8]) -> String {
    let here = env::current_exe().ok().and_then(|exe| exe.parent().map(PathBuf::from));
    let script = here.unwrap_or_default().join(format!("{name}.take"));
    let wrote = fs::write(&script, text)
        .and_then(|()| fs::write(script.with_extension("transcript"), want))
        .and_then(|()| fs::write(script.with_extension("got"), got));
    match wrote {
        Ok(()) => format!("kept: {}", script.display()),
        Err(error) => format!("not kept: {error}"),
    }
}
