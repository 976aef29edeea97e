//! The program under test: started once a script, which it reads on standard input.

use std::io::{Read, Write};
use std::process::{Child, Command, Stdio};
use std::sync::mpsc;
use std::thread;
use std::time::Duration;

/// A script takes far less; a program that hangs must not hang the tests.
const PATIENCE: Duration = Duration::from_secs(60);

/// The transcript that the program writes, or why there is none.
pub fn play(program: &str, script: &[u8]) -> Result<Vec<u8>, String> {
    let mut command = Command::new(program);
    let child = command.stdin(Stdio::piped()).stdout(Stdio::piped()).spawn();
    let mut child = child.map_err(|error| format!("{program} can't be started: {error}"))?;
    let transcript = talk(&mut child, script);
    if transcript.is_err() {
        // It may have ended by itself meanwhile.
        let _ = child.kill();
    }
    let status = child.wait().map_err(|error| error.to_string())?;
    match transcript {
        Ok(_) if status.code().is_none() => Err(format!("the program was ended: {status}")),
        other => other,
    }
}

/// Writing and reading go on side by side, for a pipe holds little.
fn talk(child: &mut Child, script: &[u8]) -> Result<Vec<u8>, String> {
    let mut input = child.stdin.take().ok_or("no standard input")?;
    let mut output = child.stdout.take().ok_or("no standard output")?;
    let script = script.to_vec();
    // A program that stops reading shows in its transcript.
    thread::spawn(move || input.write_all(&script).ok());
    let (whole, reader) = mpsc::channel();
    thread::spawn(move || {
        let mut transcript = Vec::new();
        let read = output.read_to_end(&mut transcript).map(|_| transcript);
        whole.send(read).ok();
    });
    match reader.recv_timeout(PATIENCE) {
        Ok(read) => read.map_err(|error| error.to_string()),
        Err(_) => Err(format!("no end after {} seconds", PATIENCE.as_secs())),
    }
}
