//! Compares two transcripts, line by line.

/// The first lines that differ: what the model says and what the program says.
pub struct Difference {
    pub script_line: usize,
    pub want: String,
    pub got: String,
}

/// The free text after a refusal's number and after `error` is not compared.
fn plain(line: &[u8]) -> &[u8] {
    if line.starts_with(b"  ") {
        return line;
    }
    let Some(colon) = line.windows(2).position(|pair| pair == b": ") else {
        return line;
    };
    let answer = &line[colon + 2..];
    let word = answer.split(|&byte| byte == b' ').next().unwrap_or(answer);
    match word {
        b"0" => line,
        _ => &line[..colon + 2 + word.len()],
    }
}

pub fn first_difference(want: &[u8], got: &[u8]) -> Option<Difference> {
    let (mut wanted, mut gotten) = (lines(want), lines(got));
    let mut script_line = 0;
    loop {
        let (want, got) = (wanted.next(), gotten.next());
        if want.is_none() && got.is_none() {
            return None;
        }
        script_line = want.and_then(number).unwrap_or(script_line);
        if want.map(plain) != got.map(plain) {
            return Some(Difference { script_line, want: text(want), got: text(got) });
        }
    }
}

/// Whether a script that need not fit into the buffer was refused: one line, `error` and the reason.
pub fn refused_as_too_long(got: &[u8]) -> bool {
    lines(got).count() == 1 && (got.starts_with(b"error ") || got == b"error\n")
}

fn lines(transcript: &[u8]) -> impl Iterator<Item = &[u8]> {
    let ended = transcript.strip_suffix(b"\n").unwrap_or(transcript);
    let none = transcript.is_empty();
    ended.split(|&byte| byte == b'\n').filter(move |_| !none)
}

/// The script's line that an answer is for; the lines below it have none.
fn number(line: &[u8]) -> Option<usize> {
    let digits = line.split(|&byte| byte == b':').next()?;
    std::str::from_utf8(digits).ok()?.parse().ok()
}

fn text(line: Option<&[u8]>) -> String {
    line.map_or("(the end)".to_string(), |line| String::from_utf8_lossy(line).into_owned())
}
