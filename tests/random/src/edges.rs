//! Scripts that are not random: the smallest, the longest, the loudest.

/// The length that every program's buffer must hold.
pub const BUFFER: usize = 1 << 20;

pub fn scripts() -> Vec<Vec<u8>> {
    let small: [&[u8]; 16] = [
        b"",
        b"\n",
        b"\r\n",
        b" ",
        b"#",
        b"\0",
        b"\0\n\xff\n",
        b"fresh 0",
        b"fresh 0#",
        b"fresh 0\t",
        b"fresh 0\n0 show",
        b"fresh 7\r\n\r\n \t\r\n7 show\r\n7 area\r\n",
        b"\n\n\n0 show\nfresh 255\nfresh 256\n",
        b"fresh 0\nfresh 1\n0 receive 1\n1 receive 1\n1 receive 8\n8 receive 1\nlose 0 1\nchannel 0 1\n",
        b"0\n0 0\n0 0 0\n0 0 0 0\n0 0 0 0 0 0 0 0 0 0 0 0 0 0 0 0 0 0 0 0 0 0 0 0\n",
        b"fresh 0\n0 bytes 1 -\n0 bytes 1\n0 bytes 1 - -\n0 bytes -\n0 bytes 1 00\n0 bytes 1 #00\n",
    ];
    let mut scripts: Vec<Vec<u8>> = small.iter().map(|script| script.to_vec()).collect();
    scripts.extend([many_lines(), loud()]);
    // One byte more than must fit may be refused; a byte less or none may not.
    scripts.extend([BUFFER - 1, BUFFER, BUFFER + 1, 4 * BUFFER].map(long));
    scripts
}

/// Line numbers beyond sixteen bits.
fn many_lines() -> Vec<u8> {
    let mut script = vec![b'\n'; 70_000];
    script.extend(b"fresh 0\n0 send 1\n0 pass\n0 give 0\n");
    script
}

/// A transcript of several megabytes.
fn loud() -> Vec<u8> {
    let mut script = b"fresh 3\n".to_vec();
    for word in 0..129 {
        script.extend(format!("3 send {}\n", u64::MAX - word).bytes());
    }
    for _ in 0..400 {
        script.extend(b"3 show\n3 area\n");
    }
    script
}

/// So many bytes, most of them in a comment.
fn long(length: usize) -> Vec<u8> {
    let (first, last) = (b"fresh 0 #", b"\n0 send 5\n0 show\n");
    let mut script = first.to_vec();
    script.resize(length - last.len(), b'x');
    script.extend(last);
    script
}
