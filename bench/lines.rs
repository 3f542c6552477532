//! What a run of `hash` lines does, in plain Rust, to be measured beside it: reads a script of one node and of lines
//! that show a digest, hashes each key, and writes the transcript.
mod ripemd160;

use ripemd160::digest;
use std::fmt::Write as _;
use std::io::{Read, Write, stdin, stdout};

/// The digest of a key, in the set before its first slash.
fn digest_of(key: &str) -> [u8; 20] {
    let (set, key) = key.split_once('/').unwrap_or(("", key));
    digest(&[set.as_bytes(), &[3], key.as_bytes()].concat())
}

fn hex_digit(value: u8) -> char {
    char::from(b"0123456789abcdef"[usize::from(value)])
}

/// Adds the line that a line of the script gives.
fn play(line: &str, transcript: &mut String) {
    match line.split_once(' ') {
        Some(("hash", key)) => {
            let digest = digest_of(key);
            let partition = u16::from_le_bytes([digest[0], digest[1]]) % 4096;
            transcript.push_str("hash ");
            for byte in digest {
                transcript.push(hex_digit(byte >> 4));
                transcript.push(hex_digit(byte & 15));
            }
            let _ = writeln!(transcript, " {partition}");
        }
        _ => {
            let _ = writeln!(transcript, "{line}");
        }
    }
}

fn main() {
    let mut script = String::new();
    stdin().read_to_string(&mut script).expect("a script that can be read");
    let mut transcript = String::new();
    script.lines().for_each(|line| play(line, &mut transcript));
    stdout().write_all(transcript.as_bytes()).expect("a transcript that can be written");
}
