//! A program run on a text, texts that are made shorter, and both shown.

use std::io::{Read, Write};
use std::process::{exit, Command, Stdio};
use std::thread;

/// What a program writes to its standard output and to its standard error.
#[derive(Debug, Default, PartialEq, Eq)]
pub struct Written {
    pub output: Vec<u8>,
    pub errors: Vec<u8>,
}

impl Written {
    /// Does standard error say what was due?
    fn tells(&self, due: &Written) -> bool {
        let lines = split(&self.errors);
        let told: String = lines.iter().map(|line| without_words(line)).collect();
        told.as_bytes() == due.errors
    }
}

/// A line of standard error, but of a bad line, `NAME: line 3, column 5: words`, only its
/// place: in which words the fault is told is the program's own matter.
fn without_words(line: &[u8]) -> String {
    let line = String::from_utf8_lossy(line);
    match line.splitn(3, ": ").collect::<Vec<&str>>()[..] {
        [name, place, _] if place.starts_with("line ") => format!("{name}: {place}:\n"),
        _ => line.into_owned(),
    }
}

/// What a program wrote, and how it ended if not well.
pub struct Ran {
    pub written: Written,
    pub ended: Option<String>,
}

impl Ran {
    /// Did it write what was due, and end well?
    pub fn is(&self, due: &Written) -> bool {
        self.written.output == due.output && self.written.tells(due) && self.ended.is_none()
    }

    /// Shows what it wrote to standard error, what was due there if it was not that, and how
    /// it ended, where that is not well.
    pub fn show_faults(&self, due: &Written) {
        if !self.written.errors.is_empty() {
            show("the program's standard error", &self.written.errors);
        }
        if !self.written.tells(due) {
            show("standard error should be", &due.errors);
        }
        if let Some(ended) = &self.ended {
            println!("the program ended with {ended}");
        }
    }
}

/// The words that ask a program for a frequency; where none is asked for it takes 250 kHz.
pub fn frequency_words(frequency: Option<u16>) -> Vec<String> {
    let words = frequency.map(|khz| [String::from("--khz"), khz.to_string()]);
    words.into_iter().flatten().collect()
}

/// Runs a program with these words on a text.
pub fn run(program: &str, words: &[String], text: &[u8]) -> Ran {
    let spawned = Command::new(program)
        .args(words)
        .stdin(Stdio::piped())
        .stdout(Stdio::piped())
        .stderr(Stdio::piped())
        .spawn();
    let mut child = spawned.unwrap_or_else(|error| {
        eprintln!("cannot start {program}: {error}");
        exit(2)
    });
    let mut input = child.stdin.take().expect("standard input is piped");
    let mut output = child.stdout.take().expect("standard output is piped");
    let mut error = child.stderr.take().expect("standard error is piped");
    let mut written = Written::default();
    thread::scope(|scope| {
        // The program may stop reading before the end: a broken pipe is no fault.
        scope.spawn(move || {
            let _ = input.write_all(text);
        });
        scope.spawn(|| error.read_to_end(&mut written.errors));
        let _ = output.read_to_end(&mut written.output);
    });
    let ended = match child.wait() {
        Ok(status) if status.success() => None,
        Ok(status) => Some(status.to_string()),
        Err(error) => Some(error.to_string()),
    };
    Ran { written, ended }
}

/// The lines of a text, each with its newline.
fn split(text: &[u8]) -> Vec<Vec<u8>> {
    text.split_inclusive(|&byte| byte == b'\n')
        .map(|line| line.to_vec())
        .collect()
}

/// Drops lines, many at a time and then one by one, while the difference stays.
pub fn shrink(text: &[u8], differs: impl Fn(&[u8]) -> bool) -> Vec<u8> {
    shrink_pieces(split(text), differs)
}

/// Drops pieces of a text in the same way.
pub fn shrink_pieces(mut pieces: Vec<Vec<u8>>, differs: impl Fn(&[u8]) -> bool) -> Vec<u8> {
    let mut size = (pieces.len() / 2).max(1);
    loop {
        let mut dropped = false;
        let mut at = 0;
        while at < pieces.len() {
            let mut fewer = pieces.clone();
            fewer.drain(at..(at + size).min(pieces.len()));
            if differs(&fewer.concat()) {
                pieces = fewer;
                dropped = true;
            } else {
                at += size;
            }
        }
        if size > 1 {
            size /= 2;
        } else if !dropped {
            return pieces.concat();
        }
    }
}

/// Shows a text, or its beginning.
pub fn show(title: &str, bytes: &[u8]) {
    println!("{title} ({} bytes):", bytes.len());
    const MOST: usize = 4_000;
    for line in split(&bytes[..bytes.len().min(MOST)]) {
        println!("  {}", line.escape_ascii());
    }
    if bytes.len() > MOST {
        println!("  ...");
    }
}
