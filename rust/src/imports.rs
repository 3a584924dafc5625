//! One import as data: it can be run on either side, made simpler, and shown.

use std::fmt::{self, Display, Formatter};

use crate::calls::{answer_of, value_of, Calls, MODEL};
use crate::model::capture::is_blank;
use crate::model::Answer;
use crate::programs::shrink_pieces;
use crate::random::{random_capture, Chance};

/// What every byte of an output holds before the call; no session text has it.
const UNTOUCHED: u8 = 0xEE;

/// A capture, and the bytes of the output that is lent for its session.
#[derive(Clone, Debug, PartialEq, Eq)]
pub struct Import {
    pub capture: Vec<u8>,
    pub room: usize,
}

/// What an import returned, and the whole output as it left it.
#[derive(Clone, Debug, PartialEq, Eq)]
pub struct Imported {
    pub answer: Answer,
    pub length: usize,
    pub out: Vec<u8>,
}

/// The numbers of the rooms' generators lie past those of the captures'.
const ROOMS: u64 = 1 << 40;

impl Import {
    /// Import number k of a seed: the room is exactly right, one too short, longer, none or
    /// any.
    pub fn random(seed: u64, number: u64) -> Import {
        let capture = random_capture(seed, number);
        let wanted = Import::with_room(&capture).run(&MODEL).length;
        let mut chance = Chance::new(seed, ROOMS + number);
        let room = match chance.below(20) {
            0..=2 => wanted.saturating_sub(1),
            3 => 0,
            4 => chance.index(wanted + 1),
            5..=12 => wanted,
            _ => wanted + chance.index(20),
        };
        Import { capture, room }
    }

    /// "An output twice as long as the capture always serves".
    pub fn with_room(capture: &[u8]) -> Import {
        Import {
            capture: capture.to_vec(),
            room: 2 * capture.len(),
        }
    }

    pub fn run(&self, calls: &impl Calls) -> Imported {
        let mut out = vec![UNTOUCHED; self.room];
        let returned = calls.import(&self.capture, &mut out);
        Imported {
            answer: answer_of(returned),
            length: value_of(returned),
            out,
        }
    }

    /// The shortest import found that still shows what `shows` asks for: first without
    /// sections, then without words and bytes, then with less room; its words in plain
    /// lines, if that shows it too.
    pub fn shrunk(&self, shows: impl Fn(&Import) -> bool) -> Import {
        let mut import = self.clone();
        loop {
            let before = import.clone();
            for split in [sections, words, bytes] {
                let shows = |capture: &[u8]| shows(&import.with(capture.to_vec()));
                let capture = shrink_pieces(split(&import.capture), shows);
                import.capture = capture;
            }
            import.take_room(&shows);
            if import == before {
                let plain = import.with(in_lines(&import.capture));
                return if shows(&plain) { plain } else { import };
            }
        }
    }

    fn with(&self, capture: Vec<u8>) -> Import {
        Import { capture, ..*self }
    }

    /// Takes room away, much at a time and then byte by byte.
    fn take_room(&mut self, shows: &impl Fn(&Import) -> bool) {
        let mut size = self.room;
        while size > 0 {
            let less = Import {
                room: self.room.saturating_sub(size),
                ..self.clone()
            };
            if less != *self && shows(&less) {
                *self = less;
            } else {
                size /= 2;
            }
        }
    }
}

/// The sections of a text, and the words that stand in none.
fn sections(text: &[u8]) -> Vec<Vec<u8>> {
    let mut pieces: Vec<Vec<u8>> = Vec::new();
    let mut inside = false;
    for word in words(text) {
        match pieces.last_mut() {
            Some(section) if inside => section.extend_from_slice(&word),
            _ => pieces.push(word.clone()),
        }
        let ends = word.starts_with(b"$end") && word.len() <= b"$end ".len();
        inside = (inside || word.starts_with(b"$")) && !ends;
    }
    pieces
}

/// The words of a text, each with the blank behind it.
fn words(text: &[u8]) -> Vec<Vec<u8>> {
    let words = text.split_inclusive(|&byte| is_blank(byte));
    words.map(<[u8]>::to_vec).collect()
}

/// The same words, a line for each section and for each stamp with its changes.
fn in_lines(text: &[u8]) -> Vec<u8> {
    let words = text.split(|&byte| is_blank(byte));
    let mut lines = Vec::new();
    for word in words.filter(|word| !word.is_empty()) {
        let is_stamp = matches!(word, [b'#', digit, ..] if digit.is_ascii_digit());
        if is_stamp && lines.ends_with(b" ") {
            lines.pop();
            lines.push(b'\n');
        }
        lines.extend_from_slice(word);
        lines.push(if word == b"$end" { b'\n' } else { b' ' });
    }
    lines
}

fn bytes(text: &[u8]) -> Vec<Vec<u8>> {
    text.iter().map(|&byte| vec![byte]).collect()
}

/// Answer, length, and the output up to the last byte that was written.
impl Display for Imported {
    fn fmt(&self, to: &mut Formatter) -> fmt::Result {
        let (answer, length) = (self.answer, self.length);
        let untouched = self.out.iter().rev().take_while(|&&byte| byte == UNTOUCHED);
        let written = &self.out[..self.out.len() - untouched.count()];
        let text = written.escape_ascii();
        write!(to, "answer {answer}, length {length}, output \"{text}\"")
    }
}
