//! Document 01, "Session lines": one line, written and read. What is wrong with a line, and
//! where, is request c of document 02.

use super::transfer::{is_bad, is_read};
use super::{Answer, BAD_BYTE, BAD_KIND, BAD_WAIT, DONE, NO_NEWLINE, TOO_SHORT, WRONG_KIND};

/// "at most 16 bytes; the writer wants 16".
pub const LINE_BYTES: usize = 16;

/// "`I`, `D`, `S` or `R`", in the order of the kinds.
const LETTERS: [u8; 4] = [b'I', b'D', b'S', b'R'];

/// The letter of a kind, which is not above 3.
pub fn letter(kind: u8) -> char {
    LETTERS[usize::from(kind)].into()
}

/// The kind of a letter.
fn kind_of(letter: u8) -> Option<u8> {
    let kind = LETTERS.iter().position(|&each| each == letter);
    kind.map(|kind| kind as u8)
}

fn hex_digit(four_bits: u8) -> u8 {
    b"0123456789ABCDEF"[(four_bits & 0x0F) as usize]
}

/// "two upper-case hex digits": lower-case ones are none.
fn hex_value(digit: u8) -> Option<u8> {
    match digit {
        b'0'..=b'9' => Some(digit - b'0'),
        b'A'..=b'F' => Some(digit - b'A' + 10),
        _ => None,
    }
}

/// Writes one line: answer and length. "Writer: 3, 11."
pub fn write_line(kind: u8, byte: u8, wait: u32, out: &mut [u8]) -> (Answer, usize) {
    if is_bad(kind, byte) {
        return (WRONG_KIND, 0);
    }
    // "the writer wants 16"
    if out.len() < LINE_BYTES {
        return (TOO_SHORT, 0);
    }
    let line = line_bytes(kind, byte, wait);
    out[..line.len()].copy_from_slice(&line);
    (DONE, line.len())
}

/// The line of a transfer, whose kind is not above 3: "`I`, `D`, `S` or `R`, tab, two
/// upper-case hex digits, tab, decimal wait without leading zeros, newline".
pub fn line_bytes(kind: u8, byte: u8, wait: u32) -> Vec<u8> {
    let mut line = vec![
        LETTERS[kind as usize],
        b'\t',
        hex_digit(byte >> 4),
        hex_digit(byte),
        b'\t',
    ];
    line.extend_from_slice(wait.to_string().as_bytes());
    line.push(b'\n');
    line
}

/// What the reader found. The offset is a value of its own: on a refusal all else is 0, and
/// of a good line it is 0.
#[derive(Clone, Copy, Debug, Default, PartialEq, Eq)]
pub struct Line {
    pub kind: u8,
    pub byte: u8,
    pub wait: u32,
    pub length: usize,
    /// "the offset of the first byte that cannot stand, or the length where the text ends
    /// early".
    pub offset: usize,
}

/// Reads the line at the start of the text: answer, kind, byte, wait, length, offset.
/// "Tell the kind, the byte, the wait and the ending apart". Reading 16: a refusal returns
/// zeros for all but the offset.
pub fn read_line(text: &[u8]) -> (Answer, Line) {
    let mut lines = text.split_inclusive(|&byte| byte == b'\n');
    let line = lines.next().unwrap_or_default();
    // "The first fault from the left wins."
    let fault = (0..line.len()).find(|&at| !can_stand(&line[..at], line[at]));
    // Where every byte can stand and the last is no newline, "the text ends early".
    let end = (!line.ends_with(b"\n")).then_some(line.len());
    let Some(offset) = fault.or(end) else {
        return (DONE, good_line(line));
    };
    let bad = Line {
        offset,
        ..Line::default()
    };
    (refusal(offset, line.get(offset).copied()), bad)
}

/// Where the wait begins: kind and byte have fixed places before it.
const WAIT_AT: usize = 5;

/// Can this byte stand behind these, which all can? "`I`, `D`, `S` or `R`, tab, two
/// upper-case hex digits, tab, decimal wait without leading zeros, newline".
fn can_stand(before: &[u8], byte: u8) -> bool {
    match before.len() {
        0 => kind_of(byte).is_some(),
        1 | 4 => byte == b'\t',
        // "`S` and `R` carry 00": each digit is judged where it stands.
        2 | 3 => match kind_of(before[0]).is_some_and(is_read) {
            true => byte == b'0',
            false => hex_value(byte).is_some(),
        },
        WAIT_AT => byte.is_ascii_digit(),
        _ => byte == b'\n' || byte.is_ascii_digit() && can_follow(&before[WAIT_AT..], byte),
    }
}

/// Can this digit stand behind these in a wait? Not "a digit after a leading zero, or the
/// digit that takes the wait past its limit", which is 4,294,967,295.
fn can_follow(digits: &[u8], digit: u8) -> bool {
    let wait = ten_times_and(wait_of(digits), &digit);
    digits != b"0" && wait <= u32::MAX.into()
}

/// The number of a refusal at this place, where this byte cannot stand or the text ends.
/// "16 kind or its tab, 17 byte or its tab, 18 wait, 19 no newline where one must stand".
fn refusal(offset: usize, found: Option<u8>) -> Answer {
    match (offset, found) {
        (0 | 1, _) => BAD_KIND,
        (2..=4, _) => BAD_BYTE,
        (WAIT_AT, _) => BAD_WAIT,
        // Such a digit "is 18; after a first digit any other byte but a newline is 19."
        (_, Some(b'0'..=b'9')) => BAD_WAIT,
        _ => NO_NEWLINE,
    }
}

/// What a line says whose bytes can all stand.
fn good_line(line: &[u8]) -> Line {
    let four_bits = |at: usize| hex_value(line[at]).unwrap_or_default();
    Line {
        kind: kind_of(line[0]).unwrap_or_default(),
        byte: four_bits(2) << 4 | four_bits(3),
        wait: wait_of(&line[WAIT_AT..line.len() - 1]) as u32,
        length: line.len(),
        offset: 0,
    }
}

fn wait_of(digits: &[u8]) -> u64 {
    digits.iter().fold(0, ten_times_and)
}

fn ten_times_and(number: u64, digit: &u8) -> u64 {
    number * 10 + u64::from(digit - b'0')
}
