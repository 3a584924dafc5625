//! What the tests start from: captures whose codes are `s` for RS, `w` for RW, `e` for E and
//! `0` to `7` for DB0 to DB7.

use yaropesk_model::model::*;

/// The eleven lines, each in its section.
pub const LINES: [&str; 11] = [
    "$var wire 1 s RS $end ",
    "$var wire 1 w RW $end ",
    "$var wire 1 e E $end ",
    "$var wire 1 0 DB0 $end ",
    "$var wire 1 1 DB1 $end ",
    "$var wire 1 2 DB2 $end ",
    "$var wire 1 3 DB3 $end ",
    "$var wire 1 4 DB4 $end ",
    "$var wire 1 5 DB5 $end ",
    "$var wire 1 6 DB6 $end ",
    "$var wire 1 7 DB7 $end ",
];

pub const TIMESCALE: &str = "$timescale 1 us $end ";
pub const END: &str = "$enddefinitions $end ";

/// One pulse that writes the letter A: `D`, 41, wait 0.
pub const LETTER: &str = "1s 0w 07 16 05 04 03 02 01 10 #5 1e #6 0e ";
pub const LETTER_LINE: &str = "D\t41\t0\n";

/// A capture with these sections beside the usual ones, and these changes.
pub fn capture(sections: &str, changes: &str) -> String {
    [TIMESCALE, &LINES.concat(), sections, " ", END, changes].concat()
}

/// A refusal's number, or the session text.
pub type Outcome = Result<String, Answer>;

/// Imports a text into much room. A refusal has length 0 and leaves all as it was, and what
/// is behind the session text stays.
pub fn import_bytes(text: &[u8]) -> Outcome {
    let mut out = vec![0xEE; 40 + 8 * text.len()];
    let (answer, length) = import(text, &mut out);
    assert!(out[length..].iter().all(|&byte| byte == 0xEE));
    if answer == DONE {
        return Ok(String::from_utf8(out[..length].to_vec()).expect("session text"));
    }
    assert_eq!(length, 0);
    Err(answer)
}

pub fn import_text(text: &str) -> Outcome {
    import_bytes(text.as_bytes())
}

/// The session of a capture with these changes.
pub fn session_of(changes: &str) -> Outcome {
    import_text(&capture("", changes))
}

/// The session text of some lines, with blanks for tabs.
pub fn lines(lines: &[&str]) -> Outcome {
    let line = |line: &&str| line.replace(' ', "\t") + "\n";
    Ok(lines.iter().map(line).collect())
}

/// The text as it is, but for one thing that stands in it once.
pub fn replaced(text: &str, old: &str, new: &str) -> String {
    assert_eq!(text.matches(old).count(), 1, "{old:?} in {text:?}");
    text.replace(old, new)
}
