//! Refusals 15, 28 and 11, and the order of all four.

use yaropesk_model::model::capture::SIGNALS;
use yaropesk_model::model::*;

use crate::given::*;

const UNKNOWN: [&str; 4] = ["x", "X", "z", "Z"];

/// The letter's capture without this line, neither declared nor changed.
fn without(line: usize) -> String {
    let code = LINES[line].split(' ').nth(3).expect("a code");
    let of_line = |word: &&str| word.len() != 2 || &word[1..] != code || word.starts_with('#');
    let changes: Vec<&str> = LETTER.split(' ').filter(of_line).collect();
    replaced(&capture("", &changes.join(" ")), LINES[line], "")
}

/// "15 needed signal missing". "Names are compared exactly."
#[test]
fn every_line_is_needed() {
    for (line, name) in SIGNALS.iter().enumerate() {
        let name = name.escape_ascii().to_string();
        let text = without(line);
        assert_eq!(import_text(&text), Err(SIGNAL_MISSING), "{name}");
        for near in [
            name.to_lowercase(),
            format!("{name}_"),
            format!("{name}[0]"),
        ] {
            let text = replaced(&text, END, &format!("$var wire 1 ! {near} $end {END}"));
            assert_eq!(import_text(&text), Err(SIGNAL_MISSING), "{near}");
        }
    }
    let bare = format!("{TIMESCALE}{END}");
    assert_eq!(import_text(&bare), Err(SIGNAL_MISSING));
}

/// "28 x or z on a needed line at a fall (DB lines only for writes)".
#[test]
fn levels_are_known_at_a_fall() {
    for unknown in UNKNOWN {
        for kind in ["0s 0w", "1s 0w", "0s 1w", "1s 1w"] {
            let read = kind.ends_with("1w");
            for code in ["s", "w", "0", "1", "2", "3", "4", "5", "6", "7"] {
                let changes = format!("{LETTER} {kind} {unknown}{code} #7 1e #8 0e");
                let is_free = read && !["s", "w"].contains(&code);
                let (answer, text) = (session_of(&changes), capture("", &changes));
                assert_eq!(answer.is_ok(), is_free, "{text}");
                assert_eq!(answer.err(), (!is_free).then_some(UNKNOWN_LEVEL));
            }
        }
    }
}

/// "All lines are x until set."
#[test]
fn lines_that_were_never_set_are_unknown() {
    for code in ["1s", "0w", "07", "16", "05", "04", "03", "02", "01", "10"] {
        let unset = LETTER.replace(&format!("{code} "), "");
        assert_eq!(session_of(&unset), Err(UNKNOWN_LEVEL), "{code}");
    }
    assert_eq!(session_of("1s 1w #5 1e #6 0e"), lines(&["R 00 0"]));
    assert_eq!(session_of("#5 1e #6 0e"), Err(UNKNOWN_LEVEL));
}

/// Only "at a fall".
#[test]
fn levels_may_be_unknown_elsewhere() {
    let changes = format!("#1 xs xw x7 #2 0e #3 {LETTER} #7 xs zw x0 1e #8 #9 xe #10 0e");
    assert_eq!(session_of(&changes), lines(&["D 41 0"]));
}

/// "in that order over the whole text": 14, 15, 28.
#[test]
fn refusals_come_in_order() {
    let unknown = "#20 1e #21 xs 0e ";
    // 14 before 28, wherever each stands.
    for changes in [
        format!("{unknown} #4294967296"),
        format!("1? {unknown}"),
        format!("{unknown} 1?"),
        format!("{unknown} $dumpvars"),
        format!("b1 e {unknown}"),
    ] {
        assert_eq!(session_of(&changes), Err(OUTSIDE_SUBSET), "{changes:?}");
    }
    for line in [0, 1, 3, 10] {
        // 15 before 28, and 14 before 15.
        let missing = without(line) + "#20 1e #21 0e ";
        assert_eq!(import_text(&missing), Err(SIGNAL_MISSING));
        let text = missing.clone() + "#4294967296";
        assert_eq!(import_text(&text), Err(OUTSIDE_SUBSET));
        let twice = replaced(&missing, END, &format!("{}{END}", LINES[2]));
        assert_eq!(import_text(&twice), Err(OUTSIDE_SUBSET));
    }
}

/// "then 11": "a buffer shorter than the session text that would be written."
#[test]
fn output_has_room_for_the_session() {
    let text = capture("", LETTER).into_bytes();
    let mut out = [0xEE; 9];
    for room in 0..LETTER_LINE.len() {
        assert_eq!(import(&text, &mut out[..room]), (TOO_SHORT, 0));
        assert_eq!(out, [0xEE; 9]);
    }
    assert_eq!(import(&text, &mut out[..7]), (DONE, 7));
    assert_eq!(out, *b"D\t41\t0\n\xEE\xEE");
    // Nothing is wanted for nothing, and the other refusals come first.
    let nothing = capture("", "").into_bytes();
    assert_eq!(import(&nothing, &mut []), (DONE, 0));
    assert_eq!(import(b"", &mut []), (OUTSIDE_SUBSET, 0));
    assert_eq!(import(without(4).as_bytes(), &mut []), (SIGNAL_MISSING, 0));
    let unknown = capture("", "#5 1e #6 0e").into_bytes();
    assert_eq!(import(&unknown, &mut []), (UNKNOWN_LEVEL, 0));
}
