//! Document 02, c) "Which field of the line": number and offset of every fault.

use yaropesk_model::calls::{Calls, MODEL};
use yaropesk_model::model::*;

/// The number and the offset of a text that is refused; all else is then 0.
fn fault(text: &[u8]) -> (Answer, usize) {
    let (answer, line) = read_line(text);
    let offset = line.offset;
    let zeros = Line::default();
    assert_eq!(line, Line { offset, ..zeros }, "{}", text.escape_ascii());
    (answer, offset)
}

/// The text is refused so, whatever comes after it.
fn is_refused(text: &[u8], expected: (Answer, usize)) {
    for after in ["", "\n", "0\n", "\t00\t0\n", "I\t38\t0\n"] {
        let longer = [text, after.as_bytes()].concat();
        assert_eq!(fault(&longer), expected, "{}", longer.escape_ascii());
    }
}

/// Behind this beginning no byte can stand but those.
fn none_stands_but(beginning: &str, allowed: &[u8], answer: Answer) {
    for byte in (u8::MIN..=u8::MAX).filter(|byte| !allowed.contains(byte)) {
        let text = [beginning.as_bytes(), &[byte]].concat();
        is_refused(&text, (answer, beginning.len()));
    }
}

const DIGITS: &[u8] = b"0123456789";
const HEX_DIGITS: &[u8] = b"0123456789ABCDEF";

/// "16 kind or its tab".
#[test]
fn the_kind_and_its_tab() {
    none_stands_but("", b"IDSR", BAD_KIND);
    for letter in ["I", "D", "S", "R"] {
        none_stands_but(letter, b"\t", BAD_KIND);
    }
}

/// "17 byte or its tab".
#[test]
fn the_byte_and_its_tab() {
    for beginning in ["I\t", "D\t", "I\t0", "D\tF"] {
        none_stands_but(beginning, HEX_DIGITS, BAD_BYTE);
    }
    for beginning in ["I\t38", "D\tFF", "D\t00", "S\t00", "R\t00"] {
        none_stands_but(beginning, b"\t", BAD_BYTE);
    }
}

/// "A read's byte other than 00 is 17", placed at the first of its two digits that is not
/// `0`; its second digit and its tab are not looked at before.
#[test]
fn a_read_with_a_byte() {
    for beginning in ["S\t", "S\t0", "R\t", "R\t0"] {
        none_stands_but(beginning, b"0", BAD_BYTE);
    }
    for byte in 0x01..=u8::MAX {
        let offset = if byte < 0x10 { 3 } else { 2 };
        let text = format!("R\t{byte:02X}");
        is_refused(text.as_bytes(), (BAD_BYTE, offset));
    }
}

/// "18 wait": a wait begins with a digit; "a digit after a leading zero" is 18.
#[test]
fn the_wait_and_its_leading_zero() {
    for beginning in ["I\t38\t", "S\t00\t"] {
        none_stands_but(beginning, DIGITS, BAD_WAIT);
    }
    for digit in '0'..='9' {
        let text = format!("D\t41\t0{digit}");
        is_refused(text.as_bytes(), (BAD_WAIT, 6));
    }
}

/// "the digit that takes the wait past its limit, is 18", also where that is the eleventh.
#[test]
fn the_wait_past_its_limit() {
    for (wait, offset) in [
        ("4294967296", 14),
        ("4294967299", 14),
        ("4294967300", 14),
        ("4295000000", 14),
        ("5000000000", 14),
        ("9999999999", 14),
        ("42949672950", 15),
        ("42949672949", 15),
        ("10000000000", 15),
        ("99999999999999999999", 14),
        ("18446744073709551616", 15),
    ] {
        let text = format!("I\t38\t{wait}");
        is_refused(text.as_bytes(), (BAD_WAIT, offset));
    }
}

/// "after a first digit any other byte but a newline is 19."
#[test]
fn the_newline_after_the_wait() {
    let mut wait = String::new();
    for digit in "4294967295".chars() {
        wait.push(digit);
        let beginning = format!("I\t38\t{wait}");
        none_stands_but(&beginning, b"0123456789\n", NO_NEWLINE);
    }
    none_stands_but("S\t00\t0", b"0123456789\n", NO_NEWLINE);
}

/// "or the length where the text ends early": the number is that of the field in which it
/// ends.
#[test]
fn texts_that_end_early() {
    for line in ["I\t38\t4294967295\n", "S\t00\t0\n", "R\t00\t10\n"] {
        for length in 0..line.len() {
            let answer = match length {
                0..=1 => BAD_KIND,
                2..=4 => BAD_BYTE,
                5 => BAD_WAIT,
                _ => NO_NEWLINE,
            };
            assert_eq!(fault(&line.as_bytes()[..length]), (answer, length));
        }
    }
}

/// "The first fault from the left wins": each of these has a second one behind it.
#[test]
fn the_first_fault_wins() {
    for (text, expected) in [
        ("i 38\t0\n", (BAD_KIND, 0)),
        ("X\t3g\t00\n", (BAD_KIND, 0)),
        (" I\t38\t0", (BAD_KIND, 0)),
        ("I 3a 00\r\n", (BAD_KIND, 1)),
        ("S01\t0\n", (BAD_KIND, 1)),
        ("I\tg8\t00\n", (BAD_BYTE, 2)),
        ("S\t1g\t0\n", (BAD_BYTE, 2)),
        ("S\t10 0\n", (BAD_BYTE, 2)),
        ("R\t0g\t0\n", (BAD_BYTE, 3)),
        ("R\t01 0\n", (BAD_BYTE, 3)),
        ("R\t01\t00\n", (BAD_BYTE, 3)),
        ("I\t3a 0\n", (BAD_BYTE, 3)),
        ("I\t38 00\n", (BAD_BYTE, 4)),
        ("I\t38\n\t0\n", (BAD_BYTE, 4)),
        ("I\t38\t-01\r\n", (BAD_WAIT, 5)),
        ("I\t38\t00\r\n", (BAD_WAIT, 6)),
        ("I\t38\t4294967296", (BAD_WAIT, 14)),
        ("I\t38\t4294967296\r\n", (BAD_WAIT, 14)),
        ("I\t38\t0 0\n", (NO_NEWLINE, 6)),
        ("I\t38\t1\r\n", (NO_NEWLINE, 6)),
        ("I\t38\t42949672 96\n", (NO_NEWLINE, 13)),
    ] {
        assert_eq!(fault(text.as_bytes()), expected, "{text:?}");
    }
}

/// What people type.
#[test]
fn lines_typed_by_hand() {
    for (text, expected) in [
        ("\n", (BAD_KIND, 0)),
        ("\nI\t38\t0\n", (BAD_KIND, 0)),
        ("i\t38\t0\n", (BAD_KIND, 0)),
        ("I 38 0\n", (BAD_KIND, 1)),
        ("I\n", (BAD_KIND, 1)),
        ("I\t\t38\t0\n", (BAD_BYTE, 2)),
        ("I\t\n", (BAD_BYTE, 2)),
        ("I\t3\t0\n", (BAD_BYTE, 3)),
        ("I\t3a\t0\n", (BAD_BYTE, 3)),
        ("I\t380\t0\n", (BAD_BYTE, 4)),
        ("I\t38 0\n", (BAD_BYTE, 4)),
        ("I\t38\n", (BAD_BYTE, 4)),
        ("I\t38\t\n", (BAD_WAIT, 5)),
        ("I\t38\t\t0\n", (BAD_WAIT, 5)),
        ("I\t38\t+1\n", (BAD_WAIT, 5)),
        ("I\t38\t-1\n", (BAD_WAIT, 5)),
        ("I\t38\t1 \n", (NO_NEWLINE, 6)),
        ("I\t38\t0\r\n", (NO_NEWLINE, 6)),
        ("I\t38\t1,640\n", (NO_NEWLINE, 6)),
        ("I\t38\t40us\n", (NO_NEWLINE, 7)),
        ("I\t38\t15000", (NO_NEWLINE, 10)),
    ] {
        assert_eq!(fault(text.as_bytes()), expected, "{text:?}");
    }
}

/// The call: answer + 256 x length + 65,536 x offset; 16 to 19 come before 11, which has
/// neither.
#[test]
fn the_call_tells_length_or_offset() {
    let mut out = [0xEE; 8];
    for room in 0..out.len() {
        for (text, returned) in [
            ("", 16),
            ("I 38", 16 + 65_536),
            ("S\t10", 17 + 65_536 * 2),
            ("S\t01", 17 + 65_536 * 3),
            ("I\t38\t", 18 + 65_536 * 5),
            ("I\t38\t42949672950\n", 18 + 65_536 * 15),
            ("I\t38\t4294967295", 19 + 65_536 * 15),
        ] {
            let read = MODEL.read_line(text.as_bytes(), &mut out[..room]);
            assert_eq!(read, returned, "{text:?}");
            assert_eq!(out, [0xEE; 8]);
        }
    }
    let line = b"I\t38\t15000\n";
    assert_eq!(MODEL.read_line(line, &mut out[..5]), 11);
    assert_eq!(out, [0xEE; 8]);
    assert_eq!(MODEL.read_line(line, &mut out), 256 * 11);
    assert_eq!(out, [0, 0x38, 0x98, 0x3A, 0, 0, 0xEE, 0xEE]);
}
