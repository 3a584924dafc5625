//! Wrong readings of document 01's chapter "Session lines" and of request c: readers and
//! writers of lines.

use crate::calls::{line_call, returned, returned_line, LineCall, Writer};
use crate::model::{self, Answer, Line, Reader, TRANSFER_BYTES};
use crate::model::{BAD_BYTE, BAD_KIND, BAD_WAIT, DONE, NO_NEWLINE};

// ---------------------------------------------------------------------------
// Bytes that are let through
// ---------------------------------------------------------------------------

/// Reads the text without the byte at this place, as if it could stand there.
fn let_through(text: &[u8], at: usize) -> (Answer, Line) {
    let (answer, mut line) = model::read_line(&[&text[..at], &text[at + 1..]].concat());
    match answer {
        DONE => line.length += 1,
        _ => line.offset += 1,
    }
    (answer, line)
}

/// Reads the text with another byte at this place.
fn taken_for(text: &[u8], at: usize, byte: u8) -> (Answer, Line) {
    let mut other = text.to_vec();
    other[at] = byte;
    model::read_line(&other)
}

/// A reader that takes a carriage return before the newline.
fn reads_carriage_return(text: &[u8]) -> (Answer, Line) {
    match model::read_line(text) {
        (NO_NEWLINE, line) if text[line.offset..].starts_with(b"\r\n") => {
            let_through(text, line.offset)
        }
        read => read,
    }
}

/// The digit that takes a wait past its limit is let through, and only the next is not.
fn reads_great_waits(text: &[u8]) -> (Answer, Line) {
    match model::read_line(text) {
        (BAD_WAIT, line) if is_past_limit(line.offset) => let_through(text, line.offset),
        read => read,
    }
}

/// Is it a digit past the limit that is refused as a wait at this place? The first digit is
/// the sixth byte, and a leading zero is known at the seventh.
fn is_past_limit(offset: usize) -> bool {
    offset > 6
}

/// One leading zero is let through.
fn reads_leading_zero(text: &[u8]) -> (Answer, Line) {
    match model::read_line(text) {
        (BAD_WAIT, line) if line.offset == 6 => let_through(text, 5),
        read => read,
    }
}

/// A reader that takes the end of the text for a newline.
fn reads_no_newline(text: &[u8]) -> (Answer, Line) {
    if text.contains(&b'\n') {
        return model::read_line(text);
    }
    let mut fixed = text.to_vec();
    fixed.push(b'\n');
    let (answer, mut line) = model::read_line(&fixed);
    line.length = line.length.min(text.len());
    (answer, line)
}

/// A reader that takes lower-case hex digits.
fn reads_lower_case(text: &[u8]) -> (Answer, Line) {
    let mut upper = text.to_vec();
    for digit in upper.iter_mut().take(4).skip(2) {
        digit.make_ascii_uppercase();
    }
    model::read_line(&upper)
}

/// A read's second digit may be any.
fn reads_second_digit(text: &[u8]) -> (Answer, Line) {
    match has_low_half(text) {
        true => taken_for(text, 3, b'0'),
        false => model::read_line(text),
    }
}

fn is_read(text: &[u8]) -> bool {
    matches!(text, [b'S' | b'R', ..])
}

/// Is only the second digit of a read's byte other than `0`?
fn has_low_half(text: &[u8]) -> bool {
    let digit = matches!(text, [_, b'\t', b'0', b'1'..=b'9' | b'A'..=b'F', ..]);
    digit && is_read(text)
}

/// The greatest wait is refused.
fn refuses_limit(text: &[u8]) -> (Answer, Line) {
    let (answer, line) = model::read_line(text);
    if answer == DONE && line.wait == u32::MAX {
        return (BAD_WAIT, bad(line.length - 2));
    }
    (answer, line)
}

// ---------------------------------------------------------------------------
// Faults with another number or at another place
// ---------------------------------------------------------------------------

fn bad(offset: usize) -> Line {
    Line {
        offset,
        ..Line::default()
    }
}

/// The number and the offset of a fault, and does the text end there?
type Fault = (Answer, usize, bool);

/// Reads the text, with another number and offset where it is refused.
fn told_as(text: &[u8], tell: impl Fn(Fault) -> (Answer, usize)) -> (Answer, Line) {
    let (answer, line) = model::read_line(text);
    if answer == DONE {
        return (answer, line);
    }
    let (answer, offset) = tell((answer, line.offset, line.offset == text.len()));
    (answer, bad(offset))
}

/// The fault is one byte later.
fn fault_later(text: &[u8]) -> (Answer, Line) {
    told_as(text, |(answer, offset, _)| (answer, offset + 1))
}

/// 18 for 19 after a digit.
fn ending_as_wait(text: &[u8]) -> (Answer, Line) {
    told_as(text, |(answer, offset, _)| match answer {
        NO_NEWLINE => (BAD_WAIT, offset),
        _ => (answer, offset),
    })
}

/// 19 for the digit that takes the wait past its limit.
fn limit_as_ending(text: &[u8]) -> (Answer, Line) {
    told_as(text, |(answer, offset, _)| match answer {
        BAD_WAIT if is_past_limit(offset) => (NO_NEWLINE, offset),
        _ => (answer, offset),
    })
}

/// 19 for a digit after a leading zero.
fn leading_zero_as_ending(text: &[u8]) -> (Answer, Line) {
    told_as(text, |(answer, offset, _)| match (answer, offset) {
        (BAD_WAIT, 6) => (NO_NEWLINE, offset),
        _ => (answer, offset),
    })
}

/// A digit after a leading zero is told at the zero.
fn leading_zero_told_there(text: &[u8]) -> (Answer, Line) {
    told_as(text, |(answer, offset, _)| match (answer, offset) {
        (BAD_WAIT, 6) => (answer, 5),
        _ => (answer, offset),
    })
}

/// 17 where the kind's tab is missing.
fn kinds_tab_as_byte(text: &[u8]) -> (Answer, Line) {
    told_as(text, |(answer, offset, _)| match offset {
        1 => (BAD_BYTE, offset),
        _ => (answer, offset),
    })
}

/// 18 where the byte's tab is missing.
fn bytes_tab_as_wait(text: &[u8]) -> (Answer, Line) {
    told_as(text, |(answer, offset, _)| match offset {
        4 => (BAD_WAIT, offset),
        _ => (answer, offset),
    })
}

/// A read's wrong byte is placed at its first digit, whichever is wrong.
fn read_placed_first(text: &[u8]) -> (Answer, Line) {
    told_as(text, |(answer, offset, _)| match has_low_half(text) {
        true => (answer, 2),
        false => (answer, offset),
    })
}

/// A read's byte is judged after its tab, as that of a write is before.
fn read_judged_late(text: &[u8]) -> (Answer, Line) {
    let written = match is_read(text) {
        true => taken_for(text, 0, b'D'),
        false => model::read_line(text),
    };
    match written {
        (BAD_BYTE, _) => written,
        _ => model::read_line(text),
    }
}

/// The offset of an early end is one too small.
fn end_too_early(text: &[u8]) -> (Answer, Line) {
    told_as(text, |(answer, offset, ends)| match ends {
        true => (answer, offset.saturating_sub(1)),
        false => (answer, offset),
    })
}

/// An early end is always a missing newline.
fn end_as_ending(text: &[u8]) -> (Answer, Line) {
    told_as(text, |(answer, offset, ends)| match ends {
        true => (NO_NEWLINE, offset),
        false => (answer, offset),
    })
}

/// An early end behind a tab is told of the field before it.
fn end_as_field_before(text: &[u8]) -> (Answer, Line) {
    told_as(text, |(answer, offset, ends)| match (offset, ends) {
        (2, true) => (BAD_KIND, offset),
        (5, true) => (BAD_BYTE, offset),
        _ => (answer, offset),
    })
}

/// The newline is looked for before all else, as if it were the first fault.
fn newline_first(text: &[u8]) -> (Answer, Line) {
    match text.contains(&b'\n') {
        true => model::read_line(text),
        false => (NO_NEWLINE, bad(text.len())),
    }
}

// ---------------------------------------------------------------------------
// What only the call tells
// ---------------------------------------------------------------------------

/// The length of a line is told although it is refused.
fn length_of_refused(text: &[u8]) -> (Answer, Line) {
    let (answer, mut line) = model::read_line(text);
    if answer != DONE {
        line.length = line.offset;
    }
    (answer, line)
}

/// An offset is told of a good line.
fn offset_of_good(text: &[u8]) -> (Answer, Line) {
    let (answer, mut line) = model::read_line(text);
    if answer == DONE {
        line.offset = line.length;
    }
    (answer, line)
}

/// 11 comes before 16 to 19.
fn short_output_first(read: Reader, text: &[u8], out: &mut [u8]) -> u32 {
    match out.len() < TRANSFER_BYTES {
        true => returned(model::TOO_SHORT, 0),
        false => line_call(read, text, out),
    }
}

/// 11 is told with the length of the line.
fn short_output_measured(read: Reader, text: &[u8], out: &mut [u8]) -> u32 {
    match read(text) {
        (DONE, line) if out.len() < TRANSFER_BYTES => returned_line(model::TOO_SHORT, &line),
        _ => line_call(read, text, out),
    }
}

// ---------------------------------------------------------------------------
// Writers
// ---------------------------------------------------------------------------

/// The tenth digit of a wait is lost.
fn digit_lost(kind: u8, byte: u8, wait: u32, out: &mut [u8]) -> (Answer, usize) {
    let shorter = if wait >= 1_000_000_000 {
        wait / 10
    } else {
        wait
    };
    model::write_line(kind, byte, shorter, out)
}

/// What is left of the sixteen bytes of a line is filled with zeros.
fn line_runs_over(kind: u8, byte: u8, wait: u32, out: &mut [u8]) -> (Answer, usize) {
    let (answer, length) = model::write_line(kind, byte, wait, out);
    if answer == model::DONE {
        out[length..model::LINE_BYTES].fill(0);
    }
    (answer, length)
}

pub const WRONG_READERS: [(&str, Reader); 20] = [
    ("carriage-return", reads_carriage_return),
    ("great-waits", reads_great_waits),
    ("leading-zero", reads_leading_zero),
    ("no-newline", reads_no_newline),
    ("lower-case", reads_lower_case),
    ("second-digit", reads_second_digit),
    ("limit-refused", refuses_limit),
    ("fault-later", fault_later),
    ("ending-as-wait", ending_as_wait),
    ("limit-as-ending", limit_as_ending),
    ("leading-zero-as-ending", leading_zero_as_ending),
    ("leading-zero-told-there", leading_zero_told_there),
    ("kinds-tab-as-byte", kinds_tab_as_byte),
    ("bytes-tab-as-wait", bytes_tab_as_wait),
    ("read-placed-first", read_placed_first),
    ("read-judged-late", read_judged_late),
    ("end-too-early", end_too_early),
    ("end-as-ending", end_as_ending),
    ("end-as-field-before", end_as_field_before),
    ("newline-first", newline_first),
];

/// Those that no report and no place of a bad line shows.
pub const UNSEEN_READERS: [(&str, Reader); 2] = [
    ("length-of-refused", length_of_refused),
    ("offset-of-good", offset_of_good),
];

pub const WRONG_LINE_CALLS: [(&str, LineCall); 2] = [
    ("short-output-first", short_output_first),
    ("short-output-measured", short_output_measured),
];

pub const WRONG_WRITERS: [(&str, Writer); 2] = [
    ("digit-lost", digit_lost),
    ("line-runs-over", line_runs_over),
];
