//! A capture made from a session.

use super::{DB0, E, RS, RW, SIGNALS};
use crate::model::Transfer;
use crate::model::{is_read, DATA_READ, DATA_WRITE};

/// "a capture made from any session": the text of a pod whose first stamp this is. "each
/// transfer has one E pulse there, up one microsecond before it falls."
///
/// It "imports as that session" if the "first wait is 0" and the "later waits are 2 or
/// more". The first wait is not in it, and a pulse that follows after 1 begins at the stamp
/// at which the one before it ends, so that E does not fall there.
pub fn capture_of(session: &[Transfer], first: u32) -> Vec<u8> {
    let mut text = header();
    let mut fall = first.wrapping_add(1);
    for (number, &(kind, byte, wait)) in session.iter().enumerate() {
        if number > 0 {
            fall = fall.wrapping_add(wait);
        }
        text.push_str(&pulse(kind, byte, fall));
    }
    text.into_bytes()
}

/// The codes of the lines are `!` and those after it.
fn code(line: usize) -> char {
    char::from(b'!' + line as u8)
}

/// "timescale 1 us, scalar signals named RS, RW, E and DB0 to DB7, each declared once".
fn header() -> String {
    let mut text = String::from("$timescale 1 us $end\n$scope module pod $end\n");
    for (line, signal) in SIGNALS.iter().enumerate() {
        let name = signal.escape_ascii();
        text.push_str(&format!("$var wire 1 {} {name} $end\n", code(line)));
    }
    text.push_str("$upscope $end\n$enddefinitions $end\n");
    text
}

fn change(level: bool, line: usize) -> String {
    format!("{}{}\n", u8::from(level), code(line))
}

/// All lines are set as E goes up, and E falls a microsecond later.
fn pulse(kind: u8, byte: u8, fall: u32) -> String {
    let mut text = format!("#{}\n", fall.wrapping_sub(1));
    text.push_str(&change(kind == DATA_WRITE || kind == DATA_READ, RS));
    text.push_str(&change(is_read(kind), RW));
    for bit in 0..8 {
        text.push_str(&change(byte >> bit & 1 == 1, DB0 + bit));
    }
    text.push_str(&change(true, E));
    text.push_str(&format!("#{fall}\n"));
    text.push_str(&change(false, E));
    text
}
