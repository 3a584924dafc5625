//! Wrong readings of document 02's request d: a frequency's bytes, reset, and the plan's
//! waits. Those of a transfer's time are in `transfer`.

use std::ops::Range;

use crate::bytes::{frequency_of, record_of, wish_of, FREQUENCY_AT, RECORD_BYTES};
use crate::bytes::{WISH_BYTES, WISH_FREQUENCY_AT};
use crate::calls::{Planner, RecordReader, Resetter, WishReader};
use crate::model::{self, time_at, Answer, Record, Wish};
use crate::model::{FREQUENCIES, LONGEST_BUSY, LONG_TIME, SHORT_TIME, TRANSFER_BYTES, USUAL_KHZ};

// ---------------------------------------------------------------------------
// The bytes of a record and of a wish
// ---------------------------------------------------------------------------

/// The bytes with another frequency, where they have their length.
fn tuned(bytes: &[u8], length: usize, at: Range<usize>, other: fn(u16) -> u16) -> Vec<u8> {
    let mut bytes = bytes.to_vec();
    if bytes.len() == length {
        let frequency = other(frequency_of(&bytes[at.clone()]));
        bytes[at].copy_from_slice(&frequency.to_le_bytes());
    }
    bytes
}

/// The record if its frequency were another one.
macro_rules! record_with {
    ($other:expr) => {
        |bytes| record_of(&tuned(bytes, RECORD_BYTES, FREQUENCY_AT, $other))
    };
}

/// The wish if its frequency were another one.
macro_rules! wish_with {
    ($other:expr) => {
        |bytes| wish_of(&tuned(bytes, WISH_BYTES, WISH_FREQUENCY_AT, $other))
    };
}

/// 189 is taken as well.
fn takes_189(found: u16) -> u16 {
    match found {
        189 => 190,
        other => other,
    }
}

/// 351 is taken as well.
fn takes_351(found: u16) -> u16 {
    match found {
        351 => 350,
        other => other,
    }
}

/// Every number is taken.
fn takes_any(found: u16) -> u16 {
    match FREQUENCIES.contains(&found) {
        true => found,
        false => USUAL_KHZ,
    }
}

/// 190 is refused.
fn refuses_190(found: u16) -> u16 {
    match found {
        190 => 0,
        other => other,
    }
}

/// 350 is refused.
fn refuses_350(found: u16) -> u16 {
    match found {
        350 => 0,
        other => other,
    }
}

/// The bits above those that a frequency in range has are not looked at.
fn high_bits_unseen(found: u16) -> u16 {
    found % 512
}

// ---------------------------------------------------------------------------
// Reset
// ---------------------------------------------------------------------------

/// Reset puts 250 for every frequency.
fn reset_puts_250(record: Record, memory: &mut [u8]) -> (Answer, Record) {
    let (answer, new) = model::reset(record, memory);
    let frequency = USUAL_KHZ;
    (answer, Record { frequency, ..new })
}

/// Reset keeps any frequency.
fn reset_keeps_any(record: Record, memory: &mut [u8]) -> (Answer, Record) {
    let (answer, new) = model::reset(record, memory);
    let frequency = record.frequency;
    (answer, Record { frequency, ..new })
}

/// Reset puts the nearer end of the range for a frequency outside it.
fn reset_puts_an_end(record: Record, memory: &mut [u8]) -> (Answer, Record) {
    let (answer, new) = model::reset(record, memory);
    let (lowest, highest) = FREQUENCIES.into_inner();
    let frequency = record.frequency.clamp(lowest, highest);
    (answer, Record { frequency, ..new })
}

/// The reset time follows the frequency, as far as a record has room for it.
fn reset_time_follows(record: Record, memory: &mut [u8]) -> (Answer, Record) {
    let (answer, new) = model::reset(record, memory);
    let busy = time_at(new.frequency, new.busy).min(LONGEST_BUSY);
    (answer, Record { busy, ..new })
}

// ---------------------------------------------------------------------------
// The plan's waits
// ---------------------------------------------------------------------------

/// A wait of a plan, made of the number of its record, from 0, the wait at 250 kHz and the
/// frequency.
type Wait = fn(usize, u32, u16) -> u32;

/// The plan with other waits.
fn waiting(
    wish: &Wish,
    marks: &[u8],
    values: &[u8],
    out: &mut [u8],
    wait: Wait,
) -> (Answer, usize) {
    let (answer, count) = model::plan(wish, marks, values, out);
    if answer == model::DONE {
        let usual = Wish {
            frequency: USUAL_KHZ,
            ..*wish
        };
        model::plan(&usual, marks, values, out);
    }
    for (number, record) in out.chunks_exact_mut(TRANSFER_BYTES).take(count).enumerate() {
        let wait = wait(number, model::little_endian(&record[2..]), wish.frequency);
        record[2..].copy_from_slice(&wait.to_le_bytes());
    }
    (answer, count)
}

/// The planner with other waits.
macro_rules! waits {
    ($wait:expr) => {
        |wish, marks, values, out| waiting(wish, marks, values, out, $wait)
    };
}

/// The wait that is due: the times alone follow the frequency.
fn due(wait: u32, frequency: u16) -> u32 {
    match wait {
        SHORT_TIME | LONG_TIME => time_at(frequency, wait),
        _ => wait,
    }
}

/// The waits are those at 250 kHz for all.
pub fn plan_at_250(wish: &Wish, marks: &[u8], values: &[u8], out: &mut [u8]) -> (Answer, usize) {
    waiting(wish, marks, values, out, |_, wait, _| wait)
}

/// The waits are rounded down.
fn rounded_down(_: usize, wait: u32, frequency: u16) -> u32 {
    match wait {
        SHORT_TIME | LONG_TIME => wait * 250 / u32::from(frequency),
        _ => wait,
    }
}

/// The wait for Home is that at 250 kHz.
fn home_at_250(_: usize, wait: u32, frequency: u16) -> u32 {
    match wait {
        LONG_TIME => LONG_TIME,
        _ => due(wait, frequency),
    }
}

/// The four opening waits follow.
fn opening_follows(number: usize, wait: u32, frequency: u16) -> u32 {
    match number {
        0..=3 => time_at(frequency, wait),
        _ => due(wait, frequency),
    }
}

/// The 100 before Function Set follows.
fn hundred_follows(number: usize, wait: u32, frequency: u16) -> u32 {
    match number {
        4 => time_at(frequency, wait),
        _ => due(wait, frequency),
    }
}

/// The 1 before a second half follows.
fn second_halves_follow(_: usize, wait: u32, frequency: u16) -> u32 {
    match wait {
        1 => time_at(frequency, wait),
        _ => due(wait, frequency),
    }
}

pub const WRONG_RECORDS: [(&str, RecordReader); 6] = [
    ("frequency-exchanged", record_with!(u16::swap_bytes)),
    ("high-bits-unseen", record_with!(high_bits_unseen)),
    ("takes-189", record_with!(takes_189)),
    ("takes-351", record_with!(takes_351)),
    ("refuses-190", record_with!(refuses_190)),
    ("refuses-350", record_with!(refuses_350)),
];

pub const WRONG_WISHES: [(&str, WishReader); 7] = [
    ("wish-exchanged", wish_with!(u16::swap_bytes)),
    ("wish-high-bits-unseen", wish_with!(high_bits_unseen)),
    ("wish-takes-any", wish_with!(takes_any)),
    ("wish-takes-189", wish_with!(takes_189)),
    ("wish-takes-351", wish_with!(takes_351)),
    ("wish-refuses-190", wish_with!(refuses_190)),
    ("wish-refuses-350", wish_with!(refuses_350)),
];

pub const WRONG_RESETS: [(&str, Resetter); 4] = [
    ("reset-puts-250", reset_puts_250),
    ("reset-keeps-any", reset_keeps_any),
    ("reset-puts-an-end", reset_puts_an_end),
    ("reset-time-follows", reset_time_follows),
];

pub const WRONG_PLANNERS: [(&str, Planner); 6] = [
    ("plan-at-250", plan_at_250),
    ("plan-rounded-down", waits!(rounded_down)),
    ("plan-home-at-250", waits!(home_at_250)),
    ("opening-follows", waits!(opening_follows)),
    ("hundred-follows", waits!(hundred_follows)),
    ("second-halves-follow", waits!(second_halves_follow)),
];
