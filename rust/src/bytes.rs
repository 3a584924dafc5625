//! A record and a wish as the bytes of `include/yaropesk.h`.
//!
//! Written from the header and the documents alone.

use std::ops::Range;

use crate::model::{is_sound, little_endian, Counter, Half, Record, Wish};

pub const RECORD_BYTES: usize = 24;
pub const WISH_BYTES: usize = 16;

/// "16 to 19 busy in microseconds, little-endian".
pub const BUSY_AT: Range<usize> = 16..20;
/// "record 20 to 21: frequency in kHz, little-endian."
pub const FREQUENCY_AT: Range<usize> = 20..22;
/// Byte 15, and what stands behind the frequency.
pub const RECORD_ZEROS: [usize; 3] = [15, 22, 23];
/// "Wish 9 to 10 likewise."
pub const WISH_FREQUENCY_AT: Range<usize> = 9..11;
/// What stands behind the frequency.
pub const WISH_ZEROS: Range<usize> = 11..16;

/// A bit that has a byte to itself.
fn bit(byte: u8) -> Option<bool> {
    match byte {
        0 => Some(false),
        1 => Some(true),
        _ => None,
    }
}

/// The frequency in two bytes, in range or not.
pub fn frequency_of(bytes: &[u8]) -> u16 {
    u16::from_le_bytes([bytes[0], bytes[1]])
}

/// The sound record that the bytes say, if there is one: "Any other length or value is
/// an unsound record."
pub fn record_of(bytes: &[u8]) -> Option<Record> {
    if bytes.len() != RECORD_BYTES || RECORD_ZEROS.iter().any(|&at| bytes[at] != 0) {
        return None;
    }
    let record = Record {
        width: bytes[0],
        n: bit(bytes[1])?,
        f: bit(bytes[2])?,
        d: bit(bytes[3])?,
        c: bit(bytes[4])?,
        b: bit(bytes[5])?,
        id: bit(bytes[6])?,
        s: bit(bytes[7])?,
        shift: bytes[8],
        counter: counter_of(bytes[9], bytes[10])?,
        register: bytes[11],
        fresh: bit(bytes[12])?,
        half: half_of(bytes[13], bytes[14])?,
        busy: little_endian(&bytes[BUSY_AT]),
        frequency: frequency_of(&bytes[FREQUENCY_AT]),
    };
    is_sound(&record).then_some(record)
}

/// "counter's memory (0 display, 1 pattern)", and its cell.
fn counter_of(memory: u8, cell: u8) -> Option<Counter> {
    match memory {
        0 => Some(Counter::Display(cell)),
        1 => Some(Counter::Pattern(cell)),
        _ => None,
    }
}

fn counter_bytes(counter: Counter) -> (u8, u8) {
    match counter {
        Counter::Display(cell) => (0, cell),
        Counter::Pattern(cell) => (1, cell),
    }
}

/// "half (0 none, 1 instruction write, 2 data write, 3 status read, 4 data read)",
/// "half's value (0 where none)".
fn half_of(kind: u8, value: u8) -> Option<Half> {
    match (kind, value) {
        (0, 0) => Some(Half::None),
        (1, _) => Some(Half::InstructionWrite(value)),
        (2, _) => Some(Half::DataWrite(value)),
        (3, _) => Some(Half::StatusRead(value)),
        (4, _) => Some(Half::DataRead(value)),
        _ => None,
    }
}

fn half_bytes(half: Half) -> (u8, u8) {
    match half {
        Half::None => (0, 0),
        Half::InstructionWrite(high) => (1, high),
        Half::DataWrite(high) => (2, high),
        Half::StatusRead(read) => (3, read),
        Half::DataRead(read) => (4, read),
    }
}

pub fn record_bytes(record: &Record) -> [u8; RECORD_BYTES] {
    let (memory, cell) = counter_bytes(record.counter);
    let (half, value) = half_bytes(record.half);
    let busy = record.busy.to_le_bytes();
    let frequency = record.frequency.to_le_bytes();
    [
        record.width,
        record.n.into(),
        record.f.into(),
        record.d.into(),
        record.c.into(),
        record.b.into(),
        record.id.into(),
        record.s.into(),
        record.shift,
        memory,
        cell,
        record.register,
        record.fresh.into(),
        half,
        value,
        0,
        busy[0],
        busy[1],
        busy[2],
        busy[3],
        frequency[0],
        frequency[1],
        0,
        0,
    ]
}

/// The wish that the bytes say: "A wish is 16 bytes", and the last of them are zero. Whether
/// its shift, cursor and frequency are in range, the planner sees.
pub fn wish_of(bytes: &[u8]) -> Option<Wish> {
    if bytes.len() != WISH_BYTES || bytes[WISH_ZEROS].iter().any(|&byte| byte != 0) {
        return None;
    }
    Some(Wish {
        n: bit(bytes[0])?,
        f: bit(bytes[1])?,
        d: bit(bytes[2])?,
        c: bit(bytes[3])?,
        b: bit(bytes[4])?,
        id: bit(bytes[5])?,
        s: bit(bytes[6])?,
        shift: bytes[7],
        cursor: bytes[8],
        frequency: frequency_of(&bytes[WISH_FREQUENCY_AT]),
    })
}

pub fn wish_bytes(wish: &Wish) -> [u8; WISH_BYTES] {
    let mut bytes = [0; WISH_BYTES];
    let bits = [wish.n, wish.f, wish.d, wish.c, wish.b, wish.id, wish.s];
    bytes[..7].copy_from_slice(&bits.map(u8::from));
    (bytes[7], bytes[8]) = (wish.shift, wish.cursor);
    bytes[WISH_FREQUENCY_AT].copy_from_slice(&wish.frequency.to_le_bytes());
    bytes
}
