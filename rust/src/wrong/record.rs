//! Wrong readings of document 01's chapter "The controller's record and memory": a
//! record's bytes, and reset.

use crate::bytes::{record_of, RECORD_BYTES};
use crate::calls::{RecordReader, Resetter};
use crate::model::{self, Answer, Record, DISPLAY_CELLS};

/// Byte 23 of a record, which must be zero, is not looked at.
fn last_byte_unseen(bytes: &[u8]) -> Option<Record> {
    let mut bytes = bytes.to_vec();
    if bytes.len() == RECORD_BYTES {
        bytes[23] = 0;
    }
    record_of(&bytes)
}

/// Reset clears the pattern cells too.
fn reset_clears_patterns(record: Record, memory: &mut [u8]) -> (Answer, Record) {
    let (answer, new) = model::reset(record, memory);
    if answer == model::DONE {
        memory[usize::from(DISPLAY_CELLS)..].fill(0x00);
    }
    (answer, new)
}

/// Reset leaves the display on.
fn reset_leaves_on(record: Record, memory: &mut [u8]) -> (Answer, Record) {
    let (answer, new) = model::reset(record, memory);
    (answer, Record { d: true, ..new })
}

pub const WRONG_RECORDS: [(&str, RecordReader); 1] = [("last-byte-unseen", last_byte_unseen)];

pub const WRONG_RESETS: [(&str, Resetter); 2] = [
    ("reset-clears-patterns", reset_clears_patterns),
    ("reset-leaves-on", reset_leaves_on),
];
