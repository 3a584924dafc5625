//! Random calls: most of them sound, the others damaged in one place.

use super::lines;
use super::records::{any_frequency, frequency_in_or_out};
use super::records::{memory, record, sound_record, whole_memory};
use super::wishes::{marks, wish};
use super::Chance;
use crate::bytes::{record_bytes, record_of, FREQUENCY_AT, RECORD_BYTES};
use crate::case::{Case, Function};
use crate::model::{picture_bytes, record_after_reset, Panel, Record, Size};
use crate::model::{DATA_READ, DATA_WRITE, INSTRUCTION_WRITE, STATUS_READ};
use crate::model::{DIVIDED, FOUR_ROWS, PLAIN};
use crate::model::{LINE_BYTES, MEMORY, PLAN_BYTES, TRANSFER_BYTES};
use crate::model::{LONGEST_BUSY, LONG_TIME, SHORT_TIME, USUAL_KHZ};

/// A call of any of the functions of a `Case`.
pub fn any_call(chance: &mut Chance) -> Case {
    match chance.below(100) {
        0..=4 => reset(chance),
        5..=56 => transfer(chance),
        57..=68 => picture(chance),
        69..=74 => plan(chance),
        75..=84 => write_line(chance),
        _ => read_line(chance),
    }
}

/// An output: exactly right, one too short, longer, empty or any. It is full of random
/// bytes, so that those which must stay are compared.
fn output(chance: &mut Chance, wanted: usize) -> Vec<u8> {
    let length = match chance.below(20) {
        0 => wanted.saturating_sub(1),
        1 => 0,
        2 => chance.index(wanted + 20),
        3..=9 => wanted,
        _ => wanted + chance.index(20),
    };
    chance.bytes(length)
}

// ---------------------------------------------------------------------------
// Transfers
// ---------------------------------------------------------------------------

/// "kind above 3" now and then.
fn kind(chance: &mut Chance) -> u8 {
    if chance.percent(3) {
        chance.byte()
    } else {
        chance.pick(&[
            INSTRUCTION_WRITE,
            INSTRUCTION_WRITE,
            DATA_WRITE,
            STATUS_READ,
            DATA_READ,
        ])
    }
}

/// "00h for reads", but for a few. Of instructions the highest set bit is chosen first,
/// so that each kind of them is as frequent as the others.
fn byte(chance: &mut Chance, kind: u8) -> u8 {
    let any = chance.byte();
    match kind {
        INSTRUCTION_WRITE => any >> chance.below(9).min(7),
        DATA_WRITE => any,
        _ if chance.percent(95) => 0x00,
        _ => any,
    }
}

/// Waits at and around what is left of busy, and at the limits.
fn wait(chance: &mut Chance, busy: u32) -> u32 {
    let any = chance.bits() as u32;
    match chance.below(10) {
        0..=3 => busy,
        4 => busy.wrapping_add(1),
        5 => busy.saturating_sub(1),
        6 => chance.pick(&[0, 1, SHORT_TIME, LONG_TIME]),
        7 => chance.pick(&[LONGEST_BUSY - 1, LONGEST_BUSY, LONGEST_BUSY + 1, u32::MAX]),
        8 => any % 12_000,
        _ => any,
    }
}

fn transfer(chance: &mut Chance) -> Case {
    let standing = vec![record(chance), memory(chance)];
    next_transfer(chance, standing)
}

/// A transfer of a record and a memory as they stand.
pub fn next_transfer(chance: &mut Chance, standing: Vec<Vec<u8>>) -> Case {
    // What is no record has no busy to wait for.
    let busy = record_of(&standing[0]).map_or(0, |found| found.busy);
    let kind = kind(chance);
    let byte = byte(chance, kind);
    Case {
        function: Function::Transfer,
        numbers: [kind.into(), byte.into(), wait(chance, busy), 0],
        buffers: standing,
    }
}

/// A reset of any record, its frequency often out of range.
fn reset(chance: &mut Chance) -> Case {
    let mut record = record(chance);
    if record.len() == RECORD_BYTES && chance.percent(50) {
        let frequency = frequency_in_or_out(chance);
        record[FREQUENCY_AT].copy_from_slice(&frequency.to_le_bytes());
    }
    Case {
        function: Function::Reset,
        buffers: vec![record, memory(chance)],
        numbers: [0; 4],
    }
}

// ---------------------------------------------------------------------------
// Pictures and plans
// ---------------------------------------------------------------------------

/// A size, now and then out of range.
fn size(chance: &mut Chance) -> Size {
    let any = chance.between(1, 40) as u8;
    let columns = chance.pick(&[1, 16, 16, 20, 20, 39, 40, any, any, any]);
    let lines = chance.pick(&[1, 2, 2]);
    match chance.below(50) {
        0 => Size::new(chance.pick(&[0, 41, 42, 255]), lines),
        1 => Size::new(columns, chance.pick(&[0, 3, 255])),
        2 => Size::new(chance.byte(), chance.byte()),
        _ => Size::new(columns, lines),
    }
}

/// The profiles that every comparison must meet: the known ones, the first that is not, and
/// the last.
pub const PROFILES: [u8; 5] = [PLAIN, FOUR_ROWS, DIVIDED, 3, u8::MAX];

/// A panel of any profile, now and then of an unknown one. Sizes are said of all.
fn panel(chance: &mut Chance) -> Panel {
    let (known, any) = (chance.pick(&PROFILES[..3]), chance.byte());
    let profile = match chance.below(100) {
        0..=29 => PLAIN,
        30..=95 => known,
        96..=98 => chance.pick(&PROFILES),
        _ => any,
    };
    let size = size(chance);
    Panel { profile, size }
}

fn picture(chance: &mut Chance) -> Case {
    let panel = panel(chance);
    let lit = chance.pick(&[0, 0, 1, 1, 2, 255]);
    let (record, memory) = (record(chance), memory(chance));
    // What is no record wants as many bytes as one after reset.
    let found = record_of(&record).unwrap_or(record_after_reset(USUAL_KHZ));
    let glass = panel.glass().unwrap_or(panel.size);
    let out = output(chance, picture_bytes(&found, glass));
    let Panel { profile, size } = panel;
    Case {
        function: Function::Picture,
        buffers: vec![record, memory, out],
        numbers: [profile.into(), size.columns.into(), size.lines.into(), lit],
    }
}

fn plan(chance: &mut Chance) -> Case {
    let (wish, marks) = (wish(chance), marks(chance));
    Case {
        function: Function::Plan,
        buffers: vec![wish, marks, memory(chance), output(chance, PLAN_BYTES)],
        numbers: [0; 4],
    }
}

// ---------------------------------------------------------------------------
// Session lines
// ---------------------------------------------------------------------------

fn write_line(chance: &mut Chance) -> Case {
    let kind = kind(chance);
    let byte = byte(chance, kind);
    Case {
        function: Function::WriteLine,
        buffers: vec![output(chance, LINE_BYTES)],
        numbers: [kind.into(), byte.into(), lines::wait(chance), 0],
    }
}

/// A line, good or damaged, and perhaps something after it.
fn text(chance: &mut Chance) -> Vec<u8> {
    let mut text = match chance.below(50) {
        0 => Vec::new(),
        1..=18 => lines::damaged_line(chance),
        _ => lines::good_line(chance),
    };
    text.extend(lines::behind_line(chance));
    text
}

fn read_line(chance: &mut Chance) -> Case {
    let text = text(chance);
    read_text(chance, text)
}

fn read_text(chance: &mut Chance, text: Vec<u8>) -> Case {
    Case {
        function: Function::ReadLine,
        buffers: vec![text, output(chance, TRANSFER_BYTES)],
        numbers: [0; 4],
    }
}

/// The readings of a line with every damage to it.
pub fn damaged_lines(chance: &mut Chance) -> Vec<Case> {
    let texts = lines::every_damage(chance).into_iter();
    texts.map(|text| read_text(chance, text)).collect()
}

// ---------------------------------------------------------------------------
// Every kind and byte
// ---------------------------------------------------------------------------

/// The transfer and the line of each kind 0 to 255 with each byte 0 to 255.
pub fn kind_and_byte(chance: &mut Chance, kind: u8, byte: u8) -> [Case; 2] {
    let record = Record {
        busy: 0,
        ..sound_record(chance)
    };
    let numbers = [kind.into(), byte.into(), lines::wait(chance), 0];
    let transfer = Case {
        function: Function::Transfer,
        buffers: vec![record_bytes(&record).to_vec(), whole_memory(chance)],
        numbers,
    };
    let line = Case {
        function: Function::WriteLine,
        buffers: vec![chance.bytes(LINE_BYTES)],
        numbers,
    };
    [transfer, line]
}

/// The call that every sequence of transfers starts with: any bytes but a frequency in range.
pub fn reset_of_anything(chance: &mut Chance) -> Case {
    let mut record = chance.bytes(RECORD_BYTES);
    record[FREQUENCY_AT].copy_from_slice(&any_frequency(chance).to_le_bytes());
    Case {
        function: Function::Reset,
        buffers: vec![record, chance.bytes(MEMORY)],
        numbers: [0; 4],
    }
}
