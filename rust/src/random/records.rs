//! Random records and memories, sound and damaged.

use super::Chance;
use crate::bytes::{record_bytes, BUSY_AT, FREQUENCY_AT, RECORD_BYTES, RECORD_ZEROS};
use crate::model::{record_after_reset, Counter, Half, Record};
use crate::model::{
    time_at, FREQUENCIES, LONGEST_BUSY, LONG_TIME, NEWER_KHZ, SHORT_TIME, USUAL_KHZ,
};
use crate::model::{DISPLAY_CELLS, MEMORY, PATTERN_CELLS};

/// A number below the bound, its edges more often than the rest.
pub(super) fn edge_or_any(chance: &mut Chance, bound: u8) -> u8 {
    let any = chance.below(bound.into()) as u8;
    chance.pick(&[0, 1, bound / 2 - 1, bound / 2, bound - 1, any, any, any])
}

/// The frequencies that every comparison must meet: the ends of the range and what is just
/// past them, the named kinds, and the ends of two bytes.
pub const FREQUENCY_EDGES: [u16; 8] = [0, 189, 190, USUAL_KHZ, NEWER_KHZ, 350, 351, u16::MAX];

/// A frequency in range, its ends and the named kinds more often than the rest.
pub fn any_frequency(chance: &mut Chance) -> u16 {
    let (lowest, highest) = FREQUENCIES.into_inner();
    let any = chance.between(lowest.into(), highest.into()) as u16;
    chance.pick(&[lowest, highest, USUAL_KHZ, NEWER_KHZ, any, any, any])
}

/// Any number for a frequency: those above, one with its bytes exchanged, one that is in
/// range but for a high bit, or any.
pub(super) fn frequency_in_or_out(chance: &mut Chance) -> u16 {
    let (sound, any) = (any_frequency(chance), chance.bits() as u16);
    let edge = chance.pick(&FREQUENCY_EDGES);
    let high_bit = 1 << chance.between(9, 15);
    chance.pick(&[edge, edge, edge, sound.swap_bytes(), sound | high_bit, any])
}

/// Any sound record.
pub fn sound_record(chance: &mut Chance) -> Record {
    let width = chance.pick(&[4, 4, 4, 8, 8]);
    let half = if width == 4 {
        any_half(chance)
    } else {
        Half::None
    };
    let frequency = any_frequency(chance);
    let may_be_busy = matches!(half, Half::None | Half::StatusRead(_));
    let busy = if may_be_busy {
        any_busy(chance, frequency)
    } else {
        0
    };
    let waiting = Record {
        width,
        half,
        busy,
        ..record_after_reset(frequency)
    };
    Record {
        n: chance.percent(60),
        f: chance.percent(50),
        d: chance.percent(80),
        c: chance.percent(50),
        b: chance.percent(50),
        id: chance.percent(50),
        s: chance.percent(50),
        shift: edge_or_any(chance, DISPLAY_CELLS),
        counter: any_counter(chance),
        register: chance.byte(),
        fresh: chance.percent(50),
        ..waiting
    }
}

fn any_half(chance: &mut Chance) -> Half {
    let byte = chance.byte();
    match chance.below(8) {
        0..=1 => Half::InstructionWrite(byte & 0x0F),
        2 => Half::DataWrite(byte & 0x0F),
        3 => Half::StatusRead(byte),
        4 => Half::DataRead(byte),
        _ => Half::None,
    }
}

fn any_counter(chance: &mut Chance) -> Counter {
    if chance.percent(65) {
        Counter::Display(edge_or_any(chance, DISPLAY_CELLS))
    } else {
        Counter::Pattern(edge_or_any(chance, PATTERN_CELLS))
    }
}

/// Mostly none, so that much is not refused as busy.
fn any_busy(chance: &mut Chance, frequency: u16) -> u32 {
    if chance.percent(60) {
        return 0;
    }
    let any = chance.between(1, LONGEST_BUSY.into()) as u32;
    let [short, long] = [SHORT_TIME, LONG_TIME].map(|time| time_at(frequency, time));
    let whole = LONGEST_BUSY;
    chance.pick(&[
        1,
        short - 1,
        short,
        short + 1,
        long - 1,
        long,
        long + 1,
        whole - 1,
        whole,
        any,
        any,
    ])
}

/// A record's bytes with one thing wrong, or nearly wrong.
fn damaged_record(chance: &mut Chance) -> Vec<u8> {
    let mut bytes = record_bytes(&sound_record(chance)).to_vec();
    let any = chance.byte();
    match chance.below(14) {
        0 => bytes[0] = any,
        1 => bytes[chance.pick(&[1, 2, 3, 4, 5, 6, 7, 12])] = chance.pick(&[2, 3, 0x80, 0xFF]),
        2 => bytes[8] = chance.pick(&[80, 81, 0xFF, any]),
        3 => bytes[9] = chance.pick(&[0, 1, 2, 0xFF, any]),
        4 => bytes[10] = chance.pick(&[63, 64, 79, 80, 81, 0xFF, any]),
        5 => bytes[13] = chance.pick(&[1, 2, 3, 4, 5, 0xFF, any]),
        6 => bytes[14] = chance.pick(&[1, 0x0F, 0x10, 0xFF, any]),
        7 => bytes[chance.pick(&RECORD_ZEROS)] = chance.pick(&[1, 0x80, any]),
        8 => bytes[BUSY_AT.start + chance.index(BUSY_AT.len())] = chance.pick(&[1, any]),
        9 => {
            let busy: u32 = chance.pick(&[10_001, 65_536, u32::MAX]);
            bytes[BUSY_AT].copy_from_slice(&busy.to_le_bytes());
        }
        10 => bytes = chance.bytes(RECORD_BYTES),
        11..=12 => {
            let frequency = frequency_in_or_out(chance);
            bytes[FREQUENCY_AT].copy_from_slice(&frequency.to_le_bytes());
        }
        _ => bytes.resize(chance.below(31) as usize, 0),
    }
    bytes
}

pub(super) fn record(chance: &mut Chance) -> Vec<u8> {
    if chance.percent(10) {
        damaged_record(chance)
    } else {
        record_bytes(&sound_record(chance)).to_vec()
    }
}

/// A whole memory: printable codes, patterns and anything.
pub fn whole_memory(chance: &mut Chance) -> Vec<u8> {
    (0..MEMORY)
        .map(|_| {
            let any = chance.bits() as u8;
            match any % 4 {
                0 => any >> 4,
                1 => 0x20 + (any >> 2),
                _ => (chance.bits() >> 8) as u8,
            }
        })
        .collect()
}

pub(super) fn memory(chance: &mut Chance) -> Vec<u8> {
    let mut bytes = whole_memory(chance);
    if chance.percent(3) {
        bytes.resize(chance.pick(&[0, 1, 24, 80, 143, 145, 200, 288]), 0x20);
    }
    bytes
}
