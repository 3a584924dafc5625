//! Random wishes and marks, sound and damaged.

use std::array;

use super::records::{any_frequency, edge_or_any, frequency_in_or_out};
use super::Chance;
use crate::bytes::{wish_bytes, WISH_BYTES, WISH_FREQUENCY_AT, WISH_ZEROS};
use crate::model::{line_length, Wish, DISPLAY_CELLS, MEMORY};

/// A wish that the planner accepts.
pub fn sound_wish(chance: &mut Chance) -> Wish {
    let [n, f, d, c, b, id, s] = array::from_fn(|_| chance.percent(50));
    let shift = edge_or_any(chance, line_length(n));
    Wish {
        n,
        f: f && !n,
        d,
        c,
        b,
        id,
        s,
        shift: chance.pick(&[0, 0, shift]),
        cursor: edge_or_any(chance, DISPLAY_CELLS),
        frequency: any_frequency(chance),
    }
}

/// One byte of a wish wrong, or nearly so, or its length.
fn damaged_wish(chance: &mut Chance) -> Vec<u8> {
    let mut wish = wish_bytes(&sound_wish(chance)).to_vec();
    let any = chance.byte();
    match chance.below(10) {
        0 => wish[chance.index(7)] = chance.pick(&[2, 3, 0xFF, any]),
        1 => (wish[0], wish[1]) = (1, 1),
        2 => wish[7] = chance.pick(&[39, 40, 79, 80, 0xFF, any]),
        3 => wish[8] = chance.pick(&[79, 80, 0xFF, any]),
        4 => wish[WISH_ZEROS.start + chance.index(WISH_ZEROS.len())] = chance.pick(&[1, any]),
        5 => wish = chance.bytes(WISH_BYTES),
        6..=8 => {
            let frequency = frequency_in_or_out(chance);
            wish[WISH_FREQUENCY_AT].copy_from_slice(&frequency.to_le_bytes());
        }
        _ => wish.resize(chance.below(31) as usize, 0),
    }
    wish
}

/// Marks: none, all, few or many.
pub fn sound_marks(chance: &mut Chance) -> Vec<u8> {
    let density = chance.pick(&[0, 2, 10, 50, 90, 98, 100]);
    (0..MEMORY)
        .map(|_| u8::from(chance.percent(density)))
        .collect()
}

fn damaged_marks(chance: &mut Chance) -> Vec<u8> {
    let mut marks = sound_marks(chance);
    if chance.percent(50) {
        marks[chance.index(MEMORY)] = chance.pick(&[2, 3, 0x80, 0xFF]);
    } else {
        marks.resize(chance.pick(&[0, 1, 80, 143, 145, 288]), 2);
    }
    marks
}

pub(super) fn wish(chance: &mut Chance) -> Vec<u8> {
    if chance.percent(12) {
        damaged_wish(chance)
    } else {
        wish_bytes(&sound_wish(chance)).to_vec()
    }
}

pub(super) fn marks(chance: &mut Chance) -> Vec<u8> {
    if chance.percent(8) {
        damaged_marks(chance)
    } else {
        sound_marks(chance)
    }
}
