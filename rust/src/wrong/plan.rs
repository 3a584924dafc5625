//! Wrong readings of document 01's chapter "The plan".

use crate::calls::Planner;
use crate::model::{self, Answer, Wish, TRANSFER_BYTES};

/// The second wait of a plan is one less.
fn second_wait_less(wish: &Wish, marks: &[u8], values: &[u8], out: &mut [u8]) -> (Answer, usize) {
    let (answer, count) = model::plan(wish, marks, values, out);
    if answer == model::DONE {
        out[TRANSFER_BYTES + 2] -= 1;
    }
    (answer, count)
}

/// The screen is cleared where it should be homed, "which empties the spare cells".
pub fn plan_clears(wish: &Wish, marks: &[u8], values: &[u8], out: &mut [u8]) -> (Answer, usize) {
    let (answer, count) = model::plan(wish, marks, values, out);
    if answer == model::DONE {
        // The second half of Home is the twelfth record.
        out[TRANSFER_BYTES * 11 + 1] = 0x10;
    }
    (answer, count)
}

/// "one that writes only the first marked cell".
pub fn first_mark_alone(
    wish: &Wish,
    marks: &[u8],
    values: &[u8],
    out: &mut [u8],
) -> (Answer, usize) {
    let mut first = marks.to_vec();
    if let Some(at) = marks.iter().position(|&mark| mark == 1) {
        for mark in &mut first[at + 1..] {
            *mark &= 0xFE;
        }
    }
    model::plan(wish, &first, values, out)
}

/// A buffer that is just long enough for its plan is taken.
fn short_plan_taken(wish: &Wish, marks: &[u8], values: &[u8], out: &mut [u8]) -> (Answer, usize) {
    let mut room = vec![0; model::PLAN_BYTES];
    let (answer, count) = model::plan(wish, marks, values, &mut room);
    let length = count * TRANSFER_BYTES;
    if answer != model::DONE || out.len() < length {
        return model::plan(wish, marks, values, out);
    }
    out[..length].copy_from_slice(&room[..length]);
    (answer, count)
}

pub const WRONG_PLANNERS: [(&str, Planner); 4] = [
    ("second-wait-less", second_wait_less),
    ("plan-clears", plan_clears),
    ("first-mark-alone", first_mark_alone),
    ("short-plan-taken", short_plan_taken),
];
