//! Document 01, "The plan": what is refused, and plans played back.

use yaropesk_model::demand::wished_record;
use yaropesk_model::model::*;

use crate::given::{plain_wish, Bench};

/// What is refused of the wish alone.
fn not_wishes() -> [Wish; 8] {
    let wish = Wish::default();
    let tuned = |frequency| Wish { frequency, ..wish };
    [
        Wish {
            n: true,
            f: true,
            ..wish
        },
        Wish { shift: 80, ..wish },
        Wish {
            n: true,
            shift: 40,
            ..wish
        },
        Wish { cursor: 80, ..wish },
        tuned(0),
        tuned(189),
        tuned(351),
        tuned(u16::MAX),
    ]
}

#[test]
fn plan_refuses_lengths_before_wishes() {
    let mut short = [0xEE; PLAN_BYTES - 1];
    for (marks, values) in [(143, 144), (144, 143), (0, 0), (145, 144)] {
        let (marks, values) = (vec![2; marks], vec![0; values]);
        let refused = plan(&not_wishes()[0], &marks, &values, &mut short);
        assert_eq!(refused, (WRONG_LENGTH, 0));
    }
    assert_eq!(short, [0xEE; PLAN_BYTES - 1]);
}

#[test]
fn plan_refuses_what_is_not_a_wish_before_a_short_output() {
    let marks = [0; MEMORY];
    for length in [PLAN_BYTES, PLAN_BYTES - 1] {
        let mut out = vec![0xEE; length];
        for bad in not_wishes() {
            assert_eq!(plan(&bad, &marks, &marks, &mut out), (NOT_A_WISH, 0));
        }
        for cell in [0, 79, 80, 143] {
            let mut two = marks;
            two[cell] = 2;
            assert_eq!(
                plan(&Wish::default(), &two, &marks, &mut out),
                (NOT_A_WISH, 0)
            );
        }
        assert_eq!(out, vec![0xEE; length]);
    }
}

#[test]
fn plan_refuses_a_short_output() {
    let marks = [0; MEMORY];
    let mut short = [0xEE; PLAN_BYTES - 1];
    assert_eq!(
        plan(&Wish::default(), &marks, &marks, &mut short),
        (TOO_SHORT, 0)
    );
    assert_eq!(short, [0xEE; PLAN_BYTES - 1]);
}

/// Plays a plan after reset: every transfer is done, and the panel stands as wished.
fn play(wish: &Wish, marks: &[u8; MEMORY], values: &[u8; MEMORY]) -> usize {
    let mut out = [0; PLAN_BYTES];
    let (answer, count) = plan(wish, marks, values, &mut out);
    assert_eq!(answer, DONE);

    let mut bench = Bench::fitted(wish.frequency);
    for (cell, byte) in bench.mem.iter_mut().enumerate().skip(80) {
        *byte = cell as u8;
    }
    let before = bench.mem;
    let records = transfers_of(&out[..count * TRANSFER_BYTES]);
    for (number, (kind, byte, wait)) in records.into_iter().enumerate() {
        let first = number >= 4 && number % 2 == 0;
        let expected = if first { FIRST_HALF } else { DONE };
        assert_eq!(
            bench.send(kind, byte, wait),
            (expected, 0x00),
            "record {number}"
        );
    }
    for cell in 0..MEMORY {
        let wished = [before, *values][usize::from(marks[cell])][cell];
        assert_eq!(bench.mem[cell], wished, "cell {cell}");
    }
    let wished = wished_record(wish, wish.frequency, &bench.mem);
    assert_eq!(bench.rec, wished);
    count
}

#[test]
fn plans_lead_to_the_wish() {
    let mut values = [0; MEMORY];
    for (cell, value) in values.iter_mut().enumerate() {
        *value = (cell * 7 + 33) as u8;
    }
    let mut wish = plain_wish();
    for step in 1..13 {
        let mut marks = [0; MEMORY];
        for mark in marks.iter_mut().step_by(step) {
            *mark = 1;
        }
        wish.n = step % 2 == 0;
        wish.f = step % 2 == 1;
        wish.c = step % 3 == 0;
        wish.b = step % 3 == 1;
        wish.d = step % 5 != 0;
        wish.id = step % 4 != 1;
        wish.s = step % 4 == 2;
        wish.shift = step as u8 * 3;
        wish.cursor = 79 - step as u8 * 6;
        wish.frequency = [190, 250, 270, 350, 191, 333][step % 6];
        play(&wish, &marks, &values);
    }
}

#[test]
fn the_longest_plan_has_468_records() {
    let mut wish = plain_wish();
    wish.n = false;
    wish.shift = 79;
    assert_eq!(play(&wish, &[1; MEMORY], &[0x55; MEMORY]), 468);
}
