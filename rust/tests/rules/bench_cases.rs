//! Document 01, "Bench cases": P1 to P12.

use yaropesk_model::model::*;

use crate::given::{font, plain_wish, rows, Bench};

/// The rows at the start of the two lines.
fn first_column(bench: &Bench) -> Vec<u8> {
    let panel = Panel::plain(8, 2);
    let mut out = vec![0xEE; picture_bytes(&bench.rec, panel.size)];
    let answer = picture(&bench.rec, &bench.mem, panel, false, &mut out, &font());
    assert_eq!(answer, DONE);
    out.into_iter().step_by(8).collect()
}

#[test]
fn p1_busy_after_reset() {
    let mut early = Bench::after_reset();
    assert_eq!(early.send(STATUS_READ, 0x00, 9_999), (DONE, 0x80));
    let mut late = Bench::after_reset();
    assert_eq!(late.send(STATUS_READ, 0x00, 10_000), (DONE, 0x00));
}

#[test]
fn p2_first_line_runs_into_the_second() {
    let mut bench = Bench::after_reset();
    bench.instruction(0x38);
    bench.instruction(0x80 | 0x27);
    assert_eq!(bench.address(), 0x27);
    assert_eq!(bench.data(0x41), DONE);
    assert_eq!(bench.address(), 0x40);
}

#[test]
fn p3_last_cell_wraps() {
    let mut bench = Bench::after_reset();
    bench.instruction(0x38);
    bench.instruction(0x80 | 0x67);
    bench.data(0x41);
    assert_eq!(bench.address(), 0x00);

    let mut bench = Bench::after_reset();
    bench.instruction(0x30);
    bench.instruction(0x80 | 0x4F);
    bench.data(0x41);
    assert_eq!(bench.address(), 0x00);
}

#[test]
fn p4_addresses_with_and_without_a_cell() {
    let mut bench = Bench::after_reset();
    bench.instruction(0x38);
    for (byte, answer) in [
        (0xA7, DONE),
        (0xA8, NO_CELL),
        (0xBF, NO_CELL),
        (0xE7, DONE),
        (0xE8, NO_CELL),
    ] {
        assert_eq!(bench.instruction(byte), answer, "{byte:02X}");
    }
    bench.instruction(0x30);
    assert_eq!(bench.instruction(0xCF), DONE);
    assert_eq!(bench.instruction(0xD0), NO_CELL);
}

#[test]
fn p5_shifts() {
    for (byte, first, second) in [(0x18, 1, 41), (0x1C, 39, 79)] {
        let mut bench = Bench::after_reset();
        bench.instruction(0x38);
        bench.instruction(0x0C);
        for (cell, code) in bench.mem[..80].iter_mut().enumerate() {
            *code = 0x20 + cell as u8;
        }
        bench.instruction(byte);
        let expected = [rows(0x20 + first), rows(0x20 + second)].concat();
        assert_eq!(first_column(&bench), expected);
    }
}

#[test]
fn p6_pattern_counter_wraps() {
    let mut bench = Bench::after_reset();
    bench.instruction(0x40 | 0x3F);
    assert_eq!(bench.data(0x1F), DONE);
    assert_eq!(bench.address(), 0x00);
    assert_eq!(bench.rec.counter, Counter::Pattern(0));
    assert_eq!(bench.mem[143], 0x1F);
}

#[test]
fn p7_codes_00_and_08_draw_alike() {
    let mut bench = Bench::after_reset();
    bench.instruction(0x0C);
    for row in 0..8 {
        bench.mem[80 + row] = 0xE0 | (row as u8 * 3 + 1);
    }
    bench.mem[0] = 0x00;
    let with_00 = first_column(&bench);
    bench.mem[0] = 0x08;
    assert_eq!(first_column(&bench), with_00);
    let low_five: Vec<u8> = (0..8).map(|row| row * 3 + 1).collect();
    assert_eq!(with_00[..8], low_five[..]);
    assert_eq!(with_00[8..], [0; 8]);
}

/// Width 4, no half, not busy.
fn four_wires() -> Bench {
    let mut bench = Bench::after_reset();
    assert_eq!(bench.instruction(0x20), DONE);
    assert_eq!(bench.rec.width, 4);
    bench.rec.busy = 0;
    bench
}

#[test]
fn p8_data_in_halves() {
    let mut bench = four_wires();
    assert_eq!(bench.send(DATA_WRITE, 0x40, 0), (FIRST_HALF, 0x00));
    assert_eq!(bench.send(DATA_WRITE, 0x10, 0), (DONE, 0x00));
    assert_eq!(bench.mem[0], 0x41);
}

#[test]
fn p9_home_in_halves() {
    let mut bench = four_wires();
    bench.rec.shift = 5;
    bench.rec.counter = Counter::Pattern(9);
    assert_eq!(bench.send(INSTRUCTION_WRITE, 0x00, 0), (FIRST_HALF, 0x00));
    assert_eq!(bench.send(INSTRUCTION_WRITE, 0x30, 0), (DONE, 0x00));
    assert_eq!(bench.rec.counter, Counter::Display(0));
    assert_eq!((bench.rec.shift, bench.rec.busy), (0, 1_640));
}

#[test]
fn p10_crossed_halves() {
    let mut bench = four_wires();
    assert_eq!(bench.send(DATA_WRITE, 0x40, 0), (FIRST_HALF, 0x00));
    assert_eq!(bench.send(INSTRUCTION_WRITE, 0x30, 0), (CROSSED, 0x00));
    assert_eq!(bench.mem[0], 0x43);
}

#[test]
fn p11_session() {
    let input = "I\t38\t15000\nS\t00\t0\nD\t41\t10\nD\t41\t30\nS\t00\t40\nR\t00\t0\n";
    let report = "no\tanswer\tbyte\tbusy\n\
                  1\t0\t00\t40\n\
                  2\t0\t80\t40\n\
                  3\t4\t00\t30\n\
                  4\t0\t00\t40\n\
                  5\t0\t01\t0\n\
                  6\t7\t41\t40\n";
    assert_eq!(session(input.as_bytes()), report.as_bytes());
}

#[test]
fn p12_plan_of_a_plain_wish() {
    let mut out = [0xEE; PLAN_BYTES + 3];
    let answer = plan(&plain_wish(), &[0; MEMORY], &[0; MEMORY], &mut out);
    assert_eq!(answer, (DONE, 18));
    let bytes = [
        0x30, 0x30, 0x30, 0x20, 0x20, 0x80, 0x00, 0x80, 0x00, 0x60, 0x00, 0x20, 0x00, 0x60, 0x80,
        0x00, 0x00, 0xC0,
    ];
    let waits = [
        15000, 4100, 100, 100, 100, 1, 40, 1, 40, 1, 40, 1, 1640, 1, 40, 1, 40, 1,
    ];
    let expected: Vec<_> = (0..18)
        .map(|i| (INSTRUCTION_WRITE, bytes[i], waits[i]))
        .collect();
    let (records, rest) = out.split_at(18 * TRANSFER_BYTES);
    assert_eq!(transfers_of(records), expected);
    assert!(rest.iter().all(|&byte| byte == 0xEE));
}
