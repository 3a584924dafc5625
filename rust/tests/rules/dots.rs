//! Document 01, "The dots".

use yaropesk_model::model::*;

use crate::given::{font, ready, rows, unsound_records};

#[test]
fn picture_refuses() {
    let (rec, mem) = ready();
    let font = font();
    let mut out = [0xEE; 640];
    let none = Panel::plain(0, 0);
    for unsound in unsound_records() {
        let answer = picture(&unsound, &mem[1..], none, true, &mut out, &font);
        assert_eq!(answer, UNSOUND);
    }
    let answer = picture(&rec, &mem[1..], none, true, &mut out, &font);
    assert_eq!(answer, WRONG_LENGTH);
    for (columns, lines) in [(0, 1), (41, 1), (1, 0), (1, 3), (255, 255)] {
        let (panel, empty) = (Panel::plain(columns, lines), &mut out[..0]);
        let answer = picture(&rec, &mem, panel, true, empty, &font);
        assert_eq!(answer, OUT_OF_RANGE);
    }
    for (columns, lines, wanted) in [(1, 1, 8), (40, 2, 640), (16, 2, 256)] {
        let (panel, short) = (Panel::plain(columns, lines), &mut out[..wanted - 1]);
        assert_eq!(picture(&rec, &mem, panel, true, short, &font), TOO_SHORT);
    }
    assert_eq!(out, [0xEE; 640]);
    // D=0: zeros over exactly the picture's bytes.
    let usual = Panel::plain(16, 2);
    assert_eq!(picture(&rec, &mem, usual, true, &mut out, &font), DONE);
    assert_eq!(out[..256], [0; 256]);
    assert_eq!(out[256..], [0xEE; 384]);
}

/// Two lines that are on, and the counter on the second cell of the second.
fn two_lines() -> Record {
    let (rec, _) = ready();
    Record {
        d: true,
        f: true,
        n: true,
        counter: Counter::Display(41),
        ..rec
    }
}

/// A picture of two columns and two lines.
fn two_by_two(rec: &Record, lit: bool) -> [u8; 32] {
    let (_, mem) = ready();
    let mut out = [0xEE; 32];
    let answer = picture(rec, &mem, Panel::plain(2, 2), lit, &mut out, &font());
    assert_eq!(answer, DONE);
    out
}

/// The eight rows at the second position of the second line.
fn last_place(rec: &Record, lit: bool) -> Vec<u8> {
    let out = two_by_two(rec, lit);
    (0..8).map(|row| out[(8 + row) * 2 + 1]).collect()
}

/// The shape that stands there.
fn last_shape() -> Vec<u8> {
    let (_, mem) = ready();
    rows(mem[41])
}

#[test]
fn each_position_shows_its_cell_and_the_cursor_its_last_row() {
    let (_, mem) = ready();
    let with_cursor = Record {
        c: true,
        ..two_lines()
    };
    let out = two_by_two(&with_cursor, true);
    for (at, &dots) in out.iter().enumerate() {
        let (line, row, column) = (at / 16, at / 2 % 8, at % 2);
        let code = mem[line * 40 + column];
        let cursor = (line, row, column) == (1, 7, 1);
        let expected = if cursor { 0x1F } else { rows(code)[row] };
        assert_eq!(dots, expected, "line {line}, row {row}, column {column}");
    }
}

#[test]
fn the_blinking_place_is_full_in_the_lit_phase_alone() {
    let blinking = Record {
        b: true,
        ..two_lines()
    };
    assert_eq!(last_place(&blinking, true), [0x1F; 8]);
    assert_eq!(last_place(&blinking, false), last_shape());
}

#[test]
fn one_line_driven_leaves_the_second_dark() {
    let one_line = Record {
        n: false,
        b: true,
        ..two_lines()
    };
    assert_eq!(last_place(&one_line, true), [0; 8]);
}

#[test]
fn a_counter_on_a_pattern_cell_is_no_cursor() {
    let on_pattern = Record {
        counter: Counter::Pattern(41),
        b: true,
        ..two_lines()
    };
    assert_eq!(last_place(&on_pattern, true), last_shape());
}
