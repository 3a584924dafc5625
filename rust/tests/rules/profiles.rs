//! Document 02, e) "Four rows and the divided row".

use yaropesk_model::drawing::is_shown;
use yaropesk_model::model::*;

use crate::given::{font, ready, rows, unsound_records};

/// A panel that is on, with this N and shift.
fn shifted(n: bool, shift: u8) -> Record {
    let (rec, _) = ready();
    Record {
        d: true,
        n,
        shift,
        ..rec
    }
}

/// Every panel that has a glass: 80 plain ones and the two profiles.
fn all_panels() -> Vec<Panel> {
    let plain = (1..=40).flat_map(|columns| [1, 2].map(|lines| Panel::plain(columns, lines)));
    plain.chain([Panel::FOUR_ROWS, Panel::DIVIDED]).collect()
}

/// The cells of each line of a glass, position by position.
fn cells(rec: &Record, panel: Panel) -> Vec<Vec<Option<u8>>> {
    let Size { columns, lines } = panel.glass().expect("a glass");
    let line = |line| {
        (0..columns)
            .map(|column| shown_cell(rec, panel, line, column))
            .collect()
    };
    (0..lines).map(line).collect()
}

/// The addresses of cells that are all shown.
fn addresses(cells: &[Option<u8>]) -> Vec<u8> {
    let cells = cells.iter().map(|cell| cell.expect("a cell"));
    cells
        .map(|cell| address(true, Counter::Display(cell)))
        .collect()
}

/// "Rows 1 and 2 start at 00h and 40h, rows 3 and 4 at 14h and 54h".
#[test]
fn four_rows_start_where_the_request_says() {
    let glass = cells(&shifted(true, 0), Panel::FOUR_ROWS);
    assert_eq!(glass.len(), 4);
    for (line, start) in glass.iter().zip([0x00, 0x40, 0x14, 0x54]) {
        let due: Vec<u8> = (start..start + 20).collect();
        assert_eq!(addresses(line), due);
    }
}

/// "16 columns in one row with N=1, where columns 9 to 16 start at 40h."
#[test]
fn the_divided_row_goes_on_at_40h() {
    let glass = cells(&shifted(true, 0), Panel::DIVIDED);
    assert_eq!(glass.len(), 1);
    let due: Vec<u8> = (0x00..0x08).chain(0x40..0x48).collect();
    assert_eq!(addresses(&glass[0]), due);
}

/// "shifting turns each 40-cell line as before": one left shift, then one right shift.
#[test]
fn shifting_turns_each_line_of_40() {
    let starts = |shift, panel| -> Vec<u8> {
        let glass = cells(&shifted(true, shift), panel);
        glass.iter().map(|line| addresses(line)[0]).collect()
    };
    assert_eq!(starts(1, Panel::FOUR_ROWS), [0x01, 0x41, 0x15, 0x55]);
    assert_eq!(starts(79, Panel::FOUR_ROWS), [0x27, 0x67, 0x13, 0x53]);
    assert_eq!(starts(20, Panel::FOUR_ROWS), [0x14, 0x54, 0x00, 0x40]);
    let divided = |shift| addresses(&cells(&shifted(true, shift), Panel::DIVIDED)[0]);
    assert_eq!(divided(1)[7..9], [0x08, 0x41]);
    assert_eq!(divided(39)[..2], [0x27, 0x00]);
    assert_eq!(divided(39)[8..10], [0x67, 0x40]);
}

/// "With N=0 the positions that start at 40h or 54h are zero, and the others read their cell
/// plus shift modulo 80."
#[test]
fn one_line_leaves_what_starts_at_40h_and_54h_dark() {
    for shift in 0..80 {
        let follow = |from: u8, columns: u8| -> Vec<Option<u8>> {
            let cells = from..from + columns;
            cells.map(|cell| Some((cell + shift) % 80)).collect()
        };
        let rec = shifted(false, shift);
        let four = cells(&rec, Panel::FOUR_ROWS);
        assert_eq!((&four[0], &four[2]), (&follow(0, 20), &follow(20, 20)));
        assert_eq!((&four[1], &four[3]), (&vec![None; 20], &vec![None; 20]));
        let divided = &cells(&rec, Panel::DIVIDED)[0];
        assert_eq!(divided[..8], follow(0, 8));
        assert_eq!(divided[8..], [None; 8]);
    }
}

/// "once over all profiles that at shift 0 no cell shows at two positions"; nor does one at
/// any other shift.
#[test]
fn no_cell_shows_at_two_positions() {
    for panel in all_panels() {
        for (n, shift) in (0..80).flat_map(|shift| [(false, shift), (true, shift)]) {
            let glass = cells(&shifted(n, shift), panel).concat();
            let mut shown: Vec<u8> = glass.into_iter().flatten().collect();
            let positions = shown.len();
            shown.sort_unstable();
            shown.dedup();
            assert_eq!(shown.len(), positions, "{panel:?}, N={n}, shift {shift}");
        }
    }
}

/// With N=1 four rows of 20 show every display cell, so that none is spare.
#[test]
fn four_rows_show_every_cell() {
    for shift in 0..80 {
        let rec = shifted(true, shift);
        assert!((0..80).all(|cell| is_shown(&rec, Panel::FOUR_ROWS, cell)));
        let spare = (0..80).filter(|&cell| !is_shown(&rec, Panel::DIVIDED, cell));
        assert_eq!(spare.count(), 64);
    }
}

/// Every byte of a profile's picture, by the output rule and its cell; the cursor is under
/// the cell that the counter is on.
#[test]
fn pictures_of_the_profiles() {
    let (_, mem) = ready();
    for (panel, columns, wanted) in [(Panel::FOUR_ROWS, 20, 640), (Panel::DIVIDED, 16, 128)] {
        let rec = Record {
            c: true,
            counter: Counter::Display(45),
            ..shifted(true, 3)
        };
        let glass = cells(&rec, panel);
        let mut out = vec![0xEE; wanted + 1];
        assert_eq!(picture(&rec, &mem, panel, true, &mut out, &font()), DONE);
        assert_eq!(out.pop(), Some(0xEE));
        for (at, &dots) in out.iter().enumerate() {
            let (line, row, column) = (at / columns / 8, at / columns % 8, at % columns);
            let cell = glass[line][column].expect("a cell");
            let due = match (cell, row) {
                (45, 7) => 0x1F,
                _ => rows(mem[usize::from(cell)])[row],
            };
            assert_eq!(
                dots, due,
                "{panel:?}, line {line}, row {row}, column {column}"
            );
        }
    }
}

/// "1 and 2 take no notice of columns and lines", and "an unknown profile is 10", in its
/// place: after 1 and 2, before 11.
#[test]
fn profiles_are_refused_in_order() {
    let ((rec, mem), font) = (ready(), font());
    let mut out = [0xEE; 640];
    for profile in 3..=u8::MAX {
        let size = Size::new(16, 2);
        let panel = Panel { profile, size };
        for unsound in unsound_records() {
            let answer = picture(&unsound, &mem[1..], panel, true, &mut out, &font);
            assert_eq!(answer, UNSOUND);
        }
        let answer = picture(&rec, &mem[1..], panel, true, &mut out, &font);
        assert_eq!(answer, WRONG_LENGTH);
        for length in [0, 640] {
            let answer = picture(&rec, &mem, panel, true, &mut out[..length], &font);
            assert_eq!(answer, OUT_OF_RANGE);
        }
    }
    for (profile, wanted) in [(FOUR_ROWS, 640), (DIVIDED, 128)] {
        for (columns, lines) in [(0, 0), (1, 1), (40, 2), (255, 255)] {
            let size = Size::new(columns, lines);
            let panel = Panel { profile, size };
            let short = &mut out[..wanted - 1];
            assert_eq!(picture(&rec, &mem, panel, true, short, &font), TOO_SHORT);
            let mut enough = vec![0xEE; wanted];
            let answer = picture(&rec, &mem, panel, true, &mut enough, &font);
            assert_eq!((answer, enough), (DONE, vec![0; wanted]));
        }
    }
    assert_eq!(out, [0xEE; 640]);
}
