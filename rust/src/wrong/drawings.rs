//! Deliberately wrong drawings of the program `glass`.

use crate::drawing::{self, Blocker, Dot, Drawing, Grid, Gridder, Inker, Pointer};
use crate::drawing::{Speller, Teller, Watcher, DRAWING};
use crate::model::{self, line_length, Counter, Half, Panel, Played, Record, Size};
use crate::model::{DIVIDED, FOUR_ROWS, USUAL_KHZ};
use crate::wrong::{each, of_calls};

/// Each character's dots run from right to left.
fn mirrored_dots(picture: &[u8], size: Size) -> Grid {
    let mirrored: Vec<u8> = picture
        .iter()
        .map(|byte| byte.reverse_bits() >> 3)
        .collect();
    drawing::grid(&mirrored, size)
}

/// Two gaps between two characters.
fn gap_too_many(picture: &[u8], size: Size) -> Grid {
    let widened = |row: Vec<Dot>| {
        let characters: Vec<&[Dot]> = row.chunks(6).collect();
        characters.join(&Dot::Gap)
    };
    drawing::grid(picture, size)
        .into_iter()
        .map(widened)
        .collect()
}

/// Nothing between two lines.
fn lines_joined(picture: &[u8], size: Size) -> Grid {
    let mut grid = drawing::grid(picture, size);
    if size.lines == 2 {
        grid.remove(grid.len() / 2);
    }
    grid
}

/// The dots touch.
fn dots_touch(dot: Dot) -> [u8; 8] {
    match dot {
        Dot::Lit => [0xFF; 8],
        Dot::Dark | Dot::Gap => [0x00; 8],
    }
}

/// The quarters of a block from right to left.
fn blocks_mirrored([a, b, c, d]: [bool; 4]) -> char {
    drawing::block([b, a, d, c])
}

/// The lower quarters of a block are lost where the upper ones are filled.
fn quarters_lost(quarters: [bool; 4]) -> char {
    match quarters {
        [true, true, _, _] => drawing::block([true, true, false, false]),
        others => drawing::block(others),
    }
}

/// A pattern reads as the digit of its number.
fn patterns_as_digits(played: &Played, panel: Panel, line: u8, column: u8) -> char {
    match model::shown_cell(&played.rec, panel, line, column) {
        Some(cell) if played.rec.d && played.mem[usize::from(cell)] < 0x10 => {
            char::from(b'0' + played.mem[usize::from(cell)] % 8)
        }
        _ => drawing::reads(played, panel, line, column),
    }
}

/// Letters are read with the display off too.
fn read_while_off(played: &Played, panel: Panel, line: u8, column: u8) -> char {
    let cell = model::shown_cell(&played.rec, panel, line, column);
    cell.map_or(' ', |cell| drawing::letter(played.mem[usize::from(cell)]))
}

/// The divided row as a plain one of its size.
fn undivided(panel: Panel) -> Panel {
    match panel.profile {
        DIVIDED => Panel::plain(16, 1),
        _ => panel,
    }
}

/// The divided row is read as a plain one.
fn read_undivided(played: &Played, panel: Panel, line: u8, column: u8) -> char {
    drawing::reads(played, undivided(panel), line, column)
}

/// The caret under the divided row is that of a plain one.
fn caret_undivided(rec: &Record, panel: Panel, line: u8, column: u8) -> bool {
    drawing::is_counter(rec, undivided(panel), line, column)
}

/// Behind the divided row those cells are marked that a plain one does not show.
fn marked_undivided(rec: &Record, panel: Panel, cell: u8) -> bool {
    drawing::is_shown(rec, undivided(panel), cell)
}

/// Of four rows the first two alone count where cells are marked.
fn marked_of_two_rows(rec: &Record, panel: Panel, cell: u8) -> bool {
    match panel.profile {
        FOUR_ROWS => drawing::is_shown(rec, Panel::plain(20, 2), cell),
        _ => drawing::is_shown(rec, panel, cell),
    }
}

/// The caret is there with C=1 or B=1 only.
fn caret_of_a_cursor(rec: &Record, panel: Panel, line: u8, column: u8) -> bool {
    (rec.c || rec.b) && drawing::is_counter(rec, panel, line, column)
}

/// A counter on a pattern cell is taken for one on a display cell.
fn caret_of_a_pattern(rec: &Record, panel: Panel, line: u8, column: u8) -> bool {
    let cell = match rec.counter {
        Counter::Display(cell) | Counter::Pattern(cell) => cell,
    };
    model::shown_cell(rec, panel, line, column) == Some(cell)
}

/// The last display cell counts as shown on every glass.
fn last_cell_unmarked(rec: &Record, panel: Panel, cell: u8) -> bool {
    cell == 79 || drawing::is_shown(rec, panel, cell)
}

/// The shift is forgotten where cells are marked.
fn marked_unshifted(rec: &Record, panel: Panel, cell: u8) -> bool {
    drawing::is_shown(&Record { shift: 0, ..*rec }, panel, cell)
}

/// The cells behind a second line are marked as if it were driven with N=0 too.
fn second_line_shown(rec: &Record, panel: Panel, cell: u8) -> bool {
    drawing::is_shown(rec, panel, cell) || (panel.size.lines == 2 && cell == 40)
}

/// The shift is told modulo the length of a line.
fn shift_in_line(rec: &Record) -> String {
    drawing::state(&Record {
        shift: rec.shift % line_length(rec.n),
        ..*rec
    })
}

/// A read's half is told by its first four bits.
fn half_of_a_half(rec: &Record) -> String {
    let half = match rec.half {
        Half::StatusRead(byte) => Half::StatusRead(byte & 0xF0),
        Half::DataRead(byte) => Half::DataRead(byte & 0xF0),
        other => other,
    };
    drawing::state(&Record { half, ..*rec })
}

/// The counter's address is told as if N were 0.
fn address_without_n(rec: &Record) -> String {
    let due = model::address(rec.n, rec.counter);
    let told = model::address(false, rec.counter);
    drawing::state(rec).replace(
        &format!("address {due:02X}h"),
        &format!("address {told:02X}h"),
    )
}

/// C and B are exchanged.
fn settings_exchanged(rec: &Record) -> String {
    drawing::state(&Record {
        c: rec.b,
        b: rec.c,
        ..*rec
    })
}

/// 250 kHz are told of every panel.
fn frequency_not_told(rec: &Record) -> String {
    drawing::state(&Record {
        frequency: USUAL_KHZ,
        ..*rec
    })
}

/// Busy is told without the places of its missing digits.
fn busy_not_placed(rec: &Record) -> String {
    let (place, number) = (format!("{:>5}", rec.busy), rec.busy.to_string());
    drawing::state(rec).replace(&format!("busy {place}"), &format!("busy {number}"))
}

const WRONG_GRIDS: [(&str, Gridder); 3] = [
    ("mirrored-dots", mirrored_dots),
    ("gap-too-many", gap_too_many),
    ("lines-joined", lines_joined),
];

const WRONG_PIXELS: [(&str, Inker); 1] = [("dots-touch", dots_touch)];

const WRONG_BLOCKS: [(&str, Blocker); 2] = [
    ("blocks-mirrored", blocks_mirrored),
    ("quarters-lost", quarters_lost),
];

const WRONG_LETTERS: [(&str, Speller); 3] = [
    ("patterns-as-digits", patterns_as_digits),
    ("read-while-off", read_while_off),
    ("read-undivided", read_undivided),
];

const WRONG_CARETS: [(&str, Pointer); 3] = [
    ("caret-of-a-cursor", caret_of_a_cursor),
    ("caret-of-a-pattern", caret_of_a_pattern),
    ("caret-undivided", caret_undivided),
];

const WRONG_MARKS: [(&str, Watcher); 5] = [
    ("last-cell-unmarked", last_cell_unmarked),
    ("marked-unshifted", marked_unshifted),
    ("second-line-shown", second_line_shown),
    ("marked-undivided", marked_undivided),
    ("marked-of-two-rows", marked_of_two_rows),
];

const WRONG_STATES: [(&str, Teller); 6] = [
    ("address-without-n", address_without_n),
    ("settings-exchanged", settings_exchanged),
    ("shift-in-line", shift_in_line),
    ("half-of-a-half", half_of_a_half),
    ("busy-not-placed", busy_not_placed),
    ("frequency-not-told", frequency_not_told),
];

/// Those of the wrong models that no report shows, and one that alters what is told.
const WRONG_MODELS: [&str; 9] = [
    "read-shifts",
    "clear-drops-s",
    "second-line-drawn",
    "row-3-at-28h",
    "rows-2-and-3-exchanged",
    "second-half-at-8",
    "dark-halves-drawn",
    "turns-80",
    "times-at-250",
];

/// All of them, with their names.
pub fn all() -> Vec<(&'static str, Drawing)> {
    let mut models = of_calls();
    models.retain(|(name, _)| WRONG_MODELS.contains(name));
    [
        each(&WRONG_GRIDS, |grid| Drawing { grid, ..DRAWING }),
        each(&WRONG_PIXELS, |pixels| Drawing { pixels, ..DRAWING }),
        each(&WRONG_BLOCKS, |block| Drawing { block, ..DRAWING }),
        each(&WRONG_LETTERS, |reads| Drawing { reads, ..DRAWING }),
        each(&WRONG_CARETS, |is_counter| Drawing {
            is_counter,
            ..DRAWING
        }),
        each(&WRONG_MARKS, |is_shown| Drawing {
            is_shown,
            ..DRAWING
        }),
        each(&WRONG_STATES, |state| Drawing { state, ..DRAWING }),
        each(&models, |model| Drawing { model, ..DRAWING }),
    ]
    .concat()
}
