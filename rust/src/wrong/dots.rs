//! Wrong readings of document 01's chapter "The dots" and of document 02's request e.

use crate::calls::Painter;
use crate::model::{self, cell_after, shown_cell, Answer, Panel, Record};
use crate::model::{DIVIDED, FONT, FOUR_ROWS, PLAIN};

/// With N=0 a panel of two lines is drawn as with N=1.
fn second_line_drawn(
    record: &Record,
    memory: &[u8],
    panel: Panel,
    lit: bool,
    out: &mut [u8],
    font: &[u8; FONT],
) -> Answer {
    let two_lines = Record {
        n: record.n || panel.size.lines == 2,
        ..*record
    };
    model::picture(&two_lines, memory, panel, lit, out, font)
}

/// The blinking place is lit in both phases.
fn always_lit(
    record: &Record,
    memory: &[u8],
    panel: Panel,
    _lit: bool,
    out: &mut [u8],
    font: &[u8; FONT],
) -> Answer {
    model::picture(record, memory, panel, true, out, font)
}

/// One byte past the picture is overwritten.
fn picture_runs_over(
    record: &Record,
    memory: &[u8],
    panel: Panel,
    lit: bool,
    out: &mut [u8],
    font: &[u8; FONT],
) -> Answer {
    let answer = model::picture(record, memory, panel, lit, out, font);
    let wanted = panel.glass().map(|size| model::picture_bytes(record, size));
    let past = wanted.and_then(|wanted| out.get_mut(wanted));
    if let (model::DONE, Some(past)) = (answer, past) {
        *past = 0;
    }
    answer
}

// ---------------------------------------------------------------------------
// Which cell a position shows
// ---------------------------------------------------------------------------

/// The picture with another geometry.
macro_rules! shows {
    ($shows:expr) => {
        |record, memory, panel, lit, out, font| {
            model::picture_by($shows, record, memory, panel, lit, out, font)
        }
    };
}

/// Row 3 starts at 28h.
fn row_3_at_28h(rec: &Record, panel: Panel, line: u8, column: u8) -> Option<u8> {
    match (panel.profile, line) {
        (FOUR_ROWS, 2) => cell_after(rec, 0x28, column),
        _ => shown_cell(rec, panel, line, column),
    }
}

/// Rows 2 and 3 are exchanged.
fn rows_2_and_3_exchanged(rec: &Record, panel: Panel, line: u8, column: u8) -> Option<u8> {
    let line = match (panel.profile, line) {
        (FOUR_ROWS, 1) => 2,
        (FOUR_ROWS, 2) => 1,
        _ => line,
    };
    shown_cell(rec, panel, line, column)
}

/// The divided row's second half starts at cell 8.
fn second_half_at_8(rec: &Record, panel: Panel, line: u8, column: u8) -> Option<u8> {
    match panel.profile {
        DIVIDED => cell_after(rec, 0x00, column),
        _ => shown_cell(rec, panel, line, column),
    }
}

/// With N=0 the positions that start at 40h or 54h read that address as a cell.
fn dark_halves_drawn(rec: &Record, panel: Panel, line: u8, column: u8) -> Option<u8> {
    let (start, before) = panel.start(line, column);
    match (panel.profile, rec.n) {
        (FOUR_ROWS | DIVIDED, false) => Some((start + before + rec.shift) % 80),
        _ => shown_cell(rec, panel, line, column),
    }
}

/// With N=0 these positions are drawn as with N=1.
fn dark_halves_as_second_line(rec: &Record, panel: Panel, line: u8, column: u8) -> Option<u8> {
    let second_line = || shown_cell(&Record { n: true, ..*rec }, panel, line, column);
    let is_plain = panel.profile == PLAIN;
    shown_cell(rec, panel, line, column).or_else(|| second_line().filter(|_| !is_plain))
}

/// With N=0 the four rows follow each other through the one line of 80.
fn four_rows_of_one_line(rec: &Record, panel: Panel, line: u8, column: u8) -> Option<u8> {
    match (panel.profile, rec.n) {
        (FOUR_ROWS, false) => Some((line * 20 + column + rec.shift) % 80),
        _ => shown_cell(rec, panel, line, column),
    }
}

/// Row 3 is as dark with N=0 as rows 2 and 4.
fn row_3_dark(rec: &Record, panel: Panel, line: u8, column: u8) -> Option<u8> {
    match (panel.profile, rec.n, line) {
        (FOUR_ROWS, false, 2) => None,
        _ => shown_cell(rec, panel, line, column),
    }
}

/// In the profiles, shifting turns all 80 cells as one line.
fn turns_80(rec: &Record, panel: Panel, line: u8, column: u8) -> Option<u8> {
    let cell = shown_cell(&Record { shift: 0, ..*rec }, panel, line, column);
    match panel.profile {
        FOUR_ROWS | DIVIDED => cell.map(|cell| (cell + rec.shift) % 80),
        _ => shown_cell(rec, panel, line, column),
    }
}

/// In the profiles, shifting turns each row of 20 and each half of 8 by itself.
fn turns_a_row(rec: &Record, panel: Panel, line: u8, column: u8) -> Option<u8> {
    let still = Record { shift: 0, ..*rec };
    let (start, before) = panel.start(line, column);
    match panel.profile {
        FOUR_ROWS => cell_after(&still, start, (before + rec.shift) % 20),
        DIVIDED => cell_after(&still, start, (before + rec.shift) % 8),
        _ => shown_cell(rec, panel, line, column),
    }
}

// ---------------------------------------------------------------------------
// Which panel is drawn
// ---------------------------------------------------------------------------

/// The picture of another panel.
macro_rules! drawn_as {
    ($other:ident) => {
        |record, memory, panel, lit, out, font| {
            model::picture(record, memory, $other(panel), lit, out, font)
        }
    };
}

/// An unknown profile is plain.
fn unknown_is_plain(panel: Panel) -> Panel {
    match panel.profile {
        PLAIN | FOUR_ROWS | DIVIDED => panel,
        _ => Panel {
            profile: PLAIN,
            ..panel
        },
    }
}

/// A profile of which the size is heeded: one out of range is 10.
fn heeding(profile: u8, panel: Panel) -> Panel {
    let is_in_range = Panel::plain(panel.size.columns, panel.size.lines).glass();
    match is_in_range {
        None if panel.profile == profile => Panel {
            profile: u8::MAX,
            ..panel
        },
        _ => panel,
    }
}

fn four_rows_heed_size(panel: Panel) -> Panel {
    heeding(FOUR_ROWS, panel)
}

fn divided_heeds_size(panel: Panel) -> Panel {
    heeding(DIVIDED, panel)
}

/// Four rows are drawn as the two lines of 40 that they are cut from.
fn four_rows_as_two(panel: Panel) -> Panel {
    match panel.profile {
        FOUR_ROWS => Panel::plain(40, 2),
        _ => panel,
    }
}

/// The halves of the divided row are drawn below each other.
fn halves_as_two_lines(panel: Panel) -> Panel {
    match panel.profile {
        DIVIDED => Panel::plain(8, 2),
        _ => panel,
    }
}

/// 1 and 2 are exchanged.
fn profiles_exchanged(panel: Panel) -> Panel {
    let profile = match panel.profile {
        FOUR_ROWS => DIVIDED,
        DIVIDED => FOUR_ROWS,
        other => other,
    };
    Panel { profile, ..panel }
}

// ---------------------------------------------------------------------------
// The order of the refusals
// ---------------------------------------------------------------------------

/// 11 is answered before 10.
fn short_before_unknown(
    record: &Record,
    memory: &[u8],
    panel: Panel,
    lit: bool,
    out: &mut [u8],
    font: &[u8; FONT],
) -> Answer {
    let answer = model::picture(record, memory, panel, lit, out, font);
    match answer {
        model::OUT_OF_RANGE if out.is_empty() => model::TOO_SHORT,
        _ => answer,
    }
}

/// 10 is answered before 2.
fn unknown_before_memory(
    record: &Record,
    memory: &[u8],
    panel: Panel,
    lit: bool,
    out: &mut [u8],
    font: &[u8; FONT],
) -> Answer {
    let answer = model::picture(record, memory, panel, lit, out, font);
    match (answer, panel.glass()) {
        (model::WRONG_LENGTH, None) => model::OUT_OF_RANGE,
        _ => answer,
    }
}

pub const WRONG_PAINTERS: [(&str, Painter); 20] = [
    ("second-line-drawn", second_line_drawn),
    ("always-lit", always_lit),
    ("picture-runs-over", picture_runs_over),
    ("row-3-at-28h", shows!(row_3_at_28h)),
    ("rows-2-and-3-exchanged", shows!(rows_2_and_3_exchanged)),
    ("second-half-at-8", shows!(second_half_at_8)),
    ("dark-halves-drawn", shows!(dark_halves_drawn)),
    (
        "dark-halves-as-second-line",
        shows!(dark_halves_as_second_line),
    ),
    ("four-rows-of-one-line", shows!(four_rows_of_one_line)),
    ("row-3-dark", shows!(row_3_dark)),
    ("turns-80", shows!(turns_80)),
    ("turns-a-row", shows!(turns_a_row)),
    ("unknown-is-plain", drawn_as!(unknown_is_plain)),
    ("four-rows-heed-size", drawn_as!(four_rows_heed_size)),
    ("divided-heeds-size", drawn_as!(divided_heeds_size)),
    ("four-rows-as-two", drawn_as!(four_rows_as_two)),
    ("halves-as-two-lines", drawn_as!(halves_as_two_lines)),
    ("profiles-exchanged", drawn_as!(profiles_exchanged)),
    ("short-before-unknown", short_before_unknown),
    ("unknown-before-memory", unknown_before_memory),
];
