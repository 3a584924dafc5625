//! Document 01, "The dots", and document 02, e) "Four rows and the divided row".

use super::record::place;
use super::{is_sound, Answer, Counter, Record, MEMORY};
use super::{DONE, OUT_OF_RANGE, TOO_SHORT, UNSOUND, WRONG_LENGTH};

/// "a fixed table of 256 x 8 rows".
pub const FONT: usize = 256 * SHAPE_ROWS;
pub const SHAPE_ROWS: usize = 8;

/// The rows of a code in such a table.
pub fn shape(font: &[u8; FONT], code: u8) -> &[u8] {
    &font[usize::from(code) * SHAPE_ROWS..][..SHAPE_ROWS]
}

/// Columns and lines.
#[derive(Clone, Copy, Debug, PartialEq, Eq)]
pub struct Size {
    pub columns: u8,
    pub lines: u8,
}

impl Size {
    pub const fn new(columns: u8, lines: u8) -> Size {
        Size { columns, lines }
    }

    /// "Columns 1 to 40, lines 1 or 2."
    fn is_in_range(self) -> bool {
        (1..=40).contains(&self.columns) && (1..=2).contains(&self.lines)
    }
}

/// "profile 0 plain, 1 the 20 x 4 panel, 2 the divided 16 x 1 row".
pub const PLAIN: u8 = 0;
pub const FOUR_ROWS: u8 = 1;
pub const DIVIDED: u8 = 2;

/// A panel: its profile, and the size that is asked for. "1 and 2 take no notice of columns
/// and lines": "profiles of fixed size beside the plain geometry".
#[derive(Clone, Copy, Debug, PartialEq, Eq)]
pub struct Panel {
    pub profile: u8,
    pub size: Size,
}

impl Panel {
    /// "The cabinet's new panel has 20 columns and four rows."
    pub const FOUR_ROWS: Panel = Panel {
        profile: FOUR_ROWS,
        size: Size::new(20, 4),
    };

    /// "The hall signs are 16 columns in one row".
    pub const DIVIDED: Panel = Panel {
        profile: DIVIDED,
        size: Size::new(16, 1),
    };

    pub const fn plain(columns: u8, lines: u8) -> Panel {
        Panel {
            profile: PLAIN,
            size: Size::new(columns, lines),
        }
    }

    /// The size of its glass, if it has one: "an unknown profile is 10", and so are "columns
    /// or lines out of range".
    pub fn glass(self) -> Option<Size> {
        match self.profile {
            PLAIN => Some(self.size).filter(|size| size.is_in_range()),
            FOUR_ROWS => Some(Panel::FOUR_ROWS.size),
            DIVIDED => Some(Panel::DIVIDED.size),
            _ => None,
        }
    }

    /// The address at which the positions start that this one follows, and how many are
    /// before it. "Rows 1 and 2 start at 00h and 40h, rows 3 and 4 at 14h and 54h"; of the
    /// hall signs, "columns 9 to 16 start at 40h". The plain lines are rows 1 and 2.
    pub fn start(self, line: u8, column: u8) -> (u8, u8) {
        match (self.profile, line) {
            (DIVIDED, _) if column >= 8 => (0x40, column - 8),
            (_, 0) => (0x00, column),
            (_, 1) => (0x40, column),
            (_, 2) => (0x14, column),
            _ => (0x54, column),
        }
    }
}

/// The rows of a character, of which the last is the cursor's: eight for every record,
/// since "F does not alter the picture."
pub fn height(_rec: &Record) -> u8 {
    8
}

/// The bytes of a picture. Reading 14: exactly lines x 8 x columns, also with D=0.
pub fn picture_bytes(rec: &Record, size: Size) -> usize {
    usize::from(size.lines) * usize::from(height(rec)) * usize::from(size.columns)
}

/// The picture of the panel. "Picture: 1, 2, 10, 11." The fixed table of shapes is
/// a parameter here, so that the model does not depend on how the team draws it.
pub fn picture(
    rec: &Record,
    mem: &[u8],
    panel: Panel,
    lit: bool,
    out: &mut [u8],
    font: &[u8; FONT],
) -> Answer {
    picture_by(shown_cell, rec, mem, panel, lit, out, font)
}

/// The same with a geometry of the caller's, in the place of `shown_cell`.
pub fn picture_by(
    shows: impl Fn(&Record, Panel, u8, u8) -> Option<u8>,
    rec: &Record,
    mem: &[u8],
    panel: Panel,
    lit: bool,
    out: &mut [u8],
    font: &[u8; FONT],
) -> Answer {
    if !is_sound(rec) {
        return UNSOUND;
    }
    if mem.len() != MEMORY {
        return WRONG_LENGTH;
    }
    let Some(size) = panel.glass() else {
        return OUT_OF_RANGE;
    };
    if out.len() < picture_bytes(rec, size) {
        return TOO_SHORT;
    }
    let height = height(rec);
    for line in 0..size.lines {
        for row in 0..height {
            for column in 0..size.columns {
                // "Output byte (line x 8 + row) x columns + column holds five dots,
                // bit 4 leftmost; later bytes stay."
                let above = usize::from(line) * usize::from(height) + usize::from(row);
                let at = above * usize::from(size.columns) + usize::from(column);
                // "N=0 drives line 1 only, line 2 is zero." "D=0: all zero."
                out[at] = match shows(rec, panel, line, column) {
                    Some(cell) if rec.d => dots(rec, mem, cell, row, lit, font),
                    _ => 0,
                };
            }
        }
    }
    DONE
}

/// "Line length L is 80 (N=0) or 40 (N=1)".
pub const fn line_length(n: bool) -> u8 {
    if n {
        40
    } else {
        80
    }
}

/// The display cell at a position, if one is shown there.
pub fn shown_cell(rec: &Record, panel: Panel, line: u8, column: u8) -> Option<u8> {
    let (start, before) = panel.start(line, column);
    cell_after(rec, start, before)
}

/// The display cell at the position with so many before it that start at an address:
/// "position p shows cell (p + shift) modulo L of its line", and "shifting turns each 40-cell
/// line as before." "With N=0 the positions that start at 40h or 54h are zero, and the others
/// read their cell plus shift modulo 80."
pub fn cell_after(rec: &Record, start: u8, before: u8) -> Option<u8> {
    const ONE_LINE: u8 = line_length(false);
    const EACH_OF_TWO: u8 = line_length(true);
    // The second of the controller's lines begins at 40h.
    let (second, position) = (start / 0x40, start % 0x40 + before);
    match (rec.n, second) {
        (false, 0) => Some((position + rec.shift) % ONE_LINE),
        (false, _) => None,
        (true, _) => Some(second * EACH_OF_TWO + (position + rec.shift) % EACH_OF_TWO),
    }
}

/// Five dots of one row of a display cell that is on the glass.
fn dots(rec: &Record, mem: &[u8], cell: u8, row: u8, lit: bool, font: &[u8; FONT]) -> u8 {
    // "With the counter on a visible display cell: C=1 sets all five dots of its
    // eighth row; B=1 in the lit phase (given by the caller) sets all forty."
    if rec.counter == Counter::Display(cell) {
        if rec.c && row + 1 == height(rec) {
            return 0x1F;
        }
        if rec.b && lit {
            return 0x1F;
        }
    }
    // "Codes 00h to 0Fh show pattern (code modulo 8), low five bits. Other codes
    // come from a fixed table of 256 x 8 rows".
    let code = mem[usize::from(cell)];
    if code <= 0x0F {
        let pattern = code % 8;
        mem[place(Counter::Pattern(pattern * 8 + row))] & 0x1F
    } else {
        shape(font, code)[usize::from(row)]
    }
}
