//! What the program `glass` writes, on the model: a panel as dots in a frame, as block
//! characters, as letters, as a bitmap or as a list of its cells.
//!
//! Written from README.md ("See the glass"), the stored drawings under tests/glass/ and the
//! documents alone, apart from the proved code.

use crate::calls::{Model, MODEL};
use crate::font::SHAPES;
use crate::model::{self, Counter, Half, Panel, Played, Record, Size};
use crate::model::{DISPLAY_CELLS, USUAL_KHZ};
use crate::programs::Written;

#[derive(Clone, Copy, Debug, PartialEq, Eq)]
pub enum Form {
    Dots,
    Blocks,
    Letters,
    Bitmap,
    Cells,
}

pub const FORMS: [Form; 5] = [
    Form::Dots,
    Form::Blocks,
    Form::Letters,
    Form::Bitmap,
    Form::Cells,
];

impl Form {
    /// The word that asks for it. Where no terminal is written to, dots need not be asked
    /// for.
    pub fn word(self) -> &'static str {
        match self {
            Form::Dots => "--dots",
            Form::Blocks => "--blocks",
            Form::Letters => "--text",
            Form::Bitmap => "--pbm",
            Form::Cells => "--cells",
        }
    }
}

/// The panel that need not be said.
pub const USUAL: Panel = Panel::plain(16, 2);

/// What the program is asked for.
#[derive(Clone, Copy, Debug, PartialEq, Eq)]
pub struct Asked {
    pub panel: Panel,
    pub form: Form,
    /// How many transfers are played at most.
    pub until: Option<usize>,
    /// The frequency that is fitted, in kHz.
    pub frequency: Option<u16>,
}

impl Asked {
    /// What need not be said.
    pub const USUAL: Asked = Asked {
        panel: USUAL,
        form: Form::Dots,
        until: None,
        frequency: None,
    };

    /// The text, played by a model.
    pub fn played(&self, text: &[u8], model: &Model) -> Played {
        let until = self.until.unwrap_or(usize::MAX);
        let frequency = self.frequency.unwrap_or(USUAL_KHZ);
        model::play_until(text, until, frequency, model.read_line, model.transfer)
    }
}

/// One place of the drawn glass: a dot, or the gap between two characters or lines.
#[derive(Clone, Copy, Debug, PartialEq, Eq)]
pub enum Dot {
    Lit,
    Dark,
    Gap,
}

/// The places of a glass, row by row.
pub type Grid = Vec<Vec<Dot>>;

/// Functions with the shapes of `grid`, `pixels`, `block`, `reads`, `is_counter`,
/// `is_shown` and `state` below.
pub type Gridder = fn(&[u8], Size) -> Grid;
pub type Inker = fn(Dot) -> [u8; 8];
pub type Blocker = fn([bool; 4]) -> char;
pub type Speller = fn(&Played, Panel, u8, u8) -> char;
pub type Pointer = fn(&Record, Panel, u8, u8) -> bool;
pub type Watcher = fn(&Record, Panel, u8) -> bool;
pub type Teller = fn(&Record) -> String;

/// The model and the parts of a drawing. A wrong one has a wrong function in it.
#[derive(Clone, Copy)]
pub struct Drawing {
    pub model: Model,
    pub grid: Gridder,
    pub pixels: Inker,
    pub block: Blocker,
    pub reads: Speller,
    pub is_counter: Pointer,
    pub is_shown: Watcher,
    pub state: Teller,
}

/// The drawing as it should be.
pub const DRAWING: Drawing = Drawing {
    model: MODEL,
    grid,
    pixels,
    block,
    reads,
    is_counter,
    is_shown,
    state,
};

// ---------------------------------------------------------------------------
// The program
// ---------------------------------------------------------------------------

impl Drawing {
    /// What the program `glass` writes for a session.
    pub fn program(&self, text: &[u8], asked: &Asked) -> Written {
        let Asked { panel, form, .. } = *asked;
        let mut written = Written::default();
        // Words beside a bitmap go elsewhere, so that it stands alone.
        let told = match form {
            Form::Bitmap => &mut written.errors,
            _ => &mut written.output,
        };
        if text.len() > model::SESSION_BYTES {
            told.extend_from_slice(model::TOO_LONG);
            let words = model::told_too_long("glass");
            written.errors.extend(words.into_bytes());
            return written;
        }
        let played = asked.played(text, &self.model);
        if let Some(bad_line) = played.bad_line {
            told.extend_from_slice(model::HEADER.as_bytes());
            told.extend_from_slice(&played.report.as_bytes()[bad_line.row..]);
            let place = played.told("glass");
            written.errors.extend(place.into_bytes());
        }
        let refused = self.refused(&played);
        if form == Form::Bitmap {
            if played.refused > 0 {
                written.errors.extend(refused.into_bytes());
            }
            written.output.extend(self.drawn(&played, panel, form));
        } else {
            written.output.extend(self.drawn(&played, panel, form));
            written.output.extend(refused.into_bytes());
        }
        written
    }

    /// "how many transfers were refused, and the first of them in words".
    fn refused(&self, played: &Played) -> String {
        let played_all = match played.transfers {
            1 => String::from("1 transfer"),
            many => format!("{many} transfers"),
        };
        match played.first_refused {
            None => format!("{played_all}, none refused\n"),
            Some((line, answer)) => {
                let (refused, words) = (played.refused, model::words(answer));
                format!("{played_all}, {refused} refused, the first in line {line}: {words}\n")
            }
        }
    }

    fn drawn(&self, played: &Played, panel: Panel, form: Form) -> Vec<u8> {
        match form {
            Form::Dots => self.dots(played, panel).into_bytes(),
            Form::Blocks => self.blocks(played, panel).into_bytes(),
            Form::Letters => self.letters(played, panel).into_bytes(),
            Form::Bitmap => self.bitmap(&self.glass(played, panel)),
            Form::Cells => self.cells(played, panel).into_bytes(),
        }
    }

    /// "draws the panel as it then stands, cursor and blinking in the lit phase".
    fn glass(&self, played: &Played, panel: Panel) -> Grid {
        let (rec, mem, size) = (&played.rec, &played.mem, size_of(panel));
        let mut dots = vec![0; model::picture_bytes(rec, size)];
        let answer = (self.model.picture)(rec, mem, panel, true, &mut dots, &SHAPES);
        assert_eq!(answer, model::DONE, "the panel has a glass");
        (self.grid)(&dots, size)
    }

    // -----------------------------------------------------------------------
    // Dots and blocks in a frame
    // -----------------------------------------------------------------------

    /// The dots in a frame, "with the state below".
    fn dots(&self, played: &Played, panel: Panel) -> String {
        let grid = self.glass(played, panel);
        let edge = format!("+{}+\n", "-".repeat(grid[0].len()));
        let mut text = edge.clone();
        for row in grid {
            let places: String = row.into_iter().map(dot_letter).collect();
            text.push_str(&format!("|{places}|\n"));
        }
        text + &edge + &(self.state)(&played.rec)
    }

    /// The dots as "block characters, two dots to a character in each direction".
    fn blocks(&self, played: &Played, panel: Panel) -> String {
        let grid = self.glass(played, panel);
        let is_lit = |x: usize, y: usize| {
            let place = grid.get(y).and_then(|row| row.get(x));
            place == Some(&Dot::Lit)
        };
        let (wide, high) = (grid[0].len().div_ceil(2), grid.len().div_ceil(2));
        let edge = "─".repeat(wide);
        let mut text = format!("┌{edge}┐\n");
        for y in (0..high).map(|row| row * 2) {
            let four = |x| [(x, y), (x + 1, y), (x, y + 1), (x + 1, y + 1)];
            let blocks = (0..wide).map(|column| four(column * 2).map(|(x, y)| is_lit(x, y)));
            let row: String = blocks.map(self.block).collect();
            text.push_str(&format!("│{row}│\n"));
        }
        text + &format!("└{edge}┘\n") + &(self.state)(&played.rec)
    }

    // -----------------------------------------------------------------------
    // Letters
    // -----------------------------------------------------------------------

    /// "what the glass reads as plain text", each line between bars, and under it "`^`
    /// under the cell that the counter stands on".
    fn letters(&self, played: &Played, panel: Panel) -> String {
        let mut text = String::new();
        let Size { columns, lines } = size_of(panel);
        for line in 0..lines {
            let letters = (0..columns).map(|column| (self.reads)(played, panel, line, column));
            let carets = (0..columns).map(|column| {
                let is_there = (self.is_counter)(&played.rec, panel, line, column);
                if is_there {
                    '^'
                } else {
                    ' '
                }
            });
            let (letters, carets): (String, String) = (letters.collect(), carets.collect());
            text.push_str(&format!("|{letters}|\n {carets} \n"));
        }
        text + &(self.state)(&played.rec)
    }

    // -----------------------------------------------------------------------
    // Bitmap
    // -----------------------------------------------------------------------

    /// "the same picture is written as a portable bitmap": each place is a square of
    /// eight pixels, and an empty place runs round the glass.
    fn bitmap(&self, grid: &Grid) -> Vec<u8> {
        let width = grid[0].len() + 2;
        let around = vec![vec![Dot::Gap; width - 2]];
        let mut bytes = format!("P4\n{:04} {:04}\n", width * 8, (grid.len() + 2) * 8).into_bytes();
        for row in around.iter().chain(grid).chain(&around) {
            let mut places = vec![Dot::Gap; width];
            places[1..width - 1].copy_from_slice(row);
            for pixel_row in 0..8 {
                let pixels = places.iter().map(|&dot| (self.pixels)(dot)[pixel_row]);
                bytes.extend(pixels);
            }
        }
        bytes
    }

    // -----------------------------------------------------------------------
    // Cells
    // -----------------------------------------------------------------------

    /// "all 144 cells are listed as hexadecimal, those display cells that this glass does
    /// not show marked `*`", sixteen to a line, and the display cells "as letters too".
    fn cells(&self, played: &Played, panel: Panel) -> String {
        let mut text = String::from("display cells marked * are not on this glass\n");
        let shown = |cell: usize| (self.is_shown)(&played.rec, panel, cell as u8);
        let (display, pattern) = played.mem.split_at(usize::from(DISPLAY_CELLS));
        let as_letters = |cells: &[u8]| {
            let letters: String = cells.iter().map(|&code| letter(code)).collect();
            format!("|{letters}|")
        };
        let nothing = |_: &[u8]| " ".repeat(18);
        text.push_str(&listed("display", display, |cell| !shown(cell), as_letters));
        text.push_str(&listed("pattern", pattern, |_| false, nothing));
        text + &(self.state)(&played.rec)
    }
}

// ---------------------------------------------------------------------------
// The parts
// ---------------------------------------------------------------------------

/// The size of a panel that the program draws.
fn size_of(panel: Panel) -> Size {
    panel.glass().expect("the panel has a glass")
}

/// Five dots a character, a gap between two characters and a row of gaps between two
/// lines.
pub fn grid(picture: &[u8], size: Size) -> Grid {
    let columns = usize::from(size.columns);
    let height = picture.len() / columns / usize::from(size.lines);
    let mut grid = Vec::new();
    for (row, bytes) in picture.chunks(columns).enumerate() {
        let characters: Vec<[Dot; 5]> = bytes.iter().map(|&byte| five_dots(byte)).collect();
        if row > 0 && row % height == 0 {
            grid.push(vec![Dot::Gap; columns * 6 - 1]);
        }
        grid.push(characters.join(&Dot::Gap));
    }
    grid
}

/// "five dots, bit 4 leftmost".
fn five_dots(byte: u8) -> [Dot; 5] {
    [4, 3, 2, 1, 0].map(|bit| match byte >> bit & 1 {
        1 => Dot::Lit,
        _ => Dot::Dark,
    })
}

fn dot_letter(dot: Dot) -> char {
    match dot {
        Dot::Lit => '#',
        Dot::Dark => '.',
        Dot::Gap => ' ',
    }
}

/// The eight rows of eight pixels of one place. A lit dot is seven wide and high, so that
/// dots stand apart.
pub fn pixels(dot: Dot) -> [u8; 8] {
    match dot {
        Dot::Lit => [0xFE, 0xFE, 0xFE, 0xFE, 0xFE, 0xFE, 0xFE, 0x00],
        Dot::Dark | Dot::Gap => [0x00; 8],
    }
}

/// A block character with these quarters filled: upper left, upper right, lower left, lower
/// right. Where none is, a blank that is three bytes long as the others are.
pub fn block([upper_left, upper_right, lower_left, lower_right]: [bool; 4]) -> char {
    match (upper_left, upper_right, lower_left, lower_right) {
        (false, false, false, false) => '\u{2002}',
        (true, false, false, false) => '▘',
        (false, true, false, false) => '▝',
        (false, false, true, false) => '▖',
        (false, false, false, true) => '▗',
        (true, true, false, false) => '▀',
        (false, false, true, true) => '▄',
        (true, false, true, false) => '▌',
        (false, true, false, true) => '▐',
        (true, false, false, true) => '▚',
        (false, true, true, false) => '▞',
        (true, true, true, false) => '▛',
        (true, true, false, true) => '▜',
        (true, false, true, true) => '▙',
        (false, true, true, true) => '▟',
        (true, true, true, true) => '█',
    }
}

/// What a position reads as: a blank where D=0 and where its line is not driven.
pub fn reads(played: &Played, panel: Panel, line: u8, column: u8) -> char {
    match model::shown_cell(&played.rec, panel, line, column) {
        Some(cell) if played.rec.d => letter(played.mem[usize::from(cell)]),
        _ => ' ',
    }
}

/// "Codes 20h to 7Dh read as ASCII has them, a pattern as `~`", and "the rest is blank".
pub fn letter(code: u8) -> char {
    match code {
        0x00..=0x0F => '~',
        0x20..=0x7D => char::from(code),
        _ => ' ',
    }
}

/// Does this position show the cell that the counter stands on?
pub fn is_counter(rec: &Record, panel: Panel, line: u8, column: u8) -> bool {
    let cell = model::shown_cell(rec, panel, line, column);
    cell.map(Counter::Display) == Some(rec.counter)
}

/// Does some position of the glass show this display cell? D is not looked at.
pub fn is_shown(rec: &Record, panel: Panel, cell: u8) -> bool {
    let Size { columns, lines } = size_of(panel);
    let shows = |line, column| model::shown_cell(rec, panel, line, column) == Some(cell);
    (0..lines).any(|line| (0..columns).any(|column| shows(line, column)))
}

fn listed(
    name: &str,
    cells: &[u8],
    is_marked: impl Fn(usize) -> bool,
    told: impl Fn(&[u8]) -> String,
) -> String {
    let mut text = String::new();
    for (line, sixteen) in cells.chunks(16).enumerate() {
        let first = line * 16;
        text.push_str(&format!("{name} {first:>2}"));
        for (at, byte) in sixteen.iter().enumerate() {
            let mark = if is_marked(first + at) { '*' } else { ' ' };
            text.push_str(&format!(" {mark}{byte:02X}"));
        }
        text.push_str(&format!("  {}\n", told(sixteen)));
    }
    text
}

/// The settings, and what moves. "`counter` is the cell that the next data write goes to",
/// "with its address", "`half` the half transfer that waits: the letter of its kind and its
/// bits". Each field has its place, however long it is.
pub fn state(rec: &Record) -> String {
    let lines = if rec.n { 2 } else { 1 };
    let display = if rec.d { "on" } else { "off" };
    let [f, c, b, id, s] = [rec.f, rec.c, rec.b, rec.id, rec.s].map(u8::from);
    let (memory, cell) = match rec.counter {
        Counter::Display(cell) => ("display", cell),
        Counter::Pattern(cell) => ("pattern", cell),
    };
    let address = model::address(rec.n, rec.counter);
    let half = match rec.half {
        Half::None => String::from("none"),
        Half::InstructionWrite(high) => format!("I {:02X}", high << 4),
        Half::DataWrite(high) => format!("D {:02X}", high << 4),
        Half::StatusRead(byte) => format!("S {byte:02X}"),
        Half::DataRead(byte) => format!("R {byte:02X}"),
    };
    let (width, shift, busy, khz) = (rec.width, rec.shift, rec.busy, rec.frequency);
    format!(
        "width {width}  lines {lines}  F {f}  display {display:<3}  C {c}  B {b}  I/D {id}  S {s}  \
         {khz} kHz\n\
         counter {memory} cell {cell:>2}, address {address:02X}h  \
         shift {shift:>2}  busy {busy:>5}  half {half}\n"
    )
}
