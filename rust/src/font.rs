//! The fixed table of shapes. It is the team's own drawing, so no second one is
//! typed here: it is read from the sheet that the program `font_sheet` prints.

use std::sync::LazyLock;

use crate::model::{FONT, SHAPE_ROWS};

const SHEET: &str = include_str!("../../crates/font_sheet/stdout");

/// 256 x 8 rows, bit 4 the leftmost dot. Codes that the sheet does not show are blank.
pub static SHAPES: LazyLock<[u8; FONT]> = LazyLock::new(|| read_sheet(SHEET));

/// A sheet has blocks, parted by empty lines: a line of letters and codes, then eight lines
/// of rows. A code has two digits, and a letter one sign.
fn read_sheet(sheet: &str) -> [u8; FONT] {
    let mut shapes = [0; FONT];
    for block in sheet.split("\n\n") {
        let mut lines = block.lines();
        let codes = lines.next().map_or(Vec::new(), codes_of);
        for (row, line) in lines.enumerate() {
            for (&code, dots) in codes.iter().zip(line.split_whitespace()) {
                shapes[code * SHAPE_ROWS + row] = five_dots(dots);
            }
        }
    }
    shapes
}

/// Each column is seven places wide, and its code stands in the last two, behind a letter.
fn codes_of(line: &str) -> Vec<usize> {
    let places: Vec<char> = line.chars().collect();
    let codes = places.chunks(7).map(|column| column[5..].iter().collect());
    codes
        .map(|code: String| usize::from_str_radix(&code, 16).expect("a code in hex"))
        .collect()
}

fn five_dots(dots: &str) -> u8 {
    dots.bytes()
        .fold(0, |row, dot| row << 1 | u8::from(dot == b'#'))
}
