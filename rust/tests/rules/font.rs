//! Document 01's rule over the table of shapes.

use yaropesk_model::font::SHAPES;
use yaropesk_model::model::{shape, SHAPE_ROWS};

#[test]
fn every_row_has_five_dots_and_every_eighth_row_none() {
    for (at, &row) in SHAPES.iter().enumerate() {
        let eighth = at % SHAPE_ROWS == 7;
        assert!(row < 32, "row {at}");
        assert!(!eighth || row == 0, "row {at}");
    }
}

#[test]
fn shapes_are_drawn_from_21_to_7d_and_no_two_are_alike() {
    let shape = |code| shape(&SHAPES, code);
    for code in 0x00..=0xFF {
        let drawn = (0x21..=0x7D).contains(&code);
        assert_eq!(shape(code) != [0; SHAPE_ROWS], drawn, "code {code:02X}");
        if drawn {
            let same = (0x21..=0x7D).find(|&other| shape(other) == shape(code));
            assert_eq!(same, Some(code));
        }
    }
}
