//! Document 02, c) "Which field of the line", on lines damaged at every place: what the
//! offset means, and wrong models are found out.

use std::collections::BTreeSet;

use yaropesk_model::calls::{Model, MODEL};
use yaropesk_model::case::Case;
use yaropesk_model::model::*;
use yaropesk_model::random::calls::damaged_lines;
use yaropesk_model::random::{Chance, SEED};
use yaropesk_model::wrong;

/// The readings of so many lines with every damage to them.
fn readings(lines: u64) -> impl Iterator<Item = Case> {
    (0..lines).flat_map(|number| damaged_lines(&mut Chance::new(SEED, number)))
}

fn texts(lines: u64) -> impl Iterator<Item = Vec<u8>> {
    readings(lines).map(|case| case.buffers[0].clone())
}

fn is_read(text: &[u8]) -> bool {
    read_line(text).0 == DONE
}

/// Each number comes up at all of its places, and at no other: the letter and its tab, the
/// two digits and their tab, the first digit, the one after a leading zero, the tenth and
/// the eleventh, and wherever the wait may end. 12 does not come up.
#[test]
fn every_number_has_its_places() {
    let mut found: BTreeSet<(Answer, usize)> = BTreeSet::new();
    for text in texts(60) {
        let (answer, line) = read_line(&text);
        found.insert((answer, line.offset));
    }
    let mut expected: BTreeSet<(Answer, usize)> = (6..=15).map(|at| (NO_NEWLINE, at)).collect();
    expected.extend([0, 1].map(|at| (BAD_KIND, at)));
    expected.extend([2, 3, 4].map(|at| (BAD_BYTE, at)));
    expected.extend([5, 6, 14, 15].map(|at| (BAD_WAIT, at)));
    expected.insert((DONE, 0));
    assert_eq!(found, expected);
}

/// "the offset of the first byte that cannot stand": what is before it can become a line,
/// and with it nothing can; "or the length where the text ends early".
#[test]
fn the_offset_is_that_of_the_first_byte_that_cannot_stand() {
    const LINES: [&[u8]; 4] = [b"I\t38\t0\n", b"D\t41\t10\n", b"S\t00\t0\n", b"R\t00\t40\n"];
    let endings: BTreeSet<&[u8]> = LINES
        .iter()
        .flat_map(|line| (0..=line.len()).map(|from| &line[from..]))
        .collect();
    let becomes_line = |start: &[u8]| {
        let mut longer = endings.iter().map(|&ending| [start, ending].concat());
        longer.any(|text| is_read(&text))
    };
    for text in texts(10) {
        let (answer, Line { offset, .. }) = read_line(&text);
        if answer == DONE {
            continue;
        }
        let shown = text.escape_ascii();
        assert!(becomes_line(&text[..offset]), "{shown}");
        if offset < text.len() {
            assert!(!becomes_line(&text[..=offset]), "{shown}");
        }
    }
}

#[test]
fn wrong_models_are_found_out() {
    let cases: Vec<Case> = readings(60).collect();
    let found_out = |wrong: &Model| cases.iter().any(|case| case.run(wrong) != case.run(&MODEL));
    assert!(!found_out(&MODEL));
    for (name, wrong) in wrong::of_lines() {
        assert!(found_out(&wrong), "{name}");
    }
}
