//! Random captures reach every answer, and wrong models are found out by them.

use std::collections::BTreeMap;

use yaropesk_model::calls::MODEL;
use yaropesk_model::imports::Import;
use yaropesk_model::model::*;
use yaropesk_model::random::{every_damage, sound_capture, Chance, SEED};
use yaropesk_model::tally::Tally;
use yaropesk_model::wrong;

use crate::given::{capture, LETTER};

/// What the pod writes is in the subset.
#[test]
fn sound_captures_are_in_the_subset() {
    for number in 0..2_000 {
        let text = sound_capture(&mut Chance::new(3, number));
        let answer = Import::with_room(&text).run(&MODEL).answer;
        let shown = text.escape_ascii();
        assert_ne!(answer, OUTSIDE_SUBSET, "{shown}");
        assert_ne!(answer, TOO_SHORT, "{shown}");
    }
}

#[test]
fn every_answer_comes_up_often() {
    let mut answers = Tally::default();
    for number in 0..2_000 {
        answers.count(Import::random(SEED, number).run(&MODEL).answer);
    }
    for answer in [
        DONE,
        TOO_SHORT,
        OUTSIDE_SUBSET,
        SIGNAL_MISSING,
        UNKNOWN_LEVEL,
    ] {
        assert!(answers.times(answer) > 80, "{answers}");
    }
    assert_eq!(answers.sum(), 2_000);
}

/// Damaged at every place, a capture is answered, and a refusal has length 0 and leaves the
/// output as it was.
#[test]
fn damage_is_answered() {
    let text = capture("", LETTER).into_bytes();
    let mut answers = BTreeMap::new();
    for damaged in every_damage(&text) {
        let imported = Import::with_room(&damaged).run(&MODEL);
        *answers.entry(imported.answer).or_insert(0) += 1;
        assert!(imported.answer == DONE || imported.length == 0);
        assert!(imported.out[imported.length..]
            .iter()
            .all(|&byte| byte == 0xEE));
    }
    let seen: Vec<Answer> = answers.into_keys().collect();
    assert_eq!(seen, [DONE, OUTSIDE_SUBSET, SIGNAL_MISSING, UNKNOWN_LEVEL]);
}

#[test]
fn wrong_models_are_found_out() {
    let imports: Vec<Import> = (0..6_000)
        .map(|number| Import::random(SEED, number))
        .collect();
    let right: Vec<_> = imports.iter().map(|each| each.run(&MODEL)).collect();
    for (name, wrong) in wrong::of_captures() {
        let mut both = imports.iter().zip(&right);
        let found_out = both.any(|(each, right)| each.run(&wrong) != *right);
        assert!(found_out, "{name}");
    }
}
