//! Demand 3 is kept by the library and by the model, and planners that break it are
//! found out. Its premise is needed.

use yaropesk_model::calls::{Calls, Model, Planner, MODEL};
use yaropesk_model::demand::Trial;
use yaropesk_model::library::Library;
use yaropesk_model::model::{self, Answer, Wish, TRANSFER_BYTES};
use yaropesk_model::random::Chance;
use yaropesk_model::wrong;

/// What went wrong in the first of fifty trials in which something did.
fn fault_of(calls: &impl Calls, trial: fn(&mut Chance) -> Trial) -> Option<String> {
    (0..50).find_map(|number| {
        let trial = trial(&mut Chance::new(1, number));
        trial.play(|case| Ok(case.run(calls))).err()
    })
}

fn fault(calls: &impl Calls) -> Option<String> {
    fault_of(calls, Trial::random)
}

#[test]
fn the_library_and_the_model_keep_it() {
    assert_eq!(fault(&Library), None);
    assert_eq!(fault(&MODEL), None);
}

/// After the opening every wait is 1, so that the board does not wait for Home.
fn hurried(wish: &Wish, marks: &[u8], values: &[u8], out: &mut [u8]) -> (Answer, usize) {
    let (answer, count) = model::plan(wish, marks, values, out);
    for record in out.chunks_exact_mut(TRANSFER_BYTES).take(count).skip(5) {
        record[2..].copy_from_slice(&1u32.to_le_bytes());
    }
    (answer, count)
}

/// The cursor is forgotten: the last address set is that of cell 0.
fn cursor_forgotten(wish: &Wish, marks: &[u8], values: &[u8], out: &mut [u8]) -> (Answer, usize) {
    let wish = Wish { cursor: 0, ..*wish };
    model::plan(&wish, marks, values, out)
}

#[test]
fn planners_that_break_it_are_found_out() {
    let planners: [(Planner, &str); 5] = [
        (wrong::plan_clears, "cell "),
        (wrong::first_mark_alone, "cell "),
        (hurried, "refused as busy"),
        (wrong::plan_at_250, "refused as busy"),
        (cursor_forgotten, "the record is not as wished"),
    ];
    for (plan, expected) in planners {
        let found = fault(&Model { plan, ..MODEL }).unwrap_or_default();
        let start = format!("demand 3: {expected}");
        assert!(found.starts_with(&start), "{start:?} in {found:?}");
    }
}

/// "the premise that the wish's frequency is the record's": a plan for 350 kHz is too fast for
/// a module of 190.
#[test]
fn the_premise_is_needed() {
    let fast = |chance: &mut Chance| Trial::at(chance, 190, 350);
    for found in [fault_of(&Library, fast), fault_of(&MODEL, fast)] {
        let found = found.unwrap_or_default();
        assert!(found.starts_with("demand 3: refused as busy"), "{found:?}");
    }
}

#[test]
fn a_plan_for_the_lowest_frequency_serves_all() {
    for trial in [
        |chance: &mut Chance| Trial::at(chance, 350, 190),
        |chance: &mut Chance| Trial::at(chance, 270, 250),
        |chance: &mut Chance| Trial::at(chance, 191, 190),
    ] {
        assert_eq!(fault_of(&Library, trial), None);
        assert_eq!(fault_of(&MODEL, trial), None);
    }
}
