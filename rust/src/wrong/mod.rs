//! Deliberately wrong models, a file for each chapter or request, and wrong drawings: a
//! comparison that misses one of them is worth nothing.

mod capture;
mod dots;
pub mod drawings;
mod lines;
mod oscillator;
mod plan;
mod record;
mod transfer;

use crate::calls::{Model, Planner, RecordReader, Resetter, MODEL};
use crate::model::{Reader, Step};
use capture::WRONG_IMPORTERS;
use dots::WRONG_PAINTERS;
use lines::{UNSEEN_READERS, WRONG_LINE_CALLS, WRONG_READERS, WRONG_WRITERS};
use plan::WRONG_PLANNERS;
use record::{WRONG_RECORDS, WRONG_RESETS};
use transfer::{UNSEEN_STEPS, WRONG_STEPS};

pub use oscillator::plan_at_250;
pub use plan::{first_mark_alone, plan_clears};

/// A wrong function in its place, with its name.
type Named = (&'static str, Model);

/// Each wrong function put in its place.
pub fn each<F: Copy, M>(wrong: &[(&'static str, F)], place: fn(F) -> M) -> Vec<(&'static str, M)> {
    let named = wrong
        .iter()
        .map(|&(name, function)| (name, place(function)));
    named.collect()
}

/// The wrong models that play sessions.
pub fn of_sessions() -> Vec<Named> {
    [steps(&WRONG_STEPS), readers(&WRONG_READERS)].concat()
}

fn steps(wrong: &[(&'static str, Step)]) -> Vec<Named> {
    each(wrong, |transfer| Model { transfer, ..MODEL })
}

fn readers(wrong: &[(&'static str, Reader)]) -> Vec<Named> {
    each(wrong, |read_line| Model { read_line, ..MODEL })
}

/// The wrong models that read lines.
pub fn of_lines() -> Vec<Named> {
    [
        readers(&WRONG_READERS),
        readers(&UNSEEN_READERS),
        each(&WRONG_LINE_CALLS, |line_call| Model { line_call, ..MODEL }),
    ]
    .concat()
}

/// The wrong models of all functions but the import: those that play sessions, and the ones
/// that only calls find out.
pub fn of_calls() -> Vec<Named> {
    [
        steps(&WRONG_STEPS),
        steps(&UNSEEN_STEPS),
        of_lines(),
        records(&WRONG_RECORDS),
        resets(&WRONG_RESETS),
        each(&WRONG_PAINTERS, |picture| Model { picture, ..MODEL }),
        planners(&WRONG_PLANNERS),
        of_frequencies(),
        each(&WRONG_WRITERS, |write_line| Model {
            write_line,
            ..MODEL
        }),
    ]
    .concat()
}

/// The wrong models of request d that only calls find out.
fn of_frequencies() -> Vec<Named> {
    [
        records(&oscillator::WRONG_RECORDS),
        each(&oscillator::WRONG_WISHES, |wish_of| Model {
            wish_of,
            ..MODEL
        }),
        resets(&oscillator::WRONG_RESETS),
        planners(&oscillator::WRONG_PLANNERS),
    ]
    .concat()
}

fn records(wrong: &[(&'static str, RecordReader)]) -> Vec<Named> {
    each(wrong, |record_of| Model { record_of, ..MODEL })
}

fn resets(wrong: &[(&'static str, Resetter)]) -> Vec<Named> {
    each(wrong, |reset| Model { reset, ..MODEL })
}

fn planners(wrong: &[(&'static str, Planner)]) -> Vec<Named> {
    each(wrong, |plan| Model { plan, ..MODEL })
}

/// The wrong models that import captures.
pub fn of_captures() -> Vec<Named> {
    each(&WRONG_IMPORTERS, |import| Model { import, ..MODEL })
}
