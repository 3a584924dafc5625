//! Compares the proved library with the model, capture by capture.
//!
//! ```text
//! compare_captures [SEED] [CAPTURES] [--wrong | --wrong=NAME | --wrong=all]
//! ```
//!
//! The captures are random ones, and every damage of a byte or of a word to some. Both
//! sides import each into outputs of one length; what they return and the whole output
//! must be equal. On a difference the import is made shorter, shown with both outcomes,
//! and the exit is 1. Every answer that an import can give must have come up, or the run
//! fails. With `--wrong` a deliberately wrong model takes the model's place, and the exit
//! is 1 once it is found out; `--wrong=all` tries each, and the exit is 0 if all were
//! found out.

use yaropesk_model::calls::{Model, MODEL};
use yaropesk_model::imports::Import;
use yaropesk_model::library::Library;
use yaropesk_model::model::Answer;
use yaropesk_model::model::{DONE, OUTSIDE_SUBSET, SIGNAL_MISSING, TOO_SHORT, UNKNOWN_LEVEL};
use yaropesk_model::options::Options;
use yaropesk_model::programs::show;
use yaropesk_model::random::{every_damage, SEED};
use yaropesk_model::tally::Tally;
use yaropesk_model::wrong;

const DEFAULT_CAPTURES: u64 = 20_000;
/// How many of the first captures are damaged at every place.
const DAMAGED: u64 = 5;

/// "Refusals: 14 ..., 15 ..., 28 ..., then 11."
const ANSWERS: [Answer; 5] = [
    DONE,
    TOO_SHORT,
    OUTSIDE_SUBSET,
    SIGNAL_MISSING,
    UNKNOWN_LEVEL,
];

/// The model beside the library, and how often each answer has been given, to random
/// captures and to those that are damaged at every place.
struct Comparison {
    model: Model,
    random: Tally,
    damaged: Tally,
}

/// The shortest import on which the two differ, ready to be shown.
struct Difference(Import);

impl Comparison {
    /// One import on both sides: the answer, or the shortest import found that the library
    /// answers so too and on which they differ.
    fn import(&self, import: &Import) -> Result<Answer, Difference> {
        let ours = import.run(&Library);
        if ours == import.run(&self.model) {
            return Ok(ours.answer);
        }
        let shows = |each: &Import| {
            let other = each.run(&Library);
            other.answer == ours.answer && other != each.run(&self.model)
        };
        Err(Difference(import.shrunk(shows)))
    }

    fn run(&mut self, seed: u64, captures: u64) -> Result<(), Difference> {
        for number in 0..captures {
            let answer = self.import(&Import::random(seed, number))?;
            self.random.count(answer);
        }
        for number in 0..captures.min(DAMAGED) {
            let Import { capture, room } = Import::random(seed, number);
            for capture in every_damage(&capture) {
                let answer = self.import(&Import { capture, room })?;
                self.damaged.count(answer);
            }
        }
        Ok(())
    }

    fn show(&self, Difference(import): &Difference) {
        show("shortest capture", &import.capture);
        println!("with an output of {} bytes", import.room);
        println!("the library: {}", import.run(&Library));
        println!("the model: {}", import.run(&self.model));
    }
}

/// Compares; true when a difference was found, or an answer missed (and shown).
fn compare(model: Model, seed: u64, captures: u64) -> bool {
    let mut comparison = Comparison {
        model,
        random: Tally::default(),
        damaged: Tally::default(),
    };
    if let Err(difference) = comparison.run(seed, captures) {
        comparison.show(&difference);
        return true;
    }
    let (random, damaged) = (comparison.random, comparison.damaged);
    println!("{captures} captures of seed {seed}: no difference");
    println!("  answers seen: {random}");
    println!("  damaged at every place, {}: {damaged}", damaged.sum());
    random.misses(&ANSWERS)
}

fn main() {
    let usage = "compare_captures [SEED] [CAPTURES]";
    let options = Options::read(usage, MODEL, wrong::of_captures());
    if options.plain.len() > 2 {
        options.refuse();
    }
    let seed = options.number(0, SEED);
    let captures = options.number(1, DEFAULT_CAPTURES);
    options.compare(&[], |model| compare(model, seed, captures))
}
