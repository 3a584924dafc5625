//! Compares the proved library with the model, call by call.
//!
//! ```text
//! compare_calls [SEED] [CALLS] [--wrong | --wrong=NAME | --wrong=all]
//! ```
//!
//! Every call goes to both sides with the same bytes; what they return and all the
//! bytes they were lent must be equal. On a difference the call is made simpler, shown
//! with both outcomes, and the exit is 1. Every answer that a function can give must
//! have come up, the ends of a frequency's range in every record and wish, and every
//! profile, or the run fails. With `--wrong` a deliberately wrong model takes the
//! model's place, and the exit is 1 once it is found out; `--wrong=all` tries each, and
//! the exit is 0 if all were found out. Imports are compared by `compare_captures`.

use std::collections::BTreeSet;

use yaropesk_model::calls::{answer_of, Model, MODEL};
use yaropesk_model::case::{Case, Function, Met, Outcome, FUNCTIONS};
use yaropesk_model::demand::Trial;
use yaropesk_model::library::Library;
use yaropesk_model::model::Answer;
use yaropesk_model::options::Options;
use yaropesk_model::random::{self, Chance, FREQUENCY_EDGES, PROFILES, SEED};
use yaropesk_model::tally::Tally;
use yaropesk_model::wrong;

const DEFAULT_CALLS: u64 = 2_000_000;

/// How many lines are damaged at every place.
const LINES: u64 = 100;
const SEQUENCES: u64 = 200;
const SEQUENCE_TRANSFERS: u64 = 2_000;
const TRIALS: u64 = 1_000;

/// The model beside the library, how often each function has given each answer, and what it
/// has met.
struct Comparison {
    model: Model,
    seed: u64,
    counts: [Tally; FUNCTIONS.len()],
    met: [BTreeSet<Met>; FUNCTIONS.len()],
}

/// What must come up in the calls of a function.
fn to_meet(function: Function) -> Vec<Met> {
    let frequencies = FREQUENCY_EDGES.map(Met::Frequency);
    let profiles = PROFILES.map(Met::Profile);
    match function {
        Function::Reset | Function::Transfer | Function::Plan => frequencies.to_vec(),
        Function::Picture => [&frequencies[..], &profiles[..]].concat(),
        Function::WriteLine | Function::ReadLine => Vec::new(),
    }
}

/// Why a run stops, ready to be shown.
type Stop = Result<(), String>;

impl Comparison {
    /// One call on both sides; what the library left, or the simplest call that differs.
    fn call(&mut self, case: &Case) -> Result<Outcome, String> {
        let ours = case.run(&Library);
        if ours != case.run(&self.model) {
            return Err(self.difference(case));
        }
        let function = case.function as usize;
        self.counts[function].count(answer_of(ours.returned));
        self.met[function].extend(case.meets());
        Ok(ours)
    }

    fn difference(&self, case: &Case) -> String {
        let differs = |case: &Case| case.run(&Library) != case.run(&self.model);
        let simplest = case.shrunk(differs);
        let (ours, theirs) = (simplest.run(&Library), simplest.run(&self.model));
        format!(
            "{simplest}\nthe library: {}\nthe model: {}",
            ours.beside(&theirs, simplest.function),
            theirs.beside(&ours, simplest.function)
        )
    }

    /// The generator of number k of a part.
    fn chance(&self, part: u64, number: u64) -> Chance {
        Chance::new(self.seed, (part << 32) + number)
    }

    /// The transfer and the line of every kind 0 to 255 with every byte.
    fn every_kind_and_byte(&mut self) -> Stop {
        for number in 0..=u16::MAX {
            let [kind, byte] = number.to_le_bytes();
            let mut chance = self.chance(1, number.into());
            for case in random::calls::kind_and_byte(&mut chance, kind, byte) {
                self.call(&case)?;
            }
        }
        Ok(())
    }

    fn random_calls(&mut self, calls: u64) -> Stop {
        for number in 0..calls {
            let mut chance = self.chance(2, number);
            self.call(&random::calls::any_call(&mut chance))?;
        }
        Ok(())
    }

    /// Lines that are damaged at every place.
    fn damaged_lines(&mut self) -> Stop {
        for number in 0..LINES {
            let mut chance = self.chance(5, number);
            for case in random::calls::damaged_lines(&mut chance) {
                self.call(&case)?;
            }
        }
        Ok(())
    }

    /// Long sequences of transfers from reset, each from where the one before it left.
    fn sequences(&mut self) -> Stop {
        for number in 0..SEQUENCES {
            let mut chance = self.chance(3, number);
            let mut case = random::calls::reset_of_anything(&mut chance);
            for _ in 0..=SEQUENCE_TRANSFERS {
                let left = self.call(&case)?;
                case = random::calls::next_transfer(&mut chance, left.buffers);
            }
        }
        Ok(())
    }

    /// Plans with random cuts, played from random records.
    fn trials(&mut self) -> Stop {
        for number in 0..TRIALS {
            let trial = Trial::random(&mut self.chance(4, number));
            trial.play(|case| self.call(case))?;
        }
        Ok(())
    }

    /// Every answer that a function can give has come up, and no other.
    fn all_answers_seen(&self) -> Stop {
        for function in FUNCTIONS {
            for answer in Answer::MIN..=Answer::MAX {
                let times = self.counts[function as usize].times(answer);
                if function.answers().contains(&answer) != (times > 0) {
                    let name = function.name();
                    return Err(format!("{name} gave answer {answer} {times} times"));
                }
            }
        }
        Ok(())
    }

    /// Every function has met what it must.
    fn all_met(&self) -> Stop {
        for function in FUNCTIONS {
            let met = &self.met[function as usize];
            let missed = to_meet(function)
                .into_iter()
                .find(|each| !met.contains(each));
            if let Some(missed) = missed {
                return Err(format!("{} has not met {missed:?}", function.name()));
            }
        }
        Ok(())
    }

    fn run(&mut self, calls: u64) -> Stop {
        self.every_kind_and_byte()?;
        self.random_calls(calls)?;
        self.damaged_lines()?;
        self.sequences()?;
        self.trials()?;
        self.all_answers_seen()?;
        self.all_met()
    }

    fn counted(&self, function: Function) -> String {
        let (name, counts) = (function.name(), &self.counts[function as usize]);
        format!("{name} {} calls, answers {counts}", counts.sum())
    }
}

/// Compares; true when a difference was found, or an answer missed (and shown).
fn compare(model: Model, seed: u64, calls: u64) -> bool {
    let mut comparison = Comparison {
        model,
        seed,
        counts: Default::default(),
        met: Default::default(),
    };
    let stop = comparison.run(calls);
    if let Err(why) = &stop {
        println!("difference, seed {seed}: {why}");
        return true;
    }
    let all: u64 = comparison.counts.iter().map(Tally::sum).sum();
    println!("{all} calls of seed {seed}: no difference");
    for function in FUNCTIONS {
        println!("  {}", comparison.counted(function));
    }
    println!(
        "  {LINES} lines damaged at every place, {SEQUENCES} sequences of \
         {SEQUENCE_TRANSFERS} transfers from reset, {TRIALS} plans with random cuts"
    );
    false
}

fn main() {
    let options = Options::read("compare_calls [SEED] [CALLS]", MODEL, wrong::of_calls());
    if options.plain.len() > 2 {
        options.refuse();
    }
    let seed = options.number(0, SEED);
    let calls = options.number(1, DEFAULT_CALLS);
    options.compare(&[], |model| compare(model, seed, calls))
}
