//! Compares a session program with the model on random session texts.
//!
//! ```text
//! compare_sessions PROGRAM [SEED] [TEXTS] [--wrong | --wrong=NAME | --wrong=all]
//! ```
//!
//! PROGRAM reads a session from standard input and prints its report, played at the
//! frequency that `--khz` names, or at 250 kHz; on standard error it
//! tells the place of a bad line, and the words behind that are not compared. On a
//! difference the text is shrunk, shown with both reports, and the exit is 1. Every answer
//! that a report can have must have come up, or the run fails.
//! With `--wrong` a deliberately wrong model takes the model's place and a
//! difference must come (exit 1). `--wrong=all` tries every wrong model; there the
//! exit is 0 if each was found out that can be, and 1 if one was not.

use yaropesk_model::calls::{Model, MODEL};
use yaropesk_model::model::{self, Answer, USUAL_KHZ};
use yaropesk_model::model::{BAD_BYTE, BAD_KIND, BAD_WAIT, NO_NEWLINE};
use yaropesk_model::model::{BUSY, CROSSED, DONE, FIRST_HALF, NO_CELL, STALE};
use yaropesk_model::options::Options;
use yaropesk_model::programs::{frequency_words, run, show, shrink, Ran, Written};
use yaropesk_model::random::{asked_frequency, random_text, Chance, SEED};
use yaropesk_model::tally::Tally;
use yaropesk_model::wrong;

const DEFAULT_TEXTS: u64 = 2_000;

/// What the program calls itself on standard error.
const NAME: &str = "session";

/// The frequencies' generators lie past those of the texts.
const ASKED: u64 = 1 << 41;

/// What a row of a report can be answered: a transfer after reset is neither unsound nor
/// without its memory, and its kind is one of the four.
const ANSWERS: [Answer; 10] = [
    DONE, BUSY, FIRST_HALF, NO_CELL, STALE, CROSSED, BAD_KIND, BAD_BYTE, BAD_WAIT, NO_NEWLINE,
];

/// A program beside a model, and the frequency that both are asked for.
#[derive(Clone, Copy)]
struct Pair<'a> {
    program: &'a str,
    model: Model,
    asked: Option<u16>,
}

impl Pair<'_> {
    fn frequency(&self) -> u16 {
        self.asked.unwrap_or(USUAL_KHZ)
    }

    fn program_writes(&self, text: &[u8]) -> Ran {
        run(self.program, &frequency_words(self.asked), text)
    }

    /// What the model would write to standard output and standard error.
    fn model_writes(&self, text: &[u8]) -> Written {
        if text.len() > model::SESSION_BYTES {
            return Written {
                output: model::TOO_LONG.to_vec(),
                errors: model::told_too_long(NAME).into_bytes(),
            };
        }
        let Model {
            read_line,
            transfer,
            ..
        } = self.model;
        let played = model::play(text, self.frequency(), read_line, transfer);
        Written {
            errors: played.told(NAME).into_bytes(),
            output: played.report.into_bytes(),
        }
    }

    fn differs(&self, text: &[u8]) -> bool {
        !self.program_writes(text).is(&self.model_writes(text))
    }

    /// Shows the shortest text on which program and model differ.
    fn show_difference(&self, text: &[u8]) {
        let short = shrink(text, |text| self.differs(text));
        let (ran, due) = (self.program_writes(&short), self.model_writes(&short));
        println!("the words: {}", frequency_words(self.asked).join(" "));
        show("shortest text", &short);
        show("the program prints", &ran.written.output);
        show("the model prints", &due.output);
        ran.show_faults(&due);
    }
}

/// Compares on so many texts; true when a difference was found, or an answer missed (and
/// shown).
fn compare(program: &str, model: Model, seed: u64, texts: u64) -> bool {
    let (mut bytes, mut at_limit, mut too_long, mut tuned) = (0, 0, 0, 0);
    let mut answers = Tally::default();
    for number in 0..texts {
        let asked = asked_frequency(&mut Chance::new(seed, ASKED + number));
        let pair = Pair {
            program,
            model,
            asked,
        };
        let text = random_text(seed, number, pair.frequency());
        let length = text.len();
        tuned += u64::from(asked.is_some());
        bytes += length;
        at_limit += u64::from(length == model::SESSION_BYTES);
        too_long += u64::from(length > model::SESSION_BYTES);
        if pair.differs(&text) {
            println!("difference at text {number} of seed {seed}, {length} bytes long");
            pair.show_difference(&text);
            return true;
        }
        count_answers(&pair.model_writes(&text).output, &mut answers);
    }
    println!("{texts} texts of seed {seed}, {bytes} bytes: no difference");
    println!("{at_limit} texts of 65,536 bytes, {too_long} longer; a frequency named {tuned}");
    println!("answers seen: {answers}");
    answers.misses(&ANSWERS)
}

/// How often each answer stands in a report, to show what the texts reach.
fn count_answers(report: &[u8], answers: &mut Tally) {
    for line in report.split(|&byte| byte == b'\n').skip(1) {
        let answer = line
            .split(|&byte| byte == b'\t')
            .nth(1)
            .and_then(|field| std::str::from_utf8(field).ok())
            .and_then(|field| field.parse::<Answer>().ok());
        if let Some(answer) = answer {
            answers.count(answer);
        }
    }
}

fn main() {
    let usage = "compare_sessions PROGRAM [SEED] [TEXTS]";
    let options = Options::read(usage, MODEL, wrong::of_sessions());
    let program = options.program();
    let seed = options.number(1, SEED);
    let texts = options.number(2, DEFAULT_TEXTS);
    // No report shows S or the shift, so that these two cannot be found out here: `compare_glass` and `compare_calls` do.
    options.compare(&["read-shifts", "clear-drops-s"], |model| {
        compare(program, model, seed, texts)
    })
}
