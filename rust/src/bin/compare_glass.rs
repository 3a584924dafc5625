//! Compares the program `glass` with the drawing on the model, on random session texts.
//!
//! ```text
//! compare_glass PROGRAM [SEED] [RUNS] [--wrong | --wrong=NAME | --wrong=all]
//! ```
//!
//! Each run has a text, a panel, a form and at times a number of transfers and a
//! frequency; every byte that PROGRAM writes to standard output and standard error must be
//! the drawing's, but for the words in which a bad line is told behind its place. On a
//! difference text and size are made smaller, both drawings shown, and the exit is 1. With
//! `--wrong` a deliberately wrong drawing takes the drawing's place; `--wrong=all` tries
//! each, and the exit is 0 if all were found out.

use std::fmt::{self, Display, Formatter};

use yaropesk_model::calls::MODEL;
use yaropesk_model::drawing::{Asked, Drawing, Form, DRAWING, FORMS, USUAL};
use yaropesk_model::model::{Half, Panel, Size, SESSION_BYTES, USUAL_KHZ};
use yaropesk_model::model::{DIVIDED, PLAIN};
use yaropesk_model::options::Options;
use yaropesk_model::programs::{frequency_words, run, show, shrink, Ran, Written};
use yaropesk_model::random::{asked_frequency, random_panel_text, Chance, SEED};
use yaropesk_model::wrong::drawings;

const DEFAULT_RUNS: u64 = 2_000;

/// The words' generators lie past those of the texts.
const WORDS: u64 = 1 << 41;

/// What is asked for, and the words that say so.
#[derive(Clone)]
struct Wanted {
    asked: Asked,
    words: Vec<String>,
}

impl Wanted {
    /// All that is asked for is said, in the usual order.
    fn new(asked: Asked) -> Wanted {
        let words = said(&asked).concat();
        Wanted { asked, words }
    }

    /// Any panel and form, the usual sizes more often; in some runs a number of transfers and
    /// a frequency; the words in any order, and what need not be said at times not said.
    fn random(chance: &mut Chance) -> Wanted {
        let any = chance.between(1, 40) as u8;
        let columns = chance.pick(&[1, 16, 20, 40, any, any, any, any]);
        let plain = Panel::plain(columns, chance.pick(&[1, 2]));
        let most = chance.between(0, 60) as usize;
        let asked = Asked {
            panel: chance.pick(&[plain, plain, plain, Panel::FOUR_ROWS, Panel::DIVIDED]),
            form: chance.pick(&FORMS),
            until: chance.percent(25).then_some(most),
            frequency: asked_frequency(chance),
        };
        let [mut panel, mut form, until, frequency] = said(&asked);
        if asked.panel == USUAL && chance.percent(50) {
            panel.clear();
        }
        if asked.form == Form::Dots && chance.percent(50) {
            form.clear();
        }
        let mut words = [panel, form, until, frequency];
        for at in 1..words.len() {
            words.swap(at, chance.index(at + 1));
        }
        let words = words.concat();
        Wanted { asked, words }
    }

    /// The same of a smaller glass.
    fn sized(&self, columns: u8, lines: u8) -> Wanted {
        let panel = Panel::plain(columns, lines);
        Wanted::new(Asked {
            panel,
            ..self.asked
        })
    }
}

/// The words for the panel, the form, the number of transfers and the frequency. Four rows are
/// asked for by their size, the divided row by its word alone.
fn said(asked: &Asked) -> [Vec<String>; 4] {
    let Panel { profile, size } = asked.panel;
    let panel = match profile {
        DIVIDED => vec![String::from("--divided")],
        _ => vec![size.columns.to_string(), size.lines.to_string()],
    };
    let until = asked
        .until
        .map(|most| [String::from("--until"), most.to_string()]);
    [
        panel,
        vec![String::from(asked.form.word())],
        until.into_iter().flatten().collect(),
        frequency_words(asked.frequency),
    ]
}

impl Display for Wanted {
    fn fmt(&self, to: &mut Formatter) -> fmt::Result {
        write!(to, "{}", self.words.join(" "))
    }
}

/// A program beside a drawing.
#[derive(Clone, Copy)]
struct Pair<'a> {
    program: &'a str,
    drawing: Drawing,
}

impl Pair<'_> {
    fn program_writes(&self, wanted: &Wanted, text: &[u8]) -> Ran {
        run(self.program, &wanted.words, text)
    }

    fn drawing_writes(&self, wanted: &Wanted, text: &[u8]) -> Written {
        self.drawing.program(text, &wanted.asked)
    }

    fn differs(&self, wanted: &Wanted, text: &[u8]) -> bool {
        let due = self.drawing_writes(wanted, text);
        !self.program_writes(wanted, text).is(&due)
    }

    /// The smallest glass on which they still differ; profiles of fixed size stay.
    fn smallest(&self, wanted: &Wanted, text: &[u8]) -> Wanted {
        let Panel { profile, size } = wanted.asked.panel;
        let Size { columns, lines } = size;
        let smaller = (1..=lines)
            .flat_map(|lines| (1..=columns).map(move |columns| wanted.sized(columns, lines)));
        smaller
            .filter(|_| profile == PLAIN)
            .find(|smaller| self.differs(smaller, text))
            .unwrap_or_else(|| wanted.clone())
    }

    fn show_difference(&self, wanted: &Wanted, text: &[u8]) {
        let short = shrink(text, |text| self.differs(wanted, text));
        let smallest = self.smallest(wanted, &short);
        let ran = self.program_writes(&smallest, &short);
        let (written, due) = (&ran.written, self.drawing_writes(&smallest, &short));
        let mut bytes = written.output.iter().zip(&due.output);
        let first = bytes.position(|(ours, theirs)| ours != theirs);
        println!("the words: {smallest}");
        show("shortest text", &short);
        show("the program writes", &written.output);
        show("the drawing on the model is", &due.output);
        if let Some(at) = first {
            println!("the first {at} bytes are equal");
        }
        ran.show_faults(&due);
    }
}

/// What the runs have reached.
#[derive(Default)]
struct Reached {
    forms: [u64; 5],
    profiles: [u64; 3],
    bounded: u64,
    tuned: u64,
    refused: u64,
    bad_lines: u64,
    too_long: u64,
    displays_on: u64,
    halves: u64,
}

impl Reached {
    fn count(&mut self, wanted: &Wanted, text: &[u8]) {
        let Asked {
            panel,
            form,
            until,
            frequency,
        } = wanted.asked;
        self.forms[form as usize] += 1;
        self.profiles[usize::from(panel.profile)] += 1;
        if text.len() > SESSION_BYTES {
            self.too_long += 1;
            return;
        }
        let played = wanted.asked.played(text, &MODEL);
        self.bounded += u64::from(until.is_some());
        self.tuned += u64::from(frequency.is_some());
        self.refused += u64::from(played.refused > 0);
        self.bad_lines += u64::from(played.bad_line.is_some());
        self.displays_on += u64::from(played.rec.d);
        self.halves += u64::from(played.rec.half != Half::None);
    }
}

impl Display for Reached {
    fn fmt(&self, to: &mut Formatter) -> fmt::Result {
        let [dots, blocks, letters, bitmap, cells] = self.forms;
        let [plain, four_rows, divided] = self.profiles;
        writeln!(
            to,
            "dots {dots}, blocks {blocks}, letters {letters}, bitmap {bitmap}, cells {cells}; \
             plain {plain}, four rows {four_rows}, divided {divided}; so many transfers only {}, a frequency named {}",
            self.bounded, self.tuned
        )?;
        write!(
            to,
            "display on {}, a half waiting {}, refused {}, bad lines {}, too long {}",
            self.displays_on, self.halves, self.refused, self.bad_lines, self.too_long
        )
    }
}

/// Compares in so many runs; true when a difference was found (and shown).
fn compare(pair: Pair, seed: u64, runs: u64) -> bool {
    let mut reached = Reached::default();
    for number in 0..runs {
        let wanted = Wanted::random(&mut Chance::new(seed, WORDS + number));
        let frequency = wanted.asked.frequency.unwrap_or(USUAL_KHZ);
        let text = random_panel_text(seed, number, frequency);
        if pair.differs(&wanted, &text) {
            println!("difference at run {number} of seed {seed}, words {wanted}");
            pair.show_difference(&wanted, &text);
            return true;
        }
        reached.count(&wanted, &text);
    }
    println!("{runs} drawings of seed {seed}: no difference");
    println!("{reached}");
    false
}

fn main() {
    let usage = "compare_glass PROGRAM [SEED] [RUNS]";
    let options = Options::read(usage, DRAWING, drawings::all());
    let program = options.program();
    let seed = options.number(1, SEED);
    let runs = options.number(2, DEFAULT_RUNS);
    options.compare(&[], |drawing| {
        compare(Pair { program, drawing }, seed, runs)
    })
}
