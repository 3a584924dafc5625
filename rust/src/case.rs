//! One call as data: it can be run on either side, made simpler, and shown.

use std::fmt::{self, Display, Formatter};

use crate::bytes::{frequency_of, BUSY_AT, FREQUENCY_AT, RECORD_BYTES};
use crate::bytes::{WISH_BYTES, WISH_FREQUENCY_AT, WISH_ZEROS};
use crate::calls::{answer_of, place_of, value_of, Calls};
use crate::model::{little_endian, Answer, Panel, Size};
use crate::model::{BAD_BYTE, BAD_KIND, BAD_WAIT, BUSY, CROSSED, DONE, FIRST_HALF};
use crate::model::{NOT_A_WISH, NO_CELL, NO_NEWLINE, OUT_OF_RANGE, STALE, TOO_SHORT};
use crate::model::{UNSOUND, WRONG_KIND, WRONG_LENGTH};

/// The functions of the header, in its order, but for the import: texts are made shorter
/// in other ways, so that it has `imports`.
#[derive(Clone, Copy, Debug, PartialEq, Eq)]
pub enum Function {
    Reset,
    Transfer,
    Picture,
    Plan,
    WriteLine,
    ReadLine,
}

pub const FUNCTIONS: [Function; 6] = [
    Function::Reset,
    Function::Transfer,
    Function::Picture,
    Function::Plan,
    Function::WriteLine,
    Function::ReadLine,
];

impl Function {
    pub fn name(self) -> &'static str {
        match self {
            Function::Reset => "reset",
            Function::Transfer => "transfer",
            Function::Picture => "picture",
            Function::Plan => "plan",
            Function::WriteLine => "write_line",
            Function::ReadLine => "read_line",
        }
    }

    /// The answers that it can give.
    pub fn answers(self) -> &'static [Answer] {
        match self {
            Function::Reset => &[DONE, UNSOUND, WRONG_LENGTH],
            Function::Transfer => &[
                DONE,
                UNSOUND,
                WRONG_LENGTH,
                WRONG_KIND,
                BUSY,
                FIRST_HALF,
                NO_CELL,
                STALE,
                CROSSED,
            ],
            Function::Picture => &[DONE, UNSOUND, WRONG_LENGTH, OUT_OF_RANGE, TOO_SHORT],
            Function::Plan => &[DONE, WRONG_LENGTH, TOO_SHORT, NOT_A_WISH],
            Function::WriteLine => &[DONE, WRONG_KIND, TOO_SHORT],
            Function::ReadLine => &[DONE, TOO_SHORT, BAD_KIND, BAD_BYTE, BAD_WAIT, NO_NEWLINE],
        }
    }

    fn buffers(self) -> &'static [&'static str] {
        match self {
            Function::Reset | Function::Transfer => &["record", "memory"],
            Function::Picture => &["record", "memory", "out"],
            Function::Plan => &["wish", "marks", "values", "out"],
            Function::WriteLine => &["out"],
            Function::ReadLine => &["text", "out"],
        }
    }

    fn numbers(self) -> &'static [&'static str] {
        match self {
            Function::Transfer | Function::WriteLine => &["kind", "byte", "wait"],
            Function::Picture => &["profile", "columns", "lines", "lit"],
            Function::Reset | Function::Plan | Function::ReadLine => &[],
        }
    }
}

/// A call: the bytes that are lent and the numbers that are given, in the order of
/// `Function::buffers` and `Function::numbers`. Numbers that are not used are 0.
#[derive(Clone, Debug, PartialEq, Eq)]
pub struct Case {
    pub function: Function,
    pub buffers: Vec<Vec<u8>>,
    pub numbers: [u32; 4],
}

/// What a call can be made of that a comparison must not miss.
#[derive(Clone, Copy, Debug, PartialEq, Eq, PartialOrd, Ord)]
pub enum Met {
    Frequency(u16),
    Profile(u8),
}

/// What a call returned, and all the bytes that it was lent as it left them.
#[derive(Clone, Debug, PartialEq, Eq)]
pub struct Outcome {
    pub returned: u32,
    pub buffers: Vec<Vec<u8>>,
}

impl Case {
    pub fn run(&self, calls: &impl Calls) -> Outcome {
        let [one, two, three, four] = self.numbers.map(|number| number as u8);
        let wait = self.numbers[2];
        let mut buffers = self.buffers.clone();
        let returned = match (self.function, &mut buffers[..]) {
            (Function::Reset, [record, memory]) => calls.reset(record, memory),
            (Function::Transfer, [record, memory]) => {
                calls.transfer(record, memory, one, two, wait)
            }
            (Function::Picture, [record, memory, out]) => {
                let panel = Panel {
                    profile: one,
                    size: Size::new(two, three),
                };
                calls.picture(record, memory, panel, four, out)
            }
            (Function::Plan, [wish, marks, values, out]) => calls.plan(wish, marks, values, out),
            (Function::WriteLine, [out]) => calls.write_line(one, two, wait, out),
            (Function::ReadLine, [text, out]) => calls.read_line(text, out),
            _ => panic!("{} with {} buffers", self.function.name(), buffers.len()),
        };
        Outcome { returned, buffers }
    }

    /// The frequency in the record or the wish that is lent, and the profile, if it has them.
    pub fn meets(&self) -> impl Iterator<Item = Met> {
        let is_picture = self.function == Function::Picture;
        let profile = is_picture.then_some(self.numbers[0] as u8);
        let frequency = self.frequency().map(Met::Frequency);
        frequency.into_iter().chain(profile.map(Met::Profile))
    }

    fn frequency(&self) -> Option<u16> {
        let first = self.buffers.first()?;
        match (self.function.buffers()[0], first.len()) {
            ("record", RECORD_BYTES) => Some(frequency_of(&first[FREQUENCY_AT])),
            ("wish", WISH_BYTES) => Some(frequency_of(&first[WISH_FREQUENCY_AT])),
            _ => None,
        }
    }

    /// The simplest call found that still shows what `shows` asks for: first with less
    /// lent, then with bytes turned to zero, then with smaller numbers.
    pub fn shrunk(&self, shows: impl Fn(&Case) -> bool) -> Case {
        let mut case = self.clone();
        loop {
            let before = case.clone();
            for which in 0..case.buffers.len() {
                case.shorten(which, &shows);
                case.blank(which, &shows);
            }
            for which in 0..case.numbers.len() {
                case.lower(which, &shows);
            }
            if case == before {
                return case;
            }
        }
    }

    /// Takes the change if it still shows the difference.
    fn change(&mut self, shows: &impl Fn(&Case) -> bool, change: impl Fn(&mut Case)) -> bool {
        let mut changed = self.clone();
        change(&mut changed);
        let take = changed != *self && shows(&changed);
        if take {
            *self = changed;
        }
        take
    }

    /// Cuts bytes off the end of a buffer, many at a time and then one by one.
    fn shorten(&mut self, which: usize, shows: &impl Fn(&Case) -> bool) {
        let mut size = self.buffers[which].len();
        while size > 0 {
            let length = self.buffers[which].len().saturating_sub(size);
            if !self.change(shows, |case| case.buffers[which].truncate(length)) {
                size /= 2;
            }
        }
    }

    /// Turns bytes of a buffer to zero, many at a time and then one by one.
    fn blank(&mut self, which: usize, shows: &impl Fn(&Case) -> bool) {
        let length = self.buffers[which].len();
        let mut size = length;
        while size > 0 {
            for from in (0..length).step_by(size) {
                let to = (from + size).min(length);
                self.change(shows, |case| case.buffers[which][from..to].fill(0));
            }
            size /= 2;
        }
    }

    fn lower(&mut self, which: usize, shows: &impl Fn(&Case) -> bool) {
        let mut size = self.numbers[which];
        while size > 0 {
            let number = self.numbers[which].saturating_sub(size);
            if !self.change(shows, |case| case.numbers[which] = number) {
                size /= 2;
            }
        }
    }
}

// ---------------------------------------------------------------------------
// Shown
// ---------------------------------------------------------------------------

const RECORD_FIELDS: [&str; 15] = [
    "width", "N", "F", "D", "C", "B", "I/D", "S", "shift", "memory", "cell", "register", "fresh",
    "half", "value",
];

const WISH_FIELDS: [&str; 9] = ["N", "F", "D", "C", "B", "I/D", "S", "shift", "cursor"];

/// The named bytes as `name=number`.
fn fields(names: &[&str], bytes: &[u8]) -> String {
    let named: Vec<String> = names
        .iter()
        .zip(bytes)
        .map(|(name, byte)| format!("{name}={byte}"))
        .collect();
    named.join(" ")
}

fn record_shown(bytes: &[u8]) -> String {
    let named = fields(&RECORD_FIELDS, bytes);
    let busy = little_endian(&bytes[BUSY_AT]);
    let frequency = frequency_of(&bytes[FREQUENCY_AT]);
    let zeros = (
        hex(&bytes[RECORD_FIELDS.len()..BUSY_AT.start]),
        hex(&bytes[FREQUENCY_AT.end..]),
    );
    let (first, last) = zeros;
    format!("{named} busy={busy} kHz={frequency} zeros {first} and {last}")
}

fn wish_shown(bytes: &[u8]) -> String {
    format!(
        "{} kHz={} zeros {}",
        fields(&WISH_FIELDS, bytes),
        frequency_of(&bytes[WISH_FREQUENCY_AT]),
        hex(&bytes[WISH_ZEROS])
    )
}

/// Bytes in hex; equal ones in a row are counted.
fn hex(bytes: &[u8]) -> String {
    let runs: Vec<String> = bytes
        .chunk_by(|one, next| one == next)
        .map(|run| match run.len() {
            1 => format!("{:02X}", run[0]),
            times => format!("{:02X}x{times}", run[0]),
        })
        .collect();
    runs.join(" ")
}

pub fn shown(name: &str, bytes: &[u8]) -> String {
    let content = match (name, bytes.len()) {
        ("record", RECORD_BYTES) => record_shown(bytes),
        ("wish", WISH_BYTES) => wish_shown(bytes),
        ("text", _) => format!("\"{}\"", bytes.escape_ascii()),
        _ => hex(bytes),
    };
    format!("{name} ({} bytes): {content}", bytes.len())
}

impl Display for Case {
    fn fmt(&self, to: &mut Formatter) -> fmt::Result {
        write!(to, "{}", self.function.name())?;
        for (name, number) in self.function.numbers().iter().zip(self.numbers) {
            write!(to, " {name} {number} ({number:02X}h)")?;
        }
        for (name, bytes) in self.function.buffers().iter().zip(&self.buffers) {
            write!(to, "\n  {}", shown(name, bytes))?;
        }
        Ok(())
    }
}

impl Outcome {
    fn returned_shown(&self, function: Function) -> String {
        let (answer, value) = (answer_of(self.returned), value_of(self.returned));
        match function {
            Function::ReadLine => {
                let (length, offset) = place_of(self.returned);
                format!("answer {answer}, length {length}, offset {offset}")
            }
            _ => format!("answer {answer}, value {value} ({value:02X}h)"),
        }
    }

    /// What it returned, and what it left otherwise than the other outcome: a record
    /// whole, and of other bytes those that differ.
    pub fn beside(&self, other: &Outcome, function: Function) -> String {
        let mut text = self.returned_shown(function);
        let buffers = self.buffers.iter().zip(&other.buffers);
        for (&name, (mine, theirs)) in function.buffers().iter().zip(buffers) {
            match name {
                _ if mine == theirs => {}
                "record" => text.push_str(&format!("\n  {}", shown(name, mine))),
                _ => text.push_str(&format!("\n  {name}{}", differing(mine, theirs))),
            }
        }
        text
    }
}

/// The first bytes of `mine` that are not those of `theirs`, each after its place.
fn differing(mine: &[u8], theirs: &[u8]) -> String {
    const MOST: usize = 24;
    let bytes = mine.iter().zip(theirs).enumerate();
    bytes
        .filter(|(_, (mine, theirs))| mine != theirs)
        .take(MOST)
        .map(|(at, (mine, _))| format!(" [{at}]={mine:02X}"))
        .collect()
}
