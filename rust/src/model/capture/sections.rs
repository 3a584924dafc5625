//! What the words of a capture declare and tell: "a subset of Value Change Dump text (IEEE
//! 1364)". `None` is a text outside the subset.

use std::collections::HashSet;
use std::vec::IntoIter;

use super::{words, SIGNALS};

/// A name with its code. Reading: "One code may serve several names."
#[derive(Clone, Copy, Debug, PartialEq, Eq)]
pub struct Variable<'a> {
    pub code: &'a [u8],
    pub name: &'a [u8],
}

/// "then stamps and scalar changes": a change has the new level, none for x or z, and the
/// code.
#[derive(Clone, Copy, Debug, PartialEq, Eq)]
pub enum Event<'a> {
    Stamp(u32),
    Change(Option<bool>, &'a [u8]),
}

/// A capture that has been read.
#[derive(Clone, Debug, PartialEq, Eq)]
pub struct Recording<'a> {
    pub variables: Vec<Variable<'a>>,
    pub events: Vec<Event<'a>>,
}

impl Recording<'_> {
    /// How often the name is declared. Reading: "Names are compared exactly."
    fn times(&self, name: &[u8]) -> usize {
        let named = self.variables.iter().filter(|each| each.name == name);
        named.count()
    }

    pub fn declares(&self, name: &[u8]) -> bool {
        self.times(name) > 0
    }
}

/// "scalar signals named RS, RW, E and DB0 to DB7, each declared once": none of them is
/// declared twice.
pub fn declares_once(recording: &Recording) -> bool {
    SIGNALS.iter().all(|&signal| recording.times(signal) <= 1)
}

/// No change has "an undeclared code". A word of a value alone has the empty code, which
/// no section declares.
pub fn declares_codes(recording: &Recording) -> bool {
    let codes: HashSet<&[u8]> = recording.variables.iter().map(|each| each.code).collect();
    recording.events.iter().all(|event| match event {
        Event::Stamp(_) => true,
        Event::Change(_, code) => codes.contains(code),
    })
}

/// The words that are still to be read.
type Words<'a> = IntoIter<&'a [u8]>;

/// "The subset has the sections timescale, scope, var, upscope, enddefinitions and
/// dumpvars, then stamps and scalar changes." Reading: "`$date`, `$version`, `$comment`,
/// `$dumpall`, `$dumpon`, `$dumpoff`, vector and real changes are 14: outside the subset."
pub fn read(text: &[u8]) -> Option<Recording<'_>> {
    let mut words = words(text)?.into_iter();
    let variables = definitions(&mut words)?;
    let events = events(words)?;
    Some(Recording { variables, events })
}

/// Reading: "`$timescale 1 us` or `1us`, exactly once, and `$enddefinitions` exactly once,
/// before any stamp or change. So the empty text is 14. Sections before it stand in any
/// order; `$scope` and `$upscope` are not balanced against each other."
fn definitions<'a>(words: &mut Words<'a>) -> Option<Vec<Variable<'a>>> {
    let mut timescales = 0;
    let mut variables = Vec::new();
    loop {
        let keyword = words.next()?;
        let inside = section(words)?;
        match (keyword, &inside[..]) {
            // "timescale 1 us"
            (b"$timescale", [b"1", b"us"] | [b"1us"]) => timescales += 1,
            (b"$scope", [kind, _name]) if is_scope(kind) => {}
            (b"$upscope", []) => {}
            // Reading: "`$var` has exactly type, size `1`, code and name before its `$end`".
            (b"$var", &[kind, b"1", code, name]) if is_type(kind) => {
                variables.push(Variable { code, name });
            }
            (b"$enddefinitions", []) => break,
            _ => return None,
        }
    }
    (timescales == 1).then_some(variables)
}

/// The words up to the next `$end`, which is the section's.
fn section<'a>(words: &mut Words<'a>) -> Option<Vec<&'a [u8]>> {
    let mut inside = Vec::new();
    loop {
        match words.next()? {
            b"$end" => return Some(inside),
            word => inside.push(word),
        }
    }
}

/// Reading: "`$scope` has a kind (module, task, function, begin, fork) and a name."
fn is_scope(kind: &[u8]) -> bool {
    is_among(kind, SCOPES)
}

/// Reading: "the types are event, integer, parameter, reg, supply0, supply1, time, tri,
/// triand, trior, trireg, tri0, tri1, wand, wire and wor; any other type or size and a bit
/// select are 14."
fn is_type(kind: &[u8]) -> bool {
    is_among(kind, TYPES)
}

/// The two lists, parted by blanks.
pub const SCOPES: &str = "module task function begin fork";
pub const TYPES: &str = "event integer parameter reg supply0 supply1 time tri triand trior \
                         trireg tri0 tri1 wand wire wor";

fn is_among(word: &[u8], list: &str) -> bool {
    list.split(' ').any(|each| each.as_bytes() == word)
}

/// What follows the definitions. Reading: "`$dumpvars … $end` may stand anywhere after the
/// definitions, also after a stamp, and more than once. A stamp or a section inside
/// `$dumpvars`, a `$dumpvars` without its `$end` and a stray `$end` are 14."
fn events(words: Words) -> Option<Vec<Event>> {
    let mut events = Vec::new();
    let mut dumping = false;
    for word in words {
        match word {
            b"$dumpvars" if !dumping => dumping = true,
            b"$end" if dumping => dumping = false,
            [b'#', digits @ ..] if !dumping => events.push(Event::Stamp(stamp(digits)?)),
            // Every other word must be a change: no value is `$` or `#`.
            [value, code @ ..] => events.push(Event::Change(level(*value)?, code)),
            [] => return None,
        }
    }
    (!dumping).then_some(events)
}

/// Reading: "A stamp is `#` and decimal digits, leading zeros allowed, at most
/// 4,294,967,295; more is 14."
fn stamp(digits: &[u8]) -> Option<u32> {
    if digits.is_empty() || !digits.iter().all(u8::is_ascii_digit) {
        return None;
    }
    digits.iter().try_fold(0u32, |number, digit| {
        number.checked_mul(10)?.checked_add(u32::from(digit - b'0'))
    })
}

/// Reading: "Values are 0, 1, x, X, z, Z."
fn level(value: u8) -> Option<Option<bool>> {
    match value {
        b'0' => Some(Some(false)),
        b'1' => Some(Some(true)),
        b'x' | b'X' | b'z' | b'Z' => Some(None),
        _ => None,
    }
}
