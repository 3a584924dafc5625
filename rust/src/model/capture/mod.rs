//! Document 02, request b, "Captures from the logic pod": a capture becomes a session text.
//!
//! Sentences in quotation marks are those of the request; after "Reading:" they are those
//! of a reading of it, where its words are silent or can be taken in two ways.
//!
//! A text is read in four steps, each of them in the order of the text: its words
//! (`words.rs`), what they declare and tell (`sections.rs`), the levels at each stamp
//! (`moments.rs`), the transfers (`falls.rs`). `made.rs` goes the other way.

mod falls;
mod made;
mod moments;
mod sections;
mod words;

pub use falls::{byte_on, falls, transfers};
pub use made::capture_of;
pub use moments::{moments, Levels, Moment};
pub use sections::{declares_codes, declares_once, read, SCOPES, TYPES};
pub use sections::{Event, Recording, Variable};
pub use words::{is_blank, words};

use super::lines::line_bytes;
use super::{Answer, Transfer};
use super::{DONE, OUTSIDE_SUBSET, SIGNAL_MISSING, TOO_SHORT, UNKNOWN_LEVEL};

/// "scalar signals named RS, RW, E and DB0 to DB7".
pub const SIGNALS: [&[u8]; 11] = [
    b"RS", b"RW", b"E", b"DB0", b"DB1", b"DB2", b"DB3", b"DB4", b"DB5", b"DB6", b"DB7",
];
/// Their places in that list; DB0 to DB7 are the rest of it.
pub const RS: usize = 0;
pub const RW: usize = 1;
pub const E: usize = 2;
pub const DB0: usize = 3;

/// A function with the shape of `import`.
pub type Importer = fn(&[u8], &mut [u8]) -> (Answer, usize);

/// The steps of an import, so that a deliberately wrong one can be put in.
#[derive(Clone, Copy)]
pub struct Steps {
    pub read: fn(&[u8]) -> Option<Recording<'_>>,
    pub declares_once: fn(&Recording) -> bool,
    pub declares_codes: fn(&Recording) -> bool,
    pub moments: fn(&Recording) -> Vec<Moment>,
    pub transfers: fn(&[Moment]) -> Option<Vec<Transfer>>,
}

/// The steps as they should be.
pub const STEPS: Steps = Steps {
    read,
    declares_once,
    declares_codes,
    moments,
    transfers,
};

/// The session text of a capture: answer and length. "Field staff bring a capture instead
/// of a session."
pub fn import(capture: &[u8], out: &mut [u8]) -> (Answer, usize) {
    import_with(&STEPS, capture, out)
}

/// The same with steps of the caller's. "Refusals: 14 ..., 15 ..., 28 ..., in that order
/// over the whole text, then 11." "All but 0, 5, 7 and 8 are refusals"; "A refusal returns
/// ... length 0", and the output stays.
pub fn import_with(steps: &Steps, capture: &[u8], out: &mut [u8]) -> (Answer, usize) {
    let Some(recording) = (steps.read)(capture) else {
        return (OUTSIDE_SUBSET, 0);
    };
    // "14 text outside the subset (a needed name twice or an undeclared code too)"
    if !(steps.declares_once)(&recording) || !(steps.declares_codes)(&recording) {
        return (OUTSIDE_SUBSET, 0);
    }
    // "15 needed signal missing"
    if !declares_signals(&recording) {
        return (SIGNAL_MISSING, 0);
    }
    // "28 x or z on a needed line at a fall (DB lines only for writes)"
    let Some(transfers) = (steps.transfers)(&(steps.moments)(&recording)) else {
        return (UNKNOWN_LEVEL, 0);
    };
    put(&session_text(&transfers), out)
}

/// Each of the eleven is declared.
fn declares_signals(recording: &Recording) -> bool {
    SIGNALS.iter().all(|&signal| recording.declares(signal))
}

/// Each transfer is "written as a session line".
pub fn session_text(transfers: &[Transfer]) -> Vec<u8> {
    transfers
        .iter()
        .flat_map(|&(kind, byte, wait)| line_bytes(kind, byte, wait))
        .collect()
}

/// "then 11". Reading: "11 is a buffer shorter than the session text that would be
/// written." "Output bytes past those written stay."
fn put(text: &[u8], out: &mut [u8]) -> (Answer, usize) {
    if out.len() < text.len() {
        return (TOO_SHORT, 0);
    }
    out[..text.len()].copy_from_slice(text);
    (DONE, text.len())
}
