//! The seven calls of `include/yaropesk.h` over bytes, and the model behind them.
//!
//! Written from the header, the documents and `model` alone.

use crate::bytes::{frequency_of, record_bytes, record_of, wish_of};
use crate::bytes::{FREQUENCY_AT, RECORD_BYTES};
use crate::font::SHAPES;
use crate::model::{self, Answer, Importer, Line, Panel, Reader, Record, Step, Wish};
use crate::model::{FONT, TRANSFER_BYTES, USUAL_KHZ};

/// The seven calls. Each returns the answer's number plus 256 times a byte, a count or
/// a length; that of `read_line` plus 65,536 times an offset.
pub trait Calls {
    fn reset(&self, record: &mut [u8], memory: &mut [u8]) -> u32;
    fn transfer(&self, record: &mut [u8], memory: &mut [u8], kind: u8, byte: u8, wait: u32) -> u32;
    fn picture(&self, record: &[u8], memory: &[u8], panel: Panel, lit: u8, out: &mut [u8]) -> u32;
    fn plan(&self, wish: &[u8], marks: &[u8], values: &[u8], out: &mut [u8]) -> u32;
    fn write_line(&self, kind: u8, byte: u8, wait: u32, out: &mut [u8]) -> u32;
    fn read_line(&self, text: &[u8], out: &mut [u8]) -> u32;
    fn import(&self, capture: &[u8], out: &mut [u8]) -> u64;
}

/// What a call returns: "answer + 256 x byte", count or length.
pub fn returned(answer: Answer, value: usize) -> u32 {
    returned_wide(answer, value) as u32
}

/// The same in 64 bits, for a length that has no bound.
pub fn returned_wide(answer: Answer, value: usize) -> u64 {
    u64::from(answer) + 256 * value as u64
}

pub fn answer_of(returned: impl Into<u64>) -> Answer {
    returned.into() as Answer
}

pub fn value_of(returned: impl Into<u64>) -> usize {
    (returned.into() / 256) as usize
}

/// What the reader returns: answer + 256 x length + 65,536 x offset. Neither length nor
/// offset is above 16.
pub fn returned_line(answer: Answer, line: &Line) -> u32 {
    returned(answer, line.length + 256 * line.offset)
}

/// The length and the offset in what the reader returns.
pub fn place_of(returned: u32) -> (usize, usize) {
    let value = value_of(returned);
    (value % 256, value / 256)
}

// ---------------------------------------------------------------------------
// The model behind the calls
// ---------------------------------------------------------------------------

/// Functions with the shapes of `record_of`, `wish_of` and `line_call` and of the model's;
/// `Step`, `Reader` and `Importer` are the model's own names for three of them.
pub type RecordReader = fn(&[u8]) -> Option<Record>;
pub type WishReader = fn(&[u8]) -> Option<Wish>;
pub type LineCall = fn(Reader, &[u8], &mut [u8]) -> u32;
pub type Resetter = fn(Record, &mut [u8]) -> (Answer, Record);
pub type Painter = fn(&Record, &[u8], Panel, bool, &mut [u8], &[u8; FONT]) -> Answer;
pub type Planner = fn(&Wish, &[u8], &[u8], &mut [u8]) -> (Answer, usize);
pub type Writer = fn(u8, u8, u32, &mut [u8]) -> (Answer, usize);

/// The functions of the model, the readings of a record's and a wish's bytes, and the call
/// that reads a line. A wrong model is this one with a wrong function in it.
#[derive(Clone, Copy)]
pub struct Model {
    pub record_of: RecordReader,
    pub wish_of: WishReader,
    pub reset: Resetter,
    pub transfer: Step,
    pub picture: Painter,
    pub plan: Planner,
    pub write_line: Writer,
    pub read_line: Reader,
    pub line_call: LineCall,
    pub import: Importer,
}

/// The model as it stands.
pub const MODEL: Model = Model {
    record_of,
    wish_of,
    reset: model::reset,
    transfer: model::transfer,
    picture: model::picture,
    plan: model::plan,
    write_line: model::write_line,
    read_line: model::read_line,
    line_call,
    import: model::import,
};

impl Calls for Model {
    /// "any 24 bytes will do for the record. Returns the answer: 0, 1 for a record that
    /// is not 24 bytes, or 2." Of these bytes the frequency alone is looked at.
    #[inline]
    fn reset(&self, record: &mut [u8], memory: &mut [u8]) -> u32 {
        if record.len() != RECORD_BYTES {
            return returned(model::UNSOUND, 0);
        }
        let found = Record {
            frequency: frequency_of(&record[FREQUENCY_AT]),
            ..model::record_after_reset(USUAL_KHZ)
        };
        let (answer, new) = (self.reset)(found, memory);
        if answer == model::DONE {
            record.copy_from_slice(&record_bytes(&new));
        }
        returned(answer, 0)
    }

    #[inline]
    fn transfer(&self, record: &mut [u8], memory: &mut [u8], kind: u8, byte: u8, wait: u32) -> u32 {
        let Some(found) = (self.record_of)(record) else {
            return returned(model::UNSOUND, 0);
        };
        let (answer, byte, new) = (self.transfer)(found, memory, kind, byte, wait);
        record.copy_from_slice(&record_bytes(&new));
        returned(answer, byte.into())
    }

    /// "lit: the phase of the blinking, 0 dark, any other lit."
    #[inline]
    fn picture(&self, record: &[u8], memory: &[u8], panel: Panel, lit: u8, out: &mut [u8]) -> u32 {
        let Some(found) = (self.record_of)(record) else {
            return returned(model::UNSOUND, 0);
        };
        let answer = (self.picture)(&found, memory, panel, lit != 0, out, &SHAPES);
        returned(answer, 0)
    }

    /// "Plan: 2, 13, 11": bytes that are no wish are answered 13, after the lengths.
    #[inline]
    fn plan(&self, wish: &[u8], marks: &[u8], values: &[u8], out: &mut [u8]) -> u32 {
        if marks.len() != model::MEMORY || values.len() != model::MEMORY {
            return returned(model::WRONG_LENGTH, 0);
        }
        let Some(wish) = (self.wish_of)(wish) else {
            return returned(model::NOT_A_WISH, 0);
        };
        let (answer, count) = (self.plan)(&wish, marks, values, out);
        returned(answer, count)
    }

    #[inline]
    fn write_line(&self, kind: u8, byte: u8, wait: u32, out: &mut [u8]) -> u32 {
        let (answer, length) = (self.write_line)(kind, byte, wait, out);
        returned(answer, length)
    }

    #[inline]
    fn read_line(&self, text: &[u8], out: &mut [u8]) -> u32 {
        (self.line_call)(self.read_line, text, out)
    }

    #[inline]
    fn import(&self, capture: &[u8], out: &mut [u8]) -> u64 {
        let (answer, length) = (self.import)(capture, out);
        returned_wide(answer, length)
    }
}

/// The line at the start of a text "as a transfer of six bytes into an output of at least
/// six": 16 to 19, then 11.
#[inline]
pub fn line_call(read: Reader, text: &[u8], out: &mut [u8]) -> u32 {
    let (answer, line) = read(text);
    if answer != model::DONE {
        return returned_line(answer, &line);
    }
    if out.len() < TRANSFER_BYTES {
        return returned(model::TOO_SHORT, 0);
    }
    let transfer = model::transfer_bytes((line.kind, line.byte, line.wait));
    out[..TRANSFER_BYTES].copy_from_slice(&transfer);
    returned_line(answer, &line)
}
