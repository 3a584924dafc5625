//! Document 01, "The controller's record and memory".

use super::oscillator::frequency_after_reset;
use super::{Answer, DONE, FREQUENCIES, WRONG_LENGTH};

/// "Memory is lent, 144 bytes: display cells 0 to 79, then pattern cells 0 to 63."
pub const MEMORY: usize = 144;
pub const DISPLAY_CELLS: u8 = 80;
pub const PATTERN_CELLS: u8 = 64;

/// "busy time left, 0 to 10,000".
pub const LONGEST_BUSY: u32 = 10_000;

/// "the counter: a display cell 0 to 79 or a pattern cell 0 to 63". "The counter
/// is kept as a cell, so changing N moves nothing."
#[derive(Clone, Copy, Debug, PartialEq, Eq)]
pub enum Counter {
    Display(u8),
    Pattern(u8),
}

/// "the half transfer waiting: none, or an instruction write or data write with
/// its high four bits, or a status read or data read with its whole byte."
#[derive(Clone, Copy, Debug, PartialEq, Eq)]
pub enum Half {
    None,
    InstructionWrite(u8),
    DataWrite(u8),
    StatusRead(u8),
    DataRead(u8),
}

/// "The record holds: width (8 or 4), N, F, D, C, B, I/D, S, and shift 0 to 79; the
/// counter; the data register, one byte, fresh or stale; busy time left, 0 to 10,000; the
/// half transfer waiting". Document 02, d: "Let the record and the wish carry a frequency".
#[derive(Clone, Copy, Debug, PartialEq, Eq)]
pub struct Record {
    pub width: u8,
    pub n: bool,
    pub f: bool,
    pub d: bool,
    pub c: bool,
    pub b: bool,
    pub id: bool,
    pub s: bool,
    pub shift: u8,
    pub counter: Counter,
    pub register: u8,
    pub fresh: bool,
    pub half: Half,
    pub busy: u32,
    /// In kHz.
    pub frequency: u16,
}

/// "A record that breaks any of this is unsound."
pub fn is_sound(rec: &Record) -> bool {
    let width = rec.width == 8 || rec.width == 4;
    let shift = rec.shift < DISPLAY_CELLS;
    let counter = match rec.counter {
        Counter::Display(cell) => cell < DISPLAY_CELLS,
        Counter::Pattern(cell) => cell < PATTERN_CELLS,
    };
    let busy = rec.busy <= LONGEST_BUSY;
    // "A half waits only at width 4; unless it is a status read, busy is 0."
    // Readings 1 and 2: a write half holds four bits, a read half any byte.
    let half = match rec.half {
        Half::None => true,
        Half::InstructionWrite(high) | Half::DataWrite(high) => {
            rec.width == 4 && rec.busy == 0 && high <= 0x0F
        }
        Half::StatusRead(_) => rec.width == 4,
        Half::DataRead(_) => rec.width == 4 && rec.busy == 0,
    };
    // Document 02, d: "a record outside the range is 1".
    let frequency = FREQUENCIES.contains(&rec.frequency);
    width && shift && counter && busy && half && frequency
}

/// "width 8, N=F=D=C=B=S=0, I/D=1, shift 0, counter display cell 0, register 00h
/// stale, no half, busy 10,000." The frequency is made of the one that was found; "the four
/// opening waits and the reset time stay", so that busy does not follow it.
pub fn record_after_reset(found: u16) -> Record {
    Record {
        width: 8,
        n: false,
        f: false,
        d: false,
        c: false,
        b: false,
        id: true,
        s: false,
        shift: 0,
        counter: Counter::Display(0),
        register: 0x00,
        fresh: false,
        half: Half::None,
        busy: 10_000,
        frequency: frequency_after_reset(found),
    }
}

/// "Reset: display cells 20h, pattern cells untouched", and the record above.
/// "Reset: 2"; "a refused reset returns the record it was given". Reading 8: the
/// record is not looked at, but for its frequency.
pub fn reset(rec: Record, mem: &mut [u8]) -> (Answer, Record) {
    if mem.len() != MEMORY {
        return (WRONG_LENGTH, rec);
    }
    blank_display(mem);
    (DONE, record_after_reset(rec.frequency))
}

pub(super) fn blank_display(mem: &mut [u8]) {
    for byte in &mut mem[..DISPLAY_CELLS as usize] {
        *byte = 0x20;
    }
}

/// Where the counter's cell lies in the memory.
pub fn place(counter: Counter) -> usize {
    match counter {
        Counter::Display(cell) => cell as usize,
        Counter::Pattern(cell) => DISPLAY_CELLS as usize + cell as usize,
    }
}

/// The address of the counter's cell: "A display address (ADD) is never read as a
/// pattern address (ACG), though both are small numbers."
pub fn address(n: bool, counter: Counter) -> u8 {
    match counter {
        Counter::Display(cell) => display_address(n, cell),
        Counter::Pattern(cell) => cell,
    }
}

/// "N=0: cell c has address c, 00h to 4Fh. N=1: cells 0 to 39 are 00h to 27h,
/// cells 40 to 79 are 40h to 67h (cell + 24)."
fn display_address(n: bool, cell: u8) -> u8 {
    if n && cell >= 40 {
        cell + 24
    } else {
        cell
    }
}

/// The same the other way round; an address may have no cell.
pub(super) fn display_cell(n: bool, address: u8) -> Option<u8> {
    match (n, address) {
        (false, 0x00..=0x4F) => Some(address),
        (true, 0x00..=0x27) => Some(address),
        (true, 0x40..=0x67) => Some(address - 24),
        _ => None,
    }
}

/// One step to the right (up) or to the left, "wrapping within its memory".
pub(super) fn step(number: u8, up: bool, size: u8) -> u8 {
    if up {
        if number + 1 == size {
            0
        } else {
            number + 1
        }
    } else if number == 0 {
        size - 1
    } else {
        number - 1
    }
}

/// "counter +1 or -1 by I/D with wrap (80 or 64)".
pub(super) fn step_counter(counter: Counter, up: bool) -> Counter {
    match counter {
        Counter::Display(cell) => Counter::Display(step(cell, up, DISPLAY_CELLS)),
        Counter::Pattern(cell) => Counter::Pattern(step(cell, up, PATTERN_CELLS)),
    }
}
