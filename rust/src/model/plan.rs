//! Document 01, "The plan".

use super::record::{address, place};
use super::transfer::time_of;
use super::{line_length, time_at, Counter, Transfer, DISPLAY_CELLS, MEMORY, PATTERN_CELLS};
use super::{Answer, DONE, FREQUENCIES, NOT_A_WISH, TOO_SHORT, WRONG_LENGTH};
use super::{DATA_WRITE, INSTRUCTION_WRITE, SHORT_TIME, USUAL_KHZ};

/// "the buffer must have 2,808 bytes".
pub const PLAN_BYTES: usize = 2_808;
/// "Records are six bytes: kind, byte, wait little-endian."
pub const TRANSFER_BYTES: usize = 6;

pub fn transfer_bytes((kind, byte, wait): Transfer) -> [u8; TRANSFER_BYTES] {
    let wait = wait.to_le_bytes();
    [kind, byte, wait[0], wait[1], wait[2], wait[3]]
}

/// The transfers in so many bytes of a plan.
pub fn transfers_of(bytes: &[u8]) -> Vec<Transfer> {
    bytes
        .chunks_exact(TRANSFER_BYTES)
        .map(|six| (six[0], six[1], little_endian(&six[2..])))
        .collect()
}

/// The number in four bytes.
pub fn little_endian(bytes: &[u8]) -> u32 {
    u32::from_le_bytes([bytes[0], bytes[1], bytes[2], bytes[3]])
}

/// "A wish: N, F, D, C, B, I/D, S; shift (below L); cursor display cell 0 to 79";
/// the marks and values come beside it. Document 02, d: "Let the record and the wish carry a
/// frequency".
#[derive(Clone, Copy, Debug, PartialEq, Eq)]
pub struct Wish {
    pub n: bool,
    pub f: bool,
    pub d: bool,
    pub c: bool,
    pub b: bool,
    pub id: bool,
    pub s: bool,
    pub shift: u8,
    pub cursor: u8,
    /// In kHz.
    pub frequency: u16,
}

/// Every bit 0, no shift, the cursor on cell 0, and the usual frequency.
impl Default for Wish {
    fn default() -> Wish {
        Wish {
            n: false,
            f: false,
            d: false,
            c: false,
            b: false,
            id: false,
            s: false,
            shift: 0,
            cursor: 0,
            frequency: USUAL_KHZ,
        }
    }
}

/// "N=F=1, a shift or cursor out of range, or a mark above 1 is not a wish, and
/// nothing else is not." Document 02, d: "a wish outside it is 13", the frequency's range.
fn is_wish(wish: &Wish, marks: &[u8]) -> bool {
    !(wish.n && wish.f)
        && wish.shift < line_length(wish.n)
        && wish.cursor < DISPLAY_CELLS
        && FREQUENCIES.contains(&wish.frequency)
        && marks.iter().all(|&mark| mark <= 1)
}

/// The records of a plan as they are gathered.
struct Records {
    bytes: Vec<u8>,
    /// The time of the previous instruction, which the next first half waits for.
    pending: u32,
    /// That of the wish: "The plan's waits follow".
    frequency: u16,
}

impl Records {
    fn single(&mut self, kind: u8, byte: u8, wait: u32) {
        self.bytes.extend(transfer_bytes((kind, byte, wait)));
    }

    /// "First halves wait for the previous instruction's time (100 after item 1),
    /// second halves 1." The time is that at 250 kHz. Reading 29: neither the 100 nor the 1
    /// follows the frequency.
    fn halves(&mut self, kind: u8, byte: u8, time: u32) {
        self.single(kind, byte & 0xF0, self.pending);
        self.single(kind, byte << 4, 1);
        self.pending = time_at(self.frequency, time);
    }

    fn instruction(&mut self, byte: u8) {
        self.halves(INSTRUCTION_WRITE, byte, time_of(byte));
    }

    /// The instruction that sets the counter: "40h-7Fh, 80h-FFh: pattern or display
    /// address".
    fn address_set(&mut self, n: bool, counter: Counter) {
        let class = match counter {
            Counter::Display(_) => 0x80,
            Counter::Pattern(_) => 0x40,
        };
        self.instruction(class | address(n, counter));
    }

    fn data(&mut self, byte: u8) {
        self.halves(DATA_WRITE, byte, SHORT_TIME);
    }
}

fn bit(value: bool, number: u8) -> u8 {
    if value {
        1 << number
    } else {
        0
    }
}

/// The transfers for a wish: answer and count of records. "Plan: 2, 13, 11."
pub fn plan(wish: &Wish, marks: &[u8], values: &[u8], out: &mut [u8]) -> (Answer, usize) {
    if marks.len() != MEMORY || values.len() != MEMORY {
        return (WRONG_LENGTH, 0);
    }
    if !is_wish(wish, marks) {
        return (NOT_A_WISH, 0);
    }
    // Reading 11: always 2,808, however little is written.
    if out.len() < PLAN_BYTES {
        return (TOO_SHORT, 0);
    }
    let mut records = Records {
        bytes: Vec::new(),
        pending: 100,
        frequency: wish.frequency,
    };
    plan_opening(&mut records, wish);
    plan_cells(&mut records, wish, marks, values);
    plan_ending(&mut records, wish);

    // "At most 468 records; ... those past the last record stay. The count of
    // records is returned."
    out[..records.bytes.len()].copy_from_slice(&records.bytes);
    (DONE, records.bytes.len() / TRANSFER_BYTES)
}

fn plan_opening(records: &mut Records, wish: &Wish) {
    // "1. Instruction bytes 30h, 30h, 30h, 20h, single transfers, waits 15,000,
    // 4,100, 100, 100." Document 02, d: "the four opening waits and the reset time stay."
    records.single(INSTRUCTION_WRITE, 0x30, 15_000);
    records.single(INSTRUCTION_WRITE, 0x30, 4_100);
    records.single(INSTRUCTION_WRITE, 0x30, 100);
    records.single(INSTRUCTION_WRITE, 0x20, 100);

    // "2. In two halves each: Function Set (DL=0, wished N, F), 08h, 06h, 02h, then
    // 18h as often as the shift;"
    records.instruction(0x20 | bit(wish.n, 3) | bit(wish.f, 2));
    records.instruction(0x08);
    records.instruction(0x06);
    records.instruction(0x02);
    for _ in 0..wish.shift {
        records.instruction(0x18);
    }
}

/// "marked display cells rising, then marked pattern cells rising, an address set
/// first unless the cell before it in the same memory is marked;"
fn plan_cells(records: &mut Records, wish: &Wish, marks: &[u8], values: &[u8]) {
    let display = (0..DISPLAY_CELLS).map(|cell| (cell, Counter::Display(cell)));
    let pattern = (0..PATTERN_CELLS).map(|cell| (cell, Counter::Pattern(cell)));
    for (cell, counter) in display.chain(pattern) {
        let at = place(counter);
        if marks[at] == 1 {
            if cell == 0 || marks[at - 1] == 0 {
                records.address_set(wish.n, counter);
            }
            records.data(values[at]);
        }
    }
}

/// "then Entry Mode, the cursor's address, Display Control as wished."
fn plan_ending(records: &mut Records, wish: &Wish) {
    records.instruction(0x04 | bit(wish.id, 1) | bit(wish.s, 0));
    records.address_set(wish.n, Counter::Display(wish.cursor));
    records.instruction(0x08 | bit(wish.d, 2) | bit(wish.c, 1) | bit(wish.b, 0));
}
