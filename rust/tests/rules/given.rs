//! What the tests start from.

use yaropesk_model::model::*;

/// A controller with its memory.
pub struct Bench {
    pub rec: Record,
    pub mem: [u8; MEMORY],
}

impl Bench {
    /// "Document 01's cases read 250."
    pub fn after_reset() -> Bench {
        Bench::fitted(USUAL_KHZ)
    }

    /// After reset, with an oscillator of this frequency.
    pub fn fitted(frequency: u16) -> Bench {
        let mut mem = [0x00; MEMORY];
        let (answer, rec) = reset(record_after_reset(frequency), &mut mem);
        assert_eq!(answer, DONE);
        Bench { rec, mem }
    }

    /// One transfer; answer and byte.
    pub fn send(&mut self, kind: u8, byte: u8, wait: u32) -> (Answer, u8) {
        let (answer, byte, rec) = transfer(self.rec, &mut self.mem, kind, byte, wait);
        self.rec = rec;
        assert!(is_sound(&rec));
        (answer, byte)
    }

    /// One transfer after a wait that ends every busy time.
    pub fn instruction(&mut self, byte: u8) -> Answer {
        self.send(INSTRUCTION_WRITE, byte, 10_000).0
    }

    pub fn data(&mut self, byte: u8) -> Answer {
        self.send(DATA_WRITE, byte, 10_000).0
    }

    pub fn address(&mut self) -> u8 {
        let (answer, byte) = self.send(STATUS_READ, 0x00, 10_000);
        assert_eq!(answer, DONE);
        byte
    }
}

/// A record that is not busy, and a memory of which no two neighbours are alike.
pub fn ready() -> (Record, [u8; MEMORY]) {
    let rec = Record {
        busy: 0,
        ..record_after_reset(USUAL_KHZ)
    };
    let mut mem = [0; MEMORY];
    for (cell, byte) in mem.iter_mut().enumerate() {
        *byte = 0x21 + cell as u8;
    }
    (rec, mem)
}

/// Records that break one rule each.
pub fn unsound_records() -> Vec<Record> {
    [unsound_fields(), unsound_halves()].concat()
}

fn unsound_fields() -> Vec<Record> {
    let (rec, _) = ready();
    let on = |counter| Record { counter, ..rec };
    let tuned = |frequency| Record { frequency, ..rec };
    vec![
        Record { width: 0, ..rec },
        Record { width: 5, ..rec },
        Record { shift: 80, ..rec },
        on(Counter::Display(80)),
        on(Counter::Pattern(64)),
        Record {
            busy: 10_001,
            ..rec
        },
        tuned(0),
        tuned(189),
        tuned(351),
        tuned(u16::MAX),
    ]
}

/// Halves at width 8, halves of more than four bits, and halves while busy.
fn unsound_halves() -> Vec<Record> {
    let (rec, _) = ready();
    let waiting = |width, half, busy| Record {
        width,
        half,
        busy,
        ..rec
    };
    vec![
        waiting(8, Half::InstructionWrite(0), 0),
        waiting(8, Half::DataWrite(0), 0),
        waiting(8, Half::StatusRead(0), 0),
        waiting(8, Half::DataRead(0), 0),
        waiting(4, Half::InstructionWrite(0x10), 0),
        waiting(4, Half::DataWrite(0x10), 0),
        waiting(4, Half::InstructionWrite(0), 1),
        waiting(4, Half::DataWrite(0), 1),
        waiting(4, Half::DataRead(0), 1),
    ]
}

/// A made-up table: the rows of a shape differ, and so do neighbouring shapes; the eighth
/// row is 0, and no row has all five dots.
pub fn font() -> [u8; FONT] {
    let mut font = [0; FONT];
    for (at, row) in font.iter_mut().enumerate() {
        let last = at % SHAPE_ROWS == SHAPE_ROWS - 1;
        *row = if last { 0 } else { (at * 7 % 31) as u8 };
    }
    font
}

/// The rows of a code in that table.
pub fn rows(code: u8) -> Vec<u8> {
    shape(&font(), code).to_vec()
}

/// "wish N=D=I/D=1, all else 0".
pub fn plain_wish() -> Wish {
    Wish {
        n: true,
        d: true,
        id: true,
        ..Wish::default()
    }
}
