//! A session text in the making: lines, and phrases of lines that belong together.

use super::lines::{byte_of, damaged_line, line};
use super::Chance;
use crate::model::{time_at, LONG_TIME, SHORT_TIME};
use crate::model::{DATA_READ, DATA_WRITE, INSTRUCTION_WRITE, KINDS, STATUS_READ};

const LONGEST_WAIT: u64 = u32::MAX as u64;

/// Addresses at the edges of the lines, with and without a cell.
const ADDRESSES: [u8; 16] = [
    0x00, 0x01, 0x26, 0x27, 0x28, 0x3F, 0x40, 0x41, 0x4E, 0x4F, 0x50, 0x66, 0x67, 0x68, 0x7F, 0x20,
];

/// A text in the making. A patient one mostly waits long enough; one of four wires
/// sends its bytes in halves.
pub struct Text<'a> {
    chance: &'a mut Chance,
    pub bytes: Vec<u8>,
    pub lines: usize,
    patient: bool,
    four: bool,
    /// The times of instructions at the frequency that it is for.
    short: u64,
    long: u64,
}

impl Text<'_> {
    pub fn new(chance: &mut Chance, frequency: u16) -> Text<'_> {
        let (patient, four) = (chance.percent(70), chance.percent(50));
        Text {
            chance,
            bytes: Vec::new(),
            lines: 0,
            patient,
            four,
            short: time_at(frequency, SHORT_TIME).into(),
            long: time_at(frequency, LONG_TIME).into(),
        }
    }

    /// A patient one over eight wires.
    pub fn patient(chance: &mut Chance, frequency: u16) -> Text<'_> {
        Text {
            patient: true,
            four: false,
            ..Text::new(chance, frequency)
        }
    }

    /// Waits at and around the times of instructions and of reset, and at the limits.
    fn wait(&mut self) -> u64 {
        let (short, long) = (self.short, self.long);
        if self.patient && self.chance.percent(90) {
            let enough = [short, short, short + 1, 100, long, long + 1, 10_000];
            return self.chance.pick(&enough);
        }
        let waits = [0, 1, 100, 10_000, 15_000, LONGEST_WAIT];
        let times = [short - 1, short, short + 1, long - 1, long, long + 1];
        match self.chance.below(10) {
            0..=3 => self.chance.pick(&waits),
            4..=7 => self.chance.pick(&times),
            8 => self.chance.below(12_000),
            _ => self.chance.between(0, LONGEST_WAIT),
        }
    }

    fn line(&mut self, kind: u8, byte: u8, wait: u64) {
        self.bytes.extend(line(kind, byte_of(kind, byte), wait));
        self.lines += 1;
    }

    pub fn damaged(&mut self) {
        self.bytes.extend(damaged_line(self.chance));
        self.lines += 1;
    }

    /// A transfer of a whole byte: one line, or two halves. Now and then the halves are
    /// crossed, or the second is missing.
    fn send(&mut self, kind: u8, byte: u8) {
        let wait = self.wait();
        if !self.four {
            return self.line(kind, byte, wait);
        }
        // The low four wires count for nothing.
        let noise = match self.chance.percent(10) {
            true => self.chance.byte() & 0x0F,
            false => 0x00,
        };
        self.line(kind, (byte & 0xF0) | noise, wait);
        let later = self.wait();
        let wait = self.chance.pick(&[1, 1, later]);
        match self.chance.below(100) {
            0..=1 => {}
            2..=7 => {
                let (other, any) = (self.chance.pick(&KINDS), self.chance.byte());
                self.line(other, any, wait);
            }
            _ => self.line(kind, (byte << 4) | noise, wait),
        }
    }

    /// An instruction with these bits set, and any of those.
    fn instruction(&mut self, set: u8, any: u8) {
        let byte = set | (self.chance.byte() & any);
        self.send(INSTRUCTION_WRITE, byte);
    }

    /// A few transfers that belong together.
    pub fn phrase(&mut self) {
        match self.chance.below(20) {
            0..=2 => self.write_some(),
            3..=5 => self.read_some(),
            6 => self.home(),
            // Entry Mode, Display Control.
            7..=8 => self.instruction(0x04, 0x03),
            9 => self.instruction(0x08, 0x07),
            10..=11 => self.step(),
            12 => self.function_set(),
            13 => self.other_width(),
            14 => self.send(INSTRUCTION_WRITE, 0x00),
            15 => self.send(STATUS_READ, 0x00),
            16 => {
                let byte = self.chance.byte();
                self.send(DATA_WRITE, byte);
            }
            17 => self.any_instruction(),
            _ => self.anything(),
        }
    }

    fn address_set(&mut self) {
        match self.chance.below(10) {
            0 => self.instruction(0x40, 0x3F),
            1..=2 => {
                let address = self.chance.pick(&[0x00, 0x01, 0x07, 0x3E, 0x3F]);
                self.send(INSTRUCTION_WRITE, 0x40 | address);
            }
            3..=6 => {
                let address = self.chance.pick(&ADDRESSES);
                self.send(INSTRUCTION_WRITE, 0x80 | address);
            }
            _ => self.instruction(0x80, 0x7F),
        }
    }

    fn write_some(&mut self) {
        self.address_set();
        for _ in 0..self.chance.between(0, 4) {
            let byte = self.chance.byte();
            self.send(DATA_WRITE, byte);
        }
        self.send(STATUS_READ, 0x00);
    }

    fn read_some(&mut self) {
        if self.chance.percent(60) {
            self.address_set();
        }
        for _ in 0..self.chance.between(1, 4) {
            self.send(DATA_READ, 0x00);
        }
        self.send(STATUS_READ, 0x00);
    }

    /// Clear or Home, and what the counter and the register are afterwards.
    fn home(&mut self) {
        let byte = self.chance.pick(&[0x01, 0x02, 0x03]);
        self.send(INSTRUCTION_WRITE, byte);
        let kind = self.chance.pick(&KINDS);
        self.send(kind, byte);
    }

    /// A move of the cursor or the display.
    fn step(&mut self) {
        self.instruction(0x10, 0x0F);
        let kind = self.chance.pick(&[STATUS_READ, DATA_READ]);
        self.send(kind, 0x00);
    }

    /// Function Set that keeps the width as it is thought to be.
    fn function_set(&mut self) {
        self.instruction(if self.four { 0x20 } else { 0x30 }, 0x0F);
        self.send(STATUS_READ, 0x00);
    }

    fn other_width(&mut self) {
        if self.chance.percent(30) {
            self.instruction(if self.four { 0x30 } else { 0x20 }, 0x0F);
            self.four = !self.four;
        }
        self.send(STATUS_READ, 0x00);
    }

    /// Any instruction, its class chosen first.
    fn any_instruction(&mut self) {
        let class = 1u8 << self.chance.below(8);
        self.instruction(class, class - 1);
    }

    fn anything(&mut self) {
        let (kind, byte) = (self.chance.pick(&KINDS), self.chance.byte());
        let wait = self.wait();
        self.line(kind, byte, wait);
    }

    /// The first lines: mostly out of the busy time of reset, and to the width.
    pub fn opening(&mut self) {
        if self.chance.percent(10) {
            return;
        }
        let wait = self.chance.pick(&[9_999, 10_000, 10_001, 15_000]);
        let byte = if self.four { 0x20 } else { 0x30 } | (self.chance.byte() & 0x0C);
        self.line(INSTRUCTION_WRITE, byte, wait);
        if wait == 9_999 {
            self.line(INSTRUCTION_WRITE, byte, 1);
        }
    }

    /// A panel over eight wires, on, with patterns and letters of its own, and mostly with
    /// a cursor and a shift.
    pub fn panel(&mut self) {
        let function = self.chance.pick(&[0x30, 0x38]);
        self.line(INSTRUCTION_WRITE, function, 15_000);
        self.instruction(0x0C, 0x03);
        for address in [0x40, 0x80, 0xC0] {
            self.instruction(address, 0x07);
            for _ in 0..self.chance.between(0, 40) {
                let (shape, pattern) = (self.chance.between(0x21, 0x7D), self.chance.below(0x20));
                let byte = self.chance.pick(&[shape, shape, pattern]) as u8;
                self.send(DATA_WRITE, byte);
            }
        }
        let way = self.chance.pick(&[0x18, 0x1C]);
        for _ in 0..self.chance.pick(&[0, 1, 3, 39, 41, 79]) {
            self.send(INSTRUCTION_WRITE, way);
        }
        self.address_set();
    }

    /// A good line of exactly so many bytes, 7 to 16.
    fn line_of(&mut self, length: usize) {
        let digits = length as u32 - 6;
        let low = match digits {
            1 => 0,
            _ => 10u64.pow(digits - 1),
        };
        let high = (10u64.pow(digits) - 1).min(LONGEST_WAIT);
        let (kind, byte) = (self.chance.pick(&KINDS), self.chance.byte());
        let wait = self.chance.between(low, high);
        self.line(kind, byte, wait);
    }

    /// Good lines up to exactly so many bytes.
    pub fn fill_to(&mut self, length: usize) {
        while self.bytes.len() + 200 < length {
            self.phrase();
        }
        loop {
            let left = length.saturating_sub(self.bytes.len());
            match left {
                0..=6 => return,
                7..=16 => self.line_of(left),
                17..=22 => self.line_of(7),
                _ => {
                    let next = self.chance.between(7, 16) as usize;
                    self.line_of(next);
                }
            }
        }
    }
}
