//! Document 01, "One transfer".

use super::record::{address, blank_display, display_cell, place, step, step_counter};
use super::{is_sound, time_at, Answer, Counter, Half, Record, DISPLAY_CELLS, MEMORY};
use super::{BUSY, CROSSED, DONE, FIRST_HALF, NO_CELL, STALE, UNSOUND, WRONG_KIND, WRONG_LENGTH};

/// "A transfer is a kind (0 instruction write, 1 data write, 2 status read,
/// 3 data read)".
pub const INSTRUCTION_WRITE: u8 = 0;
pub const DATA_WRITE: u8 = 1;
pub const STATUS_READ: u8 = 2;
pub const DATA_READ: u8 = 3;
pub const KINDS: [u8; 4] = [INSTRUCTION_WRITE, DATA_WRITE, STATUS_READ, DATA_READ];

/// Kind, byte and wait: "a byte (00h for reads) and the wait since the previous
/// transfer, 0 to 4,294,967,295".
pub type Transfer = (u8, u8, u32);

/// "Clear and Home take 1,640, all other instructions, data writes and data reads
/// 40 (document 002, 250 kHz)".
pub const LONG_TIME: u32 = 1_640;
pub const SHORT_TIME: u32 = 40;

/// The time of an instruction at 250 kHz, "by highest set bit": 01h is Clear, 02h and 03h
/// are Home.
pub(super) fn time_of(instruction: u8) -> u32 {
    match instruction {
        0x01..=0x03 => LONG_TIME,
        _ => SHORT_TIME,
    }
}

pub fn is_read(kind: u8) -> bool {
    kind == STATUS_READ || kind == DATA_READ
}

/// "kind above 3, or a read with a byte".
pub(super) fn is_bad(kind: u8, byte: u8) -> bool {
    match kind {
        INSTRUCTION_WRITE | DATA_WRITE => false,
        STATUS_READ | DATA_READ => byte != 0x00,
        _ => true,
    }
}

/// One transfer: answer, byte, new record. "Transfer: 1, 2, 3, 4, 9, 6, 7, 8."
pub fn transfer(
    rec: Record,
    mem: &mut [u8],
    kind: u8,
    byte: u8,
    wait: u32,
) -> (Answer, u8, Record) {
    if !is_sound(&rec) {
        return (UNSOUND, 0x00, rec);
    }
    if mem.len() != MEMORY {
        return (WRONG_LENGTH, 0x00, rec);
    }
    // Reading 3: no wait is counted.
    if is_bad(kind, byte) {
        return (WRONG_KIND, 0x00, rec);
    }

    // "First the wait comes off busy, not below 0."
    let mut rec = rec;
    rec.busy = rec.busy.saturating_sub(wait);

    // Reading 4: with a half waiting, busy never refuses.
    if rec.half != Half::None {
        return second_half(rec, mem, kind, byte);
    }
    // "With no half waiting and busy above 0, anything but a status read is
    // answered 4."
    if rec.busy > 0 && kind != STATUS_READ {
        return (BUSY, 0x00, rec);
    }
    if rec.width == 4 {
        first_half(rec, kind, byte)
    } else {
        whole(rec, mem, kind, byte)
    }
}

/// "Width 8: the transfer is complete at once." "A write returns byte 00h".
fn whole(mut rec: Record, mem: &mut [u8], kind: u8, byte: u8) -> (Answer, u8, Record) {
    match kind {
        INSTRUCTION_WRITE => {
            let answer = perform_instruction(&mut rec, mem, byte);
            (answer, 0x00, rec)
        }
        DATA_WRITE => {
            perform_data_write(&mut rec, mem, byte);
            (DONE, 0x00, rec)
        }
        STATUS_READ => (DONE, status(&rec), rec),
        _ => {
            let read = rec.register;
            let answer = perform_data_read(&mut rec, mem);
            (answer, read, rec)
        }
    }
}

/// "Width 4: bits 7 to 4 count. The first transfer is answered 5; a read returns
/// the high half in bits 7 to 4 with zeros below." "A read's byte is taken at the
/// first half; its effect comes at the second."
fn first_half(mut rec: Record, kind: u8, byte: u8) -> (Answer, u8, Record) {
    let (half, returned) = match kind {
        INSTRUCTION_WRITE => (Half::InstructionWrite(byte >> 4), 0x00),
        DATA_WRITE => (Half::DataWrite(byte >> 4), 0x00),
        STATUS_READ => (Half::StatusRead(status(&rec)), status(&rec) & 0xF0),
        _ => (Half::DataRead(rec.register), rec.register & 0xF0),
    };
    rec.half = half;
    (FIRST_HALF, returned, rec)
}

/// "The second completes it, and a read returns the low half in bits 7 to 4."
/// "If the second differs in kind, the first one's kind decides, the second's
/// upper four bits (zero for a read) serve as the low half, and the answer is 8".
fn second_half(mut rec: Record, mem: &mut [u8], kind: u8, byte: u8) -> (Answer, u8, Record) {
    // A read's byte is 00h, so its upper four bits are zero.
    let low = byte >> 4;
    let half = rec.half;
    rec.half = Half::None;

    let (first_kind, answer, returned) = match half {
        Half::InstructionWrite(high) => {
            let answer = perform_instruction(&mut rec, mem, (high << 4) | low);
            (INSTRUCTION_WRITE, answer, 0x00)
        }
        Half::DataWrite(high) => {
            perform_data_write(&mut rec, mem, (high << 4) | low);
            (DATA_WRITE, DONE, 0x00)
        }
        Half::StatusRead(read) => (STATUS_READ, DONE, read << 4),
        Half::DataRead(read) => {
            let answer = perform_data_read(&mut rec, mem);
            (DATA_READ, answer, read << 4)
        }
        // Not called without a half.
        Half::None => (kind, DONE, 0x00),
    };

    // Reading 5: 6 and 7 win over 8.
    if answer == DONE && kind != first_kind {
        (CROSSED, returned, rec)
    } else {
        (answer, returned, rec)
    }
}

/// "Instructions, by highest set bit (document 002)".
fn perform_instruction(rec: &mut Record, mem: &mut [u8], byte: u8) -> Answer {
    match byte {
        // "00h: nothing." Reading 7: it still takes 40.
        0x00 => {}
        // "Clear: display cells 20h, counter cell 0, shift 0, register stale". Document
        // 02, a: "from now on Clear sets I/D=1 and keeps S".
        0x01 => {
            blank_display(mem);
            home(rec);
            rec.id = true;
        }
        0x02..=0x03 => home(rec),
        // "04h-07h: I/D, S."
        0x04..=0x07 => (rec.id, rec.s) = (byte & 0x02 != 0, byte & 0x01 != 0),
        // "08h-0Fh: D, C, B."
        0x08..=0x0F => {
            (rec.d, rec.c, rec.b) = (byte & 0x04 != 0, byte & 0x02 != 0, byte & 0x01 != 0)
        }
        0x10..=0x1F => move_or_shift(rec, mem, byte),
        0x20..=0x3F => set_function(rec, byte),
        // "40h-7Fh, 80h-FFh: pattern or display address; loads the register,
        // fresh."
        0x40..=0x7F => set_counter(rec, mem, Counter::Pattern(byte & 0x3F)),
        0x80..=0xFF => match display_cell(rec.n, byte & 0x7F) {
            Some(cell) => set_counter(rec, mem, Counter::Display(cell)),
            // "display address without a cell: wait counted, half gone, rest as
            // found". Reading 7: no busy time.
            None => return NO_CELL,
        },
    }
    // "A completed transfer that takes time sets busy to it."
    set_busy(rec, time_of(byte));
    DONE
}

/// Busy for what is this time at 250 kHz.
fn set_busy(rec: &mut Record, time: u32) {
    rec.busy = time_at(rec.frequency, time);
}

/// "Home: counter cell 0, shift 0, register stale."
fn home(rec: &mut Record) {
    rec.counter = Counter::Display(0);
    rec.shift = 0;
    rec.fresh = false;
}

/// "20h-3Fh: DL, N, F. Width follows DL at once."
fn set_function(rec: &mut Record, byte: u8) {
    rec.width = if byte & 0x10 != 0 { 8 } else { 4 };
    (rec.n, rec.f) = (byte & 0x08 != 0, byte & 0x04 != 0);
}

fn set_counter(rec: &mut Record, mem: &[u8], counter: Counter) {
    rec.counter = counter;
    load_register(rec, mem);
}

/// "loads the register, fresh": from the counter's cell.
fn load_register(rec: &mut Record, mem: &[u8]) {
    rec.register = mem[place(rec.counter)];
    rec.fresh = true;
}

/// 10h to 1Fh: a move of the cursor or of the display.
fn move_or_shift(rec: &mut Record, mem: &[u8], byte: u8) {
    let display = byte & 0x08 != 0; // S/C
    let right = byte & 0x04 != 0; // R/L
    if display {
        // "S/C=1: left adds 1 to shift, right takes 1, modulo 80."
        rec.shift = step(rec.shift, !right, DISPLAY_CELLS);
        return;
    }
    // "S/C=0 moves the counter one left (R/L=0) or right, wrapping within its memory;
    // in display memory it loads the register, fresh; in pattern memory the register
    // turns stale."
    rec.counter = step_counter(rec.counter, right);
    match rec.counter {
        Counter::Display(_) => load_register(rec, mem),
        Counter::Pattern(_) => rec.fresh = false,
    }
}

/// "Data write: byte into the counter's cell, register holds the byte, stale;
/// counter +1 or -1 by I/D with wrap (80 or 64). In display memory with S=1 the
/// shift then moves, +1 if I/D=1, else -1, modulo 80."
fn perform_data_write(rec: &mut Record, mem: &mut [u8], byte: u8) {
    mem[place(rec.counter)] = byte;
    rec.register = byte;
    rec.fresh = false;
    rec.counter = step_counter(rec.counter, rec.id);
    if let (Counter::Display(_), true) = (rec.counter, rec.s) {
        rec.shift = step(rec.shift, rec.id, DISPLAY_CELLS);
    }
    set_busy(rec, SHORT_TIME);
}

/// "Data read: returns the register, moves the counter, loads the register from
/// the new cell, fresh; never shifts. A read of a stale register is answered 7 and
/// does all this too." The caller has taken the register's byte.
fn perform_data_read(rec: &mut Record, mem: &[u8]) -> Answer {
    let answer = if rec.fresh { DONE } else { STALE };
    rec.counter = step_counter(rec.counter, rec.id);
    load_register(rec, mem);
    set_busy(rec, SHORT_TIME);
    answer
}

/// "Status: bit 7 busy above 0, bits 6 to 0 the counter's address."
fn status(rec: &Record) -> u8 {
    let address = address(rec.n, rec.counter);
    if rec.busy > 0 {
        0x80 | address
    } else {
        address
    }
}
