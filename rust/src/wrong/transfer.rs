//! Wrong readings of document 01's chapter "One transfer".

use crate::model::{self, time_at, Answer, Counter, Half, Record, Step};
use crate::model::{LONG_TIME, SHORT_TIME, USUAL_KHZ};

/// A transfer that the model has made: how it was sent, and what it came to.
struct Made {
    before: Record,
    kind: u8,
    byte: u8,
    wait: u32,
    answer: Answer,
    read: u8,
    new: Record,
}

impl Made {
    /// The kind and the byte of what this transfer has completed, if it has.
    fn completed(&self) -> Option<(u8, u8)> {
        let done = matches!(self.answer, model::DONE | model::STALE | model::CROSSED);
        let low = self.byte >> 4;
        let whole = match self.before.half {
            Half::None => (self.kind, self.byte),
            Half::InstructionWrite(high) => (model::INSTRUCTION_WRITE, high << 4 | low),
            Half::DataWrite(high) => (model::DATA_WRITE, high << 4 | low),
            Half::StatusRead(_) => (model::STATUS_READ, 0x00),
            Half::DataRead(_) => (model::DATA_READ, 0x00),
        };
        done.then_some(whole)
    }

    /// The byte of the instruction that this transfer has completed, if it has one.
    fn instruction(&self) -> Option<u8> {
        match self.completed() {
            Some((model::INSTRUCTION_WRITE, byte)) => Some(byte),
            _ => None,
        }
    }

    /// Has a data read been completed by this transfer?
    fn is_read(&self) -> bool {
        matches!(self.completed(), Some((model::DATA_READ, _)))
    }

    /// The time at 250 kHz of what this transfer has completed, if that takes time.
    fn time(&self) -> Option<u32> {
        match self.completed()? {
            (model::INSTRUCTION_WRITE, 0x01..=0x03) => Some(LONG_TIME),
            (model::STATUS_READ, _) => None,
            _ => Some(SHORT_TIME),
        }
    }

    /// Another time than the one that is due, made of the frequency and the time at 250 kHz.
    fn retime(&mut self, other: impl Fn(u32, u32) -> u32) {
        if let Some(time) = self.time() {
            self.new.busy = other(self.new.frequency.into(), time);
        }
    }
}

/// The model's transfer, and then a fault in what it came to.
macro_rules! then {
    ($fault:ident) => {
        |before, memory, kind, byte, wait| {
            let (answer, read, new) = model::transfer(before, memory, kind, byte, wait);
            let mut made = Made {
                before,
                kind,
                byte,
                wait,
                answer,
                read,
                new,
            };
            $fault(&mut made);
            (made.answer, made.read, made.new)
        }
    };
}

/// Clear leaves I/D as it was, as document 004 has it.
fn clear_keeps_direction(made: &mut Made) {
    if made.instruction() == Some(0x01) {
        made.new.id = made.before.id;
    }
}

/// Clear takes S to 0. No report shows S: this one is found out by drawings and by calls.
fn clear_drops_s(made: &mut Made) {
    if made.instruction() == Some(0x01) {
        made.new.s = false;
    }
}

/// Clear leaves a fresh register fresh.
fn clear_keeps_fresh(made: &mut Made) {
    if made.instruction() == Some(0x01) {
        made.new.fresh = made.before.fresh;
    }
}

/// A data read with S=1 shifts the display. No report shows the shift: this one is found
/// out by drawings and by calls.
fn read_shifts(made: &mut Made) {
    let displayed = matches!(made.new.counter, Counter::Display(_));
    if displayed && made.new.s && made.is_read() {
        made.new.shift = (made.new.shift + if made.new.id { 1 } else { 79 }) % 80;
    }
}

/// A data read leaves the counter where it was.
fn read_stays(made: &mut Made) {
    if made.is_read() {
        made.new.counter = made.before.counter;
    }
}

/// A cursor move in pattern memory keeps a fresh register fresh.
fn pattern_move_fresh(made: &mut Made) {
    if let (Some(0x10..=0x17), Counter::Pattern(_)) = (made.instruction(), made.new.counter) {
        made.new.fresh = made.before.fresh;
    }
}

/// Instruction 00h takes no time.
fn nothing_takes_nothing(made: &mut Made) {
    if made.instruction() == Some(0x00) {
        made.new.busy = 0;
    }
}

/// An address without a cell takes its time.
fn no_cell_takes_time(made: &mut Made) {
    if made.answer == model::NO_CELL {
        made.new.busy = time_at(made.new.frequency, SHORT_TIME);
    }
}

/// Times are rounded down.
fn times_rounded_down(made: &mut Made) {
    made.retime(|khz, time| time * 250 / khz);
}

/// Times are rounded to the nearest.
fn times_to_nearest(made: &mut Made) {
    made.retime(|khz, time| (time * 250 + khz / 2) / khz);
}

/// Times are one more than rounded down, also where nothing is left to round.
fn times_always_more(made: &mut Made) {
    made.retime(|khz, time| time * 250 / khz + 1);
}

/// Times are those at 250 kHz for all.
fn times_at_250(made: &mut Made) {
    made.retime(|_, time| time);
}

/// Clear and Home take their time at 250 kHz, the others follow.
fn home_at_250(made: &mut Made) {
    if made.time() == Some(LONG_TIME) {
        made.new.busy = LONG_TIME;
    }
}

/// Times rise with the frequency.
fn times_rise(made: &mut Made) {
    made.retime(|khz, time| (time * khz).div_ceil(250));
}

/// What has been completed leaves 250 kHz in the record.
fn frequency_lost(made: &mut Made) {
    if made.completed().is_some() {
        made.new.frequency = USUAL_KHZ;
    }
}

/// Changing N keeps the address instead of the cell.
fn n_keeps_address(made: &mut Made) {
    if let Counter::Display(cell) = made.new.counter {
        let cell = match (made.before.n, made.new.n) {
            (true, false) if cell >= 40 => (cell + 24) % 80,
            (false, true) if cell >= 64 => cell - 24,
            _ => cell,
        };
        made.new.counter = Counter::Display(cell);
    }
}

/// A busy refusal does not count its wait.
fn refusal_counts_no_wait(made: &mut Made) {
    if made.answer == model::BUSY {
        made.new = made.before;
    }
}

/// Crossed halves are answered 0.
fn crossed_unseen(made: &mut Made) {
    if made.answer == model::CROSSED {
        made.answer = model::DONE;
    }
}

/// A crossed read gives nothing to the write that completes it.
fn crossed_read_silent(made: &mut Made) {
    if made.answer == model::CROSSED {
        made.read = 0x00;
    }
}

/// The pattern counter runs down from 0 to 63 only when writing; a read stays at 0.
fn pattern_read_stops(made: &mut Made) {
    let at_first = made.before.counter == Counter::Pattern(0);
    if at_first && !made.before.id && made.is_read() {
        made.new.counter = Counter::Pattern(0);
    }
}

/// A kind above 3 is refused, and its wait counted.
fn bad_kind_counts_wait(made: &mut Made) {
    if made.answer == model::WRONG_KIND {
        made.new.busy = made.new.busy.saturating_sub(made.wait);
    }
}

/// Busy is over one microsecond too late.
fn busy_one_off(
    before: Record,
    memory: &mut [u8],
    kind: u8,
    byte: u8,
    wait: u32,
) -> (Answer, u8, Record) {
    if before.busy > 0 && before.busy == wait {
        return model::transfer(before, memory, kind, byte, wait - 1);
    }
    model::transfer(before, memory, kind, byte, wait)
}

pub const WRONG_STEPS: [(&str, Step); 21] = [
    ("clear-keeps-direction", then!(clear_keeps_direction)),
    ("clear-drops-s", then!(clear_drops_s)),
    ("clear-keeps-fresh", then!(clear_keeps_fresh)),
    ("read-stays", then!(read_stays)),
    ("pattern-move-fresh", then!(pattern_move_fresh)),
    ("nothing-takes-nothing", then!(nothing_takes_nothing)),
    ("no-cell-takes-time", then!(no_cell_takes_time)),
    ("n-keeps-address", then!(n_keeps_address)),
    ("refusal-counts-no-wait", then!(refusal_counts_no_wait)),
    ("crossed-unseen", then!(crossed_unseen)),
    ("crossed-read-silent", then!(crossed_read_silent)),
    ("pattern-read-stops", then!(pattern_read_stops)),
    ("busy-one-off", busy_one_off),
    ("read-shifts", then!(read_shifts)),
    ("times-rounded-down", then!(times_rounded_down)),
    ("times-to-nearest", then!(times_to_nearest)),
    ("times-always-more", then!(times_always_more)),
    ("times-at-250", then!(times_at_250)),
    ("home-at-250", then!(home_at_250)),
    ("times-rise", then!(times_rise)),
    ("frequency-lost", then!(frequency_lost)),
];

/// No session has a kind above 3.
pub const UNSEEN_STEPS: [(&str, Step); 1] = [("bad-kind-counts-wait", then!(bad_kind_counts_wait))];
