//! Demand 3, played: "Take any wish for the panel that the planner accepts and any
//! sound controller that keeps its power. Send the plan, each wait at least as long as
//! asked. Stop after any transfer, or before the first, begin the same plan again, as
//! often as you like, sending nothing in between. Let the last run finish. The panel
//! then stands as wished, no transfer was refused as busy, and every cell the wish does
//! not name holds what it held before the first run. One cell is excepted: the one that
//! a data write, half sent by whomever and still waiting when we began, was meant for."
//!
//! Document 02, d: "Demand 3 now has the premise that the wish's frequency is the record's."
//! Reading 31: a wish for a lower one must serve too, since its plan waits no shorter.

use std::fmt::{self, Display, Formatter};

use crate::bytes::{record_bytes, wish_bytes};
use crate::calls::{answer_of, value_of};
use crate::case::{shown, Case, Function, Outcome};
use crate::model::{self, time_at, Counter, Half, Record, Transfer, Wish};
use crate::model::{FREQUENCIES, MEMORY, PLAN_BYTES, SHORT_TIME, TRANSFER_BYTES};
use crate::random::{any_frequency, sound_marks, sound_record, sound_wish, whole_memory, Chance};

/// A start, a wish, and the places where the board stops.
pub struct Trial {
    start: Record,
    memory: Vec<u8>,
    wish: Wish,
    marks: Vec<u8>,
    values: Vec<u8>,
    /// Where each cut run stops, of a hundred parts of the plan.
    cuts: Vec<u64>,
    /// How much longer than asked the board waits, used in turn.
    longer: Vec<u32>,
}

/// Where a trial stands: the bytes of the record and of the memory.
struct Panel {
    record: Vec<u8>,
    memory: Vec<u8>,
}

impl Trial {
    /// A trial that keeps the premise, or has a wish for a lower frequency.
    pub fn random(chance: &mut Chance) -> Trial {
        let lowest = *FREQUENCIES.start();
        let fitted = any_frequency(chance);
        let lower = chance.between(lowest.into(), fitted.into()) as u16;
        let wished = chance.pick(&[fitted, fitted, fitted, lower, lowest]);
        Trial::at(chance, fitted, wished)
    }

    /// A trial with these frequencies in the record and in the wish.
    pub fn at(chance: &mut Chance, fitted: u16, wished: u16) -> Trial {
        let longer = [0, 0, 0, 1, 39, 10_000, u32::MAX];
        Trial {
            start: Record {
                frequency: fitted,
                ..sound_record(chance)
            },
            memory: whole_memory(chance),
            wish: Wish {
                frequency: wished,
                ..sound_wish(chance)
            },
            marks: sound_marks(chance),
            values: chance.bytes(MEMORY),
            cuts: (0..chance.below(6)).map(|_| chance.below(101)).collect(),
            longer: (0..7).map(|_| chance.pick(&longer)).collect(),
        }
    }

    /// Plays the trial, each call through `call`; what went wrong, if anything did.
    pub fn play(
        &self,
        mut call: impl FnMut(&Case) -> Result<Outcome, String>,
    ) -> Result<(), String> {
        let planned = call(&self.planning())?;
        let length = value_of(planned.returned) * TRANSFER_BYTES;
        let plan = model::transfers_of(&planned.buffers[3][..length]);
        let mut panel = Panel {
            record: record_bytes(&self.start).to_vec(),
            memory: self.memory.clone(),
        };
        for &cut in &self.cuts {
            let stop = plan.len() * cut as usize / 100;
            self.send(&plan[..stop], &mut panel, &mut call)?;
        }
        self.send(&plan, &mut panel, &mut call)?;
        self.stands(&panel)
            .map_err(|fault| format!("demand 3: {fault}\n{self}"))
    }

    fn planning(&self) -> Case {
        Case {
            function: Function::Plan,
            buffers: vec![
                wish_bytes(&self.wish).to_vec(),
                self.marks.clone(),
                self.values.clone(),
                vec![0; PLAN_BYTES],
            ],
            numbers: [0; 4],
        }
    }

    /// One run of the plan, or the beginning of one.
    fn send(
        &self,
        transfers: &[Transfer],
        panel: &mut Panel,
        call: &mut impl FnMut(&Case) -> Result<Outcome, String>,
    ) -> Result<(), String> {
        for (&(kind, byte, wait), longer) in transfers.iter().zip(self.longer.iter().cycle()) {
            let case = Case {
                function: Function::Transfer,
                buffers: vec![
                    std::mem::take(&mut panel.record),
                    std::mem::take(&mut panel.memory),
                ],
                numbers: [kind.into(), byte.into(), wait.saturating_add(*longer), 0],
            };
            let outcome = call(&case)?;
            if answer_of(outcome.returned) == model::BUSY {
                return Err(format!("demand 3: refused as busy: {case}\n{self}"));
            }
            if let [record, memory] = &outcome.buffers[..] {
                panel.record.clone_from(record);
                panel.memory.clone_from(memory);
            }
        }
        Ok(())
    }

    /// "The panel then stands as wished", and the cells that are not named are spared.
    fn stands(&self, panel: &Panel) -> Result<(), String> {
        let excepted = match self.start.half {
            Half::DataWrite(_) => Some(model::place(self.start.counter)),
            _ => None,
        };
        for cell in 0..MEMORY {
            let named = self.marks[cell] == 1;
            let due = if named { &self.values } else { &self.memory }[cell];
            let found = panel.memory[cell];
            if found != due && (named || excepted != Some(cell)) {
                return Err(format!("cell {cell} holds {found:02X}h, not {due:02X}h"));
            }
        }
        let wished = wished_record(&self.wish, self.start.frequency, &panel.memory);
        let due = record_bytes(&wished);
        if panel.record != due {
            let (found, due) = (shown("record", &panel.record), shown("record", &due));
            return Err(format!("the record is not as wished:\n  {found}\n  {due}"));
        }
        Ok(())
    }
}

/// Reading 12: "Stands as wished" fixes the whole record. The frequency is the one that is
/// fitted, and Display Control has taken its time at it.
pub fn wished_record(wish: &Wish, fitted: u16, memory: &[u8]) -> Record {
    Record {
        width: 4,
        n: wish.n,
        f: wish.f,
        d: wish.d,
        c: wish.c,
        b: wish.b,
        id: wish.id,
        s: wish.s,
        shift: wish.shift,
        counter: Counter::Display(wish.cursor),
        register: memory[usize::from(wish.cursor)],
        fresh: true,
        busy: time_at(fitted, SHORT_TIME),
        // No half, as after reset.
        ..model::record_after_reset(fitted)
    }
}

impl Display for Trial {
    fn fmt(&self, to: &mut Formatter) -> fmt::Result {
        writeln!(
            to,
            "  start {}",
            shown("record", &record_bytes(&self.start))
        )?;
        writeln!(to, "  start {}", shown("memory", &self.memory))?;
        writeln!(to, "  {}", shown("wish", &wish_bytes(&self.wish)))?;
        writeln!(to, "  {}", shown("marks", &self.marks))?;
        writeln!(to, "  {}", shown("values", &self.values))?;
        write!(to, "  cut after {:?} hundredths of the plan", self.cuts)
    }
}
