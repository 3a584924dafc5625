//! Document 01, "One transfer": the instructions, data writes and data reads.

use yaropesk_model::model::*;

use crate::given::ready;

/// A record in which each field that an instruction could alter is not as after reset.
fn set() -> Record {
    let (rec, _) = ready();
    Record {
        shift: 7,
        counter: Counter::Display(5),
        register: 0x99,
        fresh: true,
        id: false,
        s: true,
        ..rec
    }
}

/// The same, busy for the shorter time.
fn set_and_busy() -> Record {
    Record {
        busy: SHORT_TIME,
        ..set()
    }
}

/// The record after an instruction that is done.
fn after(rec: Record, byte: u8) -> Record {
    let (_, mut mem) = ready();
    let (answer, returned, rec) = transfer(rec, &mut mem, INSTRUCTION_WRITE, byte, 0);
    assert_eq!((answer, returned), (DONE, 0));
    rec
}

#[test]
fn nothing_takes_its_time_alone() {
    assert_eq!(after(set(), 0x00), set_and_busy());
}

#[test]
fn clear_sets_the_direction_and_home_leaves_the_entry_mode_alone() {
    let home = Record {
        shift: 0,
        counter: Counter::Display(0),
        fresh: false,
        busy: LONG_TIME,
        ..set()
    };
    for counter in [Counter::Display(5), Counter::Pattern(5)] {
        let before = Record { counter, ..set() };
        // Document 02, a: "Clear sets I/D=1 and keeps S".
        assert_eq!(after(before, 0x01), Record { id: true, ..home });
        assert_eq!(after(before, 0x02), home);
        assert_eq!(after(before, 0x03), home);
    }
}

#[test]
fn clear_blanks_the_display_cells_and_home_none() {
    let (rec, mem) = ready();
    let mut cleared = mem;
    transfer(rec, &mut cleared, INSTRUCTION_WRITE, 0x01, 0);
    assert_eq!(cleared[..80], [0x20; 80]);
    assert_eq!(cleared[80..], mem[80..]);
    let mut homed = mem;
    transfer(rec, &mut homed, INSTRUCTION_WRITE, 0x02, 0);
    assert_eq!(homed, mem);
}

#[test]
fn entry_mode_and_display_control_set_their_bits() {
    let short = set_and_busy();
    for (byte, id, s) in [
        (0x04, false, false),
        (0x06, true, false),
        (0x07, true, true),
    ] {
        assert_eq!(after(set(), byte), Record { id, s, ..short });
    }
    assert_eq!(after(set(), 0x0A), Record { c: true, ..short });
    let blinking = Record {
        d: true,
        b: true,
        ..short
    };
    assert_eq!(after(set(), 0x0D), blinking);
}

#[test]
fn the_cursor_moves_around_both_ends_of_both_memories() {
    let (_, mem) = ready();
    let moved = |counter: Counter, byte: u8| {
        let rec = after(Record { counter, ..set() }, byte);
        assert_eq!(rec.shift, 7);
        (rec.counter, rec.register, rec.fresh)
    };
    for (from, byte, to) in [(5, 0x13, 4), (5, 0x14, 6), (0, 0x10, 79), (79, 0x17, 0)] {
        assert_eq!(
            moved(Counter::Display(from), byte),
            (Counter::Display(to), mem[to as usize], true)
        );
    }
    for (from, byte, to) in [(0, 0x10, 63), (63, 0x14, 0)] {
        assert_eq!(
            moved(Counter::Pattern(from), byte),
            (Counter::Pattern(to), 0x99, false)
        );
    }
}

#[test]
fn the_display_shifts_modulo_80() {
    let short = set_and_busy();
    assert_eq!(after(set(), 0x18), Record { shift: 8, ..short });
    assert_eq!(after(set(), 0x1F), Record { shift: 6, ..short });
    let from = |shift: u8| Record { shift, ..set() };
    assert_eq!(after(from(79), 0x18).shift, 0);
    assert_eq!(after(from(0), 0x1C).shift, 79);
}

#[test]
fn function_set_leaves_the_counter_on_its_cell() {
    let short = set_and_busy();
    assert_eq!(after(set(), 0x20), Record { width: 4, ..short });
    let two_lines = Record {
        n: true,
        f: true,
        ..short
    };
    assert_eq!(after(set(), 0x3F), two_lines);
}

#[test]
fn addresses_set_the_counter_and_load_the_register() {
    let (_, mem) = ready();
    let loaded = |counter, register| Record {
        counter,
        register,
        ..set_and_busy()
    };
    let last_pattern = loaded(Counter::Pattern(0x3F), mem[143]);
    assert_eq!(after(set(), 0x7F), last_pattern);
    let last_display = loaded(Counter::Display(79), mem[79]);
    assert_eq!(after(set(), 0xCF), last_display);
    let second_line = after(Record { n: true, ..set() }, 0xC0);
    assert_eq!(second_line.counter, Counter::Display(40));
    assert_eq!(second_line.register, mem[40]);
}

#[test]
fn data_writes_shift_and_data_reads_do_not() {
    let (rec, mem) = ready();
    for (id, cell, shift) in [(true, 1, 0), (false, 79, 78)] {
        let set = Record {
            s: true,
            id,
            shift: 79,
            ..rec
        };
        let mut written = mem;
        let (answer, byte, after) = transfer(set, &mut written, DATA_WRITE, 0x41, 0);
        assert_eq!((answer, byte, written[0]), (DONE, 0, 0x41));
        assert_eq!(after.counter, Counter::Display(cell));
        assert_eq!(
            (after.shift, after.register, after.fresh, after.busy),
            (shift, 0x41, false, SHORT_TIME)
        );

        let (answer, byte, after) = transfer(set, &mut written, DATA_READ, 0, 0);
        assert_eq!((answer, byte), (STALE, 0x00));
        assert_eq!(after.counter, Counter::Display(cell));
        assert_eq!((after.shift, after.register), (79, mem[cell as usize]));
        assert_eq!((after.fresh, after.busy), (true, SHORT_TIME));

        // Pattern memory never shifts.
        let set = Record {
            counter: Counter::Pattern(0),
            ..set
        };
        let (_, _, after) = transfer(set, &mut written, DATA_WRITE, 0x41, 0);
        assert_eq!(after.shift, 79);
        assert_eq!(after.counter, Counter::Pattern(if id { 1 } else { 63 }));
    }
}
