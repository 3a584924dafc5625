//! Document 01, "One transfer": transfers in two halves over four wires.

use yaropesk_model::model::*;

use crate::given::ready;

/// Width 4, with a fresh register.
fn four_wires() -> Record {
    let (rec, _) = ready();
    Record {
        width: 4,
        register: 0x5A,
        fresh: true,
        ..rec
    }
}

#[test]
fn a_read_takes_its_byte_at_the_first_half_and_its_effect_at_the_second() {
    let (_, mut mem) = ready();
    let (answer, byte, waiting) = transfer(four_wires(), &mut mem, DATA_READ, 0, 0);
    assert_eq!((answer, byte), (FIRST_HALF, 0x50));
    let half = Half::DataRead(0x5A);
    assert_eq!(
        waiting,
        Record {
            half,
            ..four_wires()
        }
    );
    let (answer, byte, after) = transfer(waiting, &mut mem, DATA_READ, 0, 0);
    assert_eq!((answer, byte), (DONE, 0xA0));
    let read = Record {
        counter: Counter::Display(1),
        register: mem[1],
        busy: SHORT_TIME,
        ..four_wires()
    };
    assert_eq!(after, read);
}

#[test]
fn a_read_crossed_by_a_write_gives_it_the_low_half_and_stale_wins_over_crossed() {
    let (_, mut mem) = ready();
    for (fresh, expected) in [(true, CROSSED), (false, STALE)] {
        let waiting = Record {
            half: Half::DataRead(0x5A),
            fresh,
            ..four_wires()
        };
        let (answer, byte, _) = transfer(waiting, &mut mem, DATA_WRITE, 0xF0, 0);
        assert_eq!((answer, byte), (expected, 0xA0));
    }
}

#[test]
fn a_status_half_is_completed_by_any_kind_while_busy() {
    let (_, mut mem) = ready();
    let status = Record {
        half: Half::StatusRead(0x85),
        busy: 700,
        ..four_wires()
    };
    let left = Record {
        busy: 600,
        ..four_wires()
    };
    for kind in KINDS {
        let answer = if kind == STATUS_READ { DONE } else { CROSSED };
        let outcome = transfer(status, &mut mem, kind, 0, 100);
        assert_eq!(outcome, (answer, 0x50, left));
    }
}

#[test]
fn a_write_crossed_by_a_read_has_0h_for_its_low_half_and_returns_00h() {
    let (_, mut mem) = ready();
    let write = Record {
        half: Half::DataWrite(0x4),
        ..four_wires()
    };
    let (answer, byte, _) = transfer(write, &mut mem, STATUS_READ, 0, 0);
    assert_eq!((answer, byte, mem[0]), (CROSSED, 0x00, 0x40));
}
