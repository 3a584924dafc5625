//! Document 01, "One transfer": what is refused, in which order, and what it leaves.

use yaropesk_model::model::*;

use crate::given::{ready, unsound_records};

#[test]
fn transfer_refuses_1_2_3_in_this_order() {
    let (rec, mem) = ready();
    for unsound in unsound_records() {
        let mut short = mem[..143].to_vec();
        assert_eq!(
            transfer(unsound, &mut short, 9, 9, 9),
            (UNSOUND, 0, unsound)
        );
        assert_eq!(short, mem[..143]);
        let mut whole = mem;
        assert_eq!(
            transfer(unsound, &mut whole, 1, 9, 9),
            (UNSOUND, 0, unsound)
        );
        assert_eq!(whole, mem);
    }
    let waiting = Record {
        width: 4,
        half: Half::StatusRead(0x9A),
        busy: 700,
        ..rec
    };
    for found in [rec, waiting] {
        let mut long = [mem.to_vec(), vec![0x11]].concat();
        assert_eq!(
            transfer(found, &mut long, 9, 9, 9),
            (WRONG_LENGTH, 0, found)
        );
        let mut same = mem;
        for (kind, byte) in [(4, 0), (255, 0), (2, 1), (3, 0x80)] {
            assert_eq!(
                transfer(found, &mut same, kind, byte, 9),
                (WRONG_KIND, 0, found)
            );
        }
        assert_eq!(same, mem);
    }
}

#[test]
fn busy_refuses_all_but_status() {
    let (rec, mem) = ready();
    for width in [4, 8] {
        let busy = Record {
            width,
            busy: 40,
            ..rec
        };
        for kind in [INSTRUCTION_WRITE, DATA_WRITE, DATA_READ] {
            let mut same = mem;
            let left = Record { busy: 1, ..busy };
            assert_eq!(transfer(busy, &mut same, kind, 0, 39), (BUSY, 0, left));
            assert_eq!(same, mem);
        }
        let (answer, byte, after) = transfer(busy, &mut mem.clone(), STATUS_READ, 0, 39);
        assert_eq!(
            (answer, byte),
            (if width == 8 { DONE } else { FIRST_HALF }, 0x80)
        );
        assert_eq!(after.busy, 1);
        let (answer, _, after) = transfer(busy, &mut mem.clone(), DATA_READ, 0, 40);
        assert_eq!(answer, if width == 8 { STALE } else { FIRST_HALF });
        assert_eq!(after.busy, if width == 8 { 40 } else { 0 });
    }
}

#[test]
fn an_address_without_a_cell_leaves_the_rest() {
    let (rec, mem) = ready();
    let found = Record {
        busy: 30,
        fresh: true,
        register: 9,
        counter: Counter::Pattern(3),
        ..rec
    };
    let mut same = mem;
    let after = Record { busy: 0, ..found };
    assert_eq!(
        transfer(found, &mut same, INSTRUCTION_WRITE, 0xD0, 30),
        (NO_CELL, 0, after)
    );

    // In halves, also crossed: the half is gone, and 6 wins over 8.
    let half = Record {
        width: 4,
        busy: 0,
        half: Half::InstructionWrite(0xD),
        ..found
    };
    let after = Record {
        half: Half::None,
        ..half
    };
    for kind in KINDS {
        assert_eq!(
            transfer(half, &mut same, kind, 0x00, 0),
            (NO_CELL, 0, after)
        );
    }
    assert_eq!(same, mem);
}
