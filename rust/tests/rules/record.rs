//! Document 01, "The controller's record and memory": sound records, and reset.

use yaropesk_model::model::*;

use crate::given::{ready, unsound_records};

#[test]
fn records_at_the_ends_of_their_ranges_are_sound() {
    let (rec, _) = ready();
    let four = Record { width: 4, ..rec };
    let on = |counter| Record { counter, ..rec };
    let waiting = |half, busy| Record { half, busy, ..four };
    let tuned = |frequency| Record { frequency, ..rec };
    for sound in [
        rec,
        four,
        Record {
            busy: 10_000,
            ..rec
        },
        Record { shift: 79, ..rec },
        on(Counter::Display(79)),
        on(Counter::Pattern(63)),
        waiting(Half::InstructionWrite(0x0F), 0),
        waiting(Half::DataWrite(0x0F), 0),
        waiting(Half::DataRead(0xFF), 0),
        waiting(Half::StatusRead(0xFF), 10_000),
        tuned(190),
        tuned(350),
    ] {
        assert!(is_sound(&sound), "{sound:?}");
    }
}

#[test]
fn records_out_of_range_are_unsound() {
    for unsound in unsound_records() {
        assert!(!is_sound(&unsound), "{unsound:?}");
    }
}

#[test]
fn reset_refuses_only_by_length() {
    for unsound in unsound_records() {
        let mut mem = [0x77; MEMORY];
        let new = record_after_reset(USUAL_KHZ);
        assert_eq!(reset(unsound, &mut mem), (DONE, new));
        assert_eq!(mem[..80], [0x20; 80]);
        assert_eq!(mem[80..], [0x77; 64]);
        for length in [0, 143, 145] {
            let mut mem = vec![0x77; length];
            assert_eq!(reset(unsound, &mut mem), (WRONG_LENGTH, unsound));
            assert_eq!(mem, vec![0x77; length]);
        }
    }
}
