//! Document 02, d) "The oscillator that is fitted".

use yaropesk_model::bytes::{record_bytes, record_of, wish_bytes, wish_of};
use yaropesk_model::model::*;

use crate::given::{plain_wish, Bench};

#[test]
fn the_requests_times() {
    assert_eq!(time_at(NEWER_KHZ, 40), 38);
    assert_eq!(time_at(NEWER_KHZ, 1_640), 1_519);
    for time in 0..=LONGEST_BUSY {
        assert_eq!(time_at(USUAL_KHZ, time), time);
    }
    assert_eq!((time_at(190, 40), time_at(190, 1_640)), (53, 2_158));
    assert_eq!((time_at(350, 40), time_at(350, 1_640)), (29, 1_172));
}

/// "rounded up": the least whole time whose product with the frequency reaches that of the
/// time at 250 kHz with 250. A higher frequency takes no longer.
#[test]
fn times_are_the_least_that_are_long_enough() {
    for time in [SHORT_TIME, LONG_TIME] {
        for frequency in FREQUENCIES {
            let product = |time| time * u32::from(frequency);
            let taken = time_at(frequency, time);
            assert!(product(taken) >= time * 250, "{time} at {frequency}");
            assert!(product(taken - 1) < time * 250, "{time} at {frequency}");
            assert!(time_at(frequency + 1, time) <= taken);
        }
    }
}

#[test]
fn reset_keeps_a_frequency_in_range_and_puts_250_for_any_other() {
    for found in 0..=u16::MAX {
        let mut mem = [0x00; MEMORY];
        let given = Record {
            frequency: found,
            ..record_after_reset(USUAL_KHZ)
        };
        let (answer, new) = reset(given, &mut mem);
        let due = match found {
            190..=350 => found,
            _ => 250,
        };
        assert_eq!((answer, new.frequency, new.busy), (DONE, due, 10_000));
    }
}

/// Each kind of transfer that takes time, and the status read, which takes none.
#[test]
fn every_transfer_takes_its_time_at_the_frequency() {
    for (frequency, short, long) in [(190, 53, 2_158), (250, 40, 1_640), (270, 38, 1_519)] {
        for byte in 0x00..=0xFF {
            let mut bench = Bench::fitted(frequency);
            let answer = bench.instruction(byte);
            let due = match (answer, byte) {
                (NO_CELL, _) => 0,
                (_, 0x01..=0x03) => long,
                _ => short,
            };
            assert_eq!(bench.rec.busy, due, "{byte:02X} at {frequency}");
        }
        for (kind, due) in [(DATA_WRITE, short), (DATA_READ, short), (STATUS_READ, 0)] {
            let mut bench = Bench::fitted(frequency);
            bench.send(kind, 0x00, 10_000);
            assert_eq!((bench.rec.busy, bench.rec.frequency), (due, frequency));
        }
    }
}

/// P12's wish at 270 kHz: "The plan's waits follow; the four opening waits and the reset time
/// stay."
#[test]
fn the_plans_waits_follow() {
    let wish = Wish {
        frequency: NEWER_KHZ,
        ..plain_wish()
    };
    let mut out = [0; PLAN_BYTES];
    let answer = plan(&wish, &[0; MEMORY], &[0; MEMORY], &mut out);
    assert_eq!(answer, (DONE, 18));
    let records = transfers_of(&out[..18 * TRANSFER_BYTES]);
    let waits: Vec<u32> = records.into_iter().map(|(_, _, wait)| wait).collect();
    let due = [
        15000, 4100, 100, 100, 100, 1, 38, 1, 38, 1, 38, 1, 1519, 1, 38, 1, 38, 1,
    ];
    assert_eq!(waits, due);
}

/// Lines like those of P11, played at 270 kHz.
#[test]
fn a_session_at_270() {
    let input = "I\t38\t15000\nS\t00\t0\nD\t41\t10\nD\t41\t28\nS\t00\t38\nI\t01\t0\n";
    let report = "no\tanswer\tbyte\tbusy\n\
                  1\t0\t00\t38\n\
                  2\t0\t80\t38\n\
                  3\t4\t00\t28\n\
                  4\t0\t00\t38\n\
                  5\t0\t01\t0\n\
                  6\t0\t00\t1519\n";
    let played = play(input.as_bytes(), NEWER_KHZ, read_line, transfer);
    assert_eq!(played.report, report);
}

/// "record 20 to 21: frequency in kHz, little-endian. Wish 9 to 10 likewise."
#[test]
fn the_frequency_has_two_bytes_of_a_record_and_of_a_wish() {
    let rec = record_after_reset(NEWER_KHZ);
    let bytes = record_bytes(&rec);
    assert_eq!(bytes[20..], [0x0E, 0x01, 0x00, 0x00]);
    assert_eq!(record_of(&bytes), Some(rec));

    let wish = Wish {
        frequency: NEWER_KHZ,
        ..plain_wish()
    };
    let bytes = wish_bytes(&wish);
    assert_eq!(bytes[9..], [0x0E, 0x01, 0x00, 0x00, 0x00, 0x00, 0x00]);
    assert_eq!(wish_of(&bytes), Some(wish));
    for at in 11..16 {
        let mut damaged = bytes;
        damaged[at] = 1;
        assert_eq!(wish_of(&damaged), None);
    }
    for at in [22, 23] {
        let mut damaged = record_bytes(&rec);
        damaged[at] = 1;
        assert_eq!(record_of(&damaged), None);
    }
}
