//! Where there is a transfer, which one, and its wait.

use crate::given::*;

/// Lines of an instruction write of 38h.
const BUS: &str = "0s 0w 07 06 15 14 13 02 01 00 ";

/// The session of these changes after those lines.
fn on_bus(changes: &str) -> Outcome {
    session_of(&format!("{BUS}{changes}"))
}

/// "one transfer, with the other lines as they then stand, written as a session line; a
/// read's byte is written 00."
#[test]
fn kinds_follow_rs_and_rw() {
    for (levels, line) in [
        ("0s 0w", "I 38 0"),
        ("1s 0w", "D 38 0"),
        ("0s 1w", "S 00 0"),
        ("1s 1w", "R 00 0"),
    ] {
        let changes = format!("{levels} #0 1e #1 0e");
        assert_eq!(on_bus(&changes), lines(&[line]));
    }
}

#[test]
fn every_byte_is_read_from_db7_to_db0() {
    for byte in 0..=255u8 {
        let bits = (0..8).map(|bit| format!("{}{bit} ", byte >> bit & 1));
        let changes = format!("0s 0w {} #0 1e #1 0e", bits.collect::<String>());
        assert_eq!(session_of(&changes), lines(&[&format!("I {byte:02X} 0")]));
    }
}

/// "E counts as it stands after all changes at a stamp".
#[test]
fn e_counts_at_the_end_of_a_stamp() {
    assert_eq!(on_bus("#0 0e #1 1e 0e #2"), lines(&[]));
    assert_eq!(on_bus("#0 1e #1 0e 1e #2 1e"), lines(&[]));
    assert_eq!(on_bus("#0 1e #1 0e 1e 0e #2 0e"), lines(&["I 38 0"]));
    assert_eq!(
        on_bus("#0 1e #1 0e #2 1e #4 0e 1e #5 0e"),
        lines(&["I 38 0", "I 38 4"])
    );
}

/// "The other lines count as they stand after all changes of the fall's stamp."
#[test]
fn lines_count_after_all_changes_of_the_stamp() {
    assert_eq!(on_bus("#0 1e #1 0e 1s 17"), lines(&["D B8 0"]));
    assert_eq!(on_bus("#0 1e #1 1s 0e 0s 1s"), lines(&["D 38 0"]));
    assert_eq!(on_bus("#0 1e #1 xs 0e 1s"), lines(&["D 38 0"]));
    assert_eq!(on_bus("#0 1e #1 0e #2 1s"), lines(&["I 38 0"]));
}

/// "a stamp repeated at once is one stamp", changes between them or not.
#[test]
fn a_repeated_stamp_is_one() {
    assert_eq!(on_bus("#0 1e #0 0e #1"), lines(&[]));
    assert_eq!(on_bus("#0 1e #1 0e #1 1e #2"), lines(&[]));
    assert_eq!(on_bus("#0 1e #1 0e #01 1s #1 #1"), lines(&["D 38 0"]));
    assert_eq!(on_bus("1e #0 #0 #1 #1 0e"), lines(&["I 38 0"]));
    // One that comes again later is another.
    assert_eq!(
        on_bus("#0 1e #1 0e #0 1e #1 0e"),
        lines(&["I 38 0", "I 38 0"])
    );
    assert_eq!(on_bus("#0 1e #1 #0 0e"), lines(&["I 38 0"]));
}

/// "Values before the first stamp count as at it."
#[test]
fn values_before_the_first_stamp_count_as_at_it() {
    assert_eq!(on_bus("1e #5 0e #6"), lines(&[]));
    assert_eq!(on_bus("1e #5 #6 0e"), lines(&["I 38 0"]));
    assert_eq!(on_bus("1e 0e 1e #5 #6 0e"), lines(&["I 38 0"]));
    assert_eq!(on_bus("1e #5 xe #6 0e"), lines(&[]));
}

/// "All lines are x until set. Values are 0, 1, x, X, z, Z. 1 to x to 0 is no fall."
#[test]
fn e_falls_from_1_to_0_alone() {
    for unknown in ["x", "X", "z", "Z"] {
        let through = format!("#0 1e #1 {unknown}e #2 0e");
        assert_eq!(on_bus(&through), lines(&[]));
        let within = format!("#0 1e #1 {unknown}e 0e");
        assert_eq!(on_bus(&within), lines(&["I 38 0"]));
        let and_back = format!("#0 1e #1 {unknown}e #2 1e #3 0e");
        assert_eq!(on_bus(&and_back), lines(&["I 38 0"]));
    }
    assert_eq!(on_bus("#0 #1 0e"), lines(&[]));
    assert_eq!(on_bus("#0 1e #1 xe"), lines(&[]));
    assert_eq!(on_bus("#0 0e #1 1e"), lines(&[]));
    // Where nothing changes at the next stamp, E stands as before.
    assert_eq!(on_bus("#0 1e #1 #2 #3 0e #4 #5 0e"), lines(&["I 38 0"]));
}

/// "No stamp at all is a capture of no transfers, answered 0."
#[test]
fn without_stamps_there_are_no_transfers() {
    for changes in ["", "1e 0e", "$dumpvars 1e $end 0e", BUS, "#5", "#5 1e"] {
        assert_eq!(session_of(changes), lines(&[]), "{changes:?}");
    }
}

/// "The first transfer has wait 0", whenever it comes.
#[test]
fn the_first_wait_is_0() {
    for (rise, fall) in [
        (0, 1),
        (99, 15_000),
        (u32::MAX - 1, u32::MAX),
        (u32::MAX, 0),
    ] {
        let changes = format!("#0 0e #{rise} 1e #{fall} 0e");
        assert_eq!(on_bus(&changes), lines(&["I 38 0"]));
    }
}

/// The wait is that of document 01, "since the previous transfer": from fall to fall,
/// however long E is up.
#[test]
fn a_wait_goes_from_fall_to_fall() {
    let changes = "#0 1e #10 0e #20 1e #50 0e #51 1e #52 0e";
    assert_eq!(on_bus(changes), lines(&["I 38 0", "I 38 40", "I 38 2"]));
}

/// "Our pod's stamp has 32 bits and starts again from 0, so each wait is the difference
/// modulo 4,294,967,296."
#[test]
fn waits_go_round_with_the_stamp() {
    for (first, second, wait) in [
        (4_294_967_295_u32, 1_u32, 2_u32),
        (4_294_967_290, 10, 16),
        (10, 4_294_967_295, 4_294_967_285),
        (10, 9, 4_294_967_295),
        (0, 4_294_967_295, 4_294_967_295),
        (2_147_483_648, 0, 2_147_483_648),
        (10, 10, 0),
    ] {
        let changes = format!("#5 1e #{first} 0e #7 1e #{second} 0e");
        assert_eq!(
            on_bus(&changes),
            lines(&["I 38 0", &format!("I 38 {wait}")])
        );
    }
}
