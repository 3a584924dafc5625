//! Document 01, "What each number says", and the numbers of document 02's requests: every
//! answer has its name here, and is known by it elsewhere.

/// The number of an answer.
pub type Answer = u8;

/// "done"
pub const DONE: Answer = 0;
/// "record unsound". 9, "counter on no cell", has no name here: a counter on no cell makes
/// the record unsound, and 1 comes before 9.
pub const UNSOUND: Answer = 1;
/// "memory, marks or values not 144 long"
pub const WRONG_LENGTH: Answer = 2;
/// "kind above 3, or a read with a byte"
pub const WRONG_KIND: Answer = 3;
/// "busy"
pub const BUSY: Answer = 4;
/// "first half taken"
pub const FIRST_HALF: Answer = 5;
/// "display address without a cell"
pub const NO_CELL: Answer = 6;
/// "stale read, done"
pub const STALE: Answer = 7;
/// "crossed halves, done"
pub const CROSSED: Answer = 8;
/// "columns or lines out of range". Request e: "an unknown profile is 10".
pub const OUT_OF_RANGE: Answer = 10;
/// "output too short"
pub const TOO_SHORT: Answer = 11;
/// "not a wish". 12, "bad line", is retired by request c.
pub const NOT_A_WISH: Answer = 13;
/// Request b: "text outside the subset (a needed name twice or an undeclared code too)"
pub const OUTSIDE_SUBSET: Answer = 14;
/// Request b: "needed signal missing"
pub const SIGNAL_MISSING: Answer = 15;
/// Request c: "kind or its tab"
pub const BAD_KIND: Answer = 16;
/// Request c: "byte or its tab"
pub const BAD_BYTE: Answer = 17;
/// Request c: "wait"
pub const BAD_WAIT: Answer = 18;
/// Request c: "no newline where one must stand"
pub const NO_NEWLINE: Answer = 19;
/// Request b: "x or z on a needed line at a fall (DB lines only for writes)"
pub const UNKNOWN_LEVEL: Answer = 28;

/// "All but 0, 5, 7 and 8 are refusals."
pub fn is_refusal(answer: Answer) -> bool {
    !matches!(answer, DONE | FIRST_HALF | STALE | CROSSED)
}

/// What the table says of an answer.
pub fn words(answer: Answer) -> &'static str {
    match answer {
        DONE => "done",
        UNSOUND => "record unsound",
        WRONG_LENGTH => "memory, marks or values not 144 long",
        WRONG_KIND => "kind above 3, or a read with a byte",
        BUSY => "busy",
        FIRST_HALF => "first half taken",
        NO_CELL => "display address without a cell",
        STALE => "stale read, done",
        CROSSED => "crossed halves, done",
        OUT_OF_RANGE => "columns or lines out of range",
        TOO_SHORT => "output too short",
        NOT_A_WISH => "not a wish",
        OUTSIDE_SUBSET => "text outside the subset",
        SIGNAL_MISSING => "needed signal missing",
        BAD_KIND => "kind or its tab",
        BAD_BYTE => "byte or its tab",
        BAD_WAIT => "wait",
        NO_NEWLINE => "no newline where one must stand",
        UNKNOWN_LEVEL => "x or z on a needed line at a fall",
        _ => unreachable!("no such answer is given"),
    }
}
