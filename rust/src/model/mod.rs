//! The rules of document 01 (`01-scope.md`) in plain Rust, a file for each of its chapters;
//! "Session lines" has two. Of document 02 (`02-change-requests.md`) request b has a folder,
//! `capture/`, request c is in `lines.rs`, request d in `oscillator.rs` and request e in
//! `dots.rs`.
//!
//! Written from the documents alone, apart from the proved code.
//! Sentences in quotation marks are those of document 01, and in `capture/`, `lines.rs`,
//! `oscillator.rs` and `dots.rs` those of the requests; "reading n" is the n-th reading of
//! docs/DECISIONS.md. Time is whole microseconds.
//!
//! Every function is total, and a refusal leaves lent bytes as it found them.

mod answers;
pub mod capture;
mod dots;
mod lines;
mod oscillator;
mod plan;
mod record;
mod session;
mod transfer;

pub use answers::*;
pub use capture::{capture_of, import, session_text, Importer};
pub use dots::{cell_after, line_length, shape, shown_cell};
pub use dots::{picture, picture_by, picture_bytes};
pub use dots::{Panel, Size, DIVIDED, FONT, FOUR_ROWS, PLAIN, SHAPE_ROWS};
pub use lines::{letter, read_line, write_line, Line, LINE_BYTES};
pub use oscillator::{time_at, FREQUENCIES, NEWER_KHZ, USUAL_KHZ};
pub use plan::{little_endian, transfer_bytes, transfers_of};
pub use plan::{plan, Wish, PLAN_BYTES, TRANSFER_BYTES};
pub use record::{address, is_sound, place, record_after_reset, reset, Counter, Half, Record};
pub use record::{DISPLAY_CELLS, LONGEST_BUSY, MEMORY, PATTERN_CELLS};
pub use session::{play, play_until, session, told_too_long, BadLine, Played, Reader, Step};
pub use session::{HEADER, SESSION_BYTES, TOO_LONG};
pub use transfer::{is_read, transfer, Transfer, LONG_TIME, SHORT_TIME};
pub use transfer::{DATA_READ, DATA_WRITE, INSTRUCTION_WRITE, KINDS, STATUS_READ};
