//! Document 01, "Session lines": the session program.

use super::{is_refusal, read_line, record_after_reset, reset, transfer};
use super::{Answer, Line, Record, DONE, MEMORY, USUAL_KHZ};

/// "reads standard input up to 65,536 bytes".
pub const SESSION_BYTES: usize = 65_536;
/// "the one line `too long`"
pub const TOO_LONG: &[u8] = b"too long\n";
/// "prints the header".
pub const HEADER: &str = "no\tanswer\tbyte\tbusy\n";

/// A function with the shape of `read_line`.
pub type Reader = fn(&[u8]) -> (Answer, Line);
/// A function with the shape of `transfer`.
pub type Step = fn(Record, &mut [u8], u8, u8, u32) -> (Answer, u8, Record);

/// The whole report of the session program on an input. It runs at 250 kHz where nothing else
/// is asked for.
pub fn session(text: &[u8]) -> Vec<u8> {
    // "longer: the one line `too long`"
    if text.len() > SESSION_BYTES {
        return TOO_LONG.to_vec();
    }
    let played = play(text, USUAL_KHZ, read_line, transfer);
    played.report.into_bytes()
}

/// What a program tells on standard error of a text that is too long.
pub fn told_too_long(program: &str) -> String {
    format!(
        "{program}: the session is longer than 65,536 bytes, the most that is taken. \
         Nothing was played.\n"
    )
}

/// The bad line that ends a session.
#[derive(Clone, Copy, Debug, PartialEq, Eq)]
pub struct BadLine {
    pub number: usize,
    /// Where in the line its fault is.
    pub offset: usize,
    /// Where in the report its row begins.
    pub row: usize,
}

/// A text of lines, played to its end or to its first bad line.
pub struct Played {
    pub rec: Record,
    pub mem: [u8; MEMORY],
    pub report: String,
    pub bad_line: Option<BadLine>,
    /// The transfers that were played, and those of them that were refused.
    pub transfers: usize,
    pub refused: usize,
    /// The line of the first refused transfer, and its answer.
    pub first_refused: Option<(usize, Answer)>,
}

impl Played {
    /// "starts from reset with pattern cells 00h", "prints the header".
    fn start(frequency: u16) -> Played {
        let mut mem = [0x00; MEMORY];
        let (_, rec) = reset(record_after_reset(frequency), &mut mem);
        Played {
            rec,
            mem,
            report: String::from(HEADER),
            bad_line: None,
            transfers: 0,
            refused: 0,
            first_refused: None,
        }
    }

    /// "its number from 1, answer, byte (two upper-case hex digits) and busy left,
    /// tab-parted."
    fn row(&mut self, number: usize, answer: Answer, byte: u8) {
        let busy = self.rec.busy;
        let row = format!("{number}\t{answer}\t{byte:02X}\t{busy}\n");
        self.report.push_str(&row);
    }

    /// What a program tells on standard error of the bad line, if there was one: its place,
    /// the column counted from 1. The words behind that are the program's own.
    pub fn told(&self, program: &str) -> String {
        let Some(BadLine { number, offset, .. }) = self.bad_line else {
            return String::new();
        };
        format!("{program}: line {number}, column {}:\n", offset + 1)
    }
}

/// Plays a text of any length at a frequency, with a reader and a transfer of the caller's.
pub fn play(text: &[u8], frequency: u16, read: Reader, step: Step) -> Played {
    play_until(text, usize::MAX, frequency, read, step)
}

/// The same of at most so many transfers: what is after them is not looked at.
pub fn play_until(text: &[u8], until: usize, frequency: u16, read: Reader, step: Step) -> Played {
    let mut played = Played::start(frequency);
    let mut rest = text;
    let mut number = 1;
    while !rest.is_empty() && number <= until {
        let (read_answer, line) = read(rest);
        // "A bad line prints its number, answer 12, byte 00 and the busy as it
        // stands, and ends it." Request c: "the session program prints the finer number",
        // and 12 is retired.
        if read_answer != DONE {
            played.bad_line = Some(BadLine {
                number,
                offset: line.offset,
                row: played.report.len(),
            });
            played.row(number, read_answer, 0x00);
            break;
        }
        let (kind, byte, wait) = (line.kind, line.byte, line.wait);
        let (answer, byte, rec) = step(played.rec, &mut played.mem, kind, byte, wait);
        played.rec = rec;
        played.row(number, answer, byte);
        played.transfers = number;
        if is_refusal(answer) {
            played.refused += 1;
            played.first_refused.get_or_insert((number, answer));
        }
        rest = &rest[line.length..];
        number += 1;
    }
    played
}
