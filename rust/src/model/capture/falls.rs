//! The falls of E in a capture, and the transfer at each.

use super::{Levels, Moment, DB0, E, RS, RW};
use crate::model::Transfer;
use crate::model::{DATA_READ, DATA_WRITE, INSTRUCTION_WRITE, STATUS_READ};

/// "E counts as it stands after all changes at a stamp; where that goes from 1 at one stamp
/// to 0 at the next there is one transfer". Reading: "1 to x to 0 is no fall."
pub fn falls(moments: &[Moment]) -> Vec<Moment> {
    let next = moments.iter().skip(1);
    moments
        .iter()
        .zip(next)
        .filter(|(one, next)| one.levels[E] == Some(true) && next.levels[E] == Some(false))
        .map(|(_, next)| *next)
        .collect()
}

/// The transfers, or nothing where a line that is needed is x or z. Reading: "The other
/// lines count as they stand after all changes of the fall's stamp."
pub fn transfers(moments: &[Moment]) -> Option<Vec<Transfer>> {
    // "The first transfer has wait 0". Reading: "An imported session keeps the first wait
    // at 0, as the request says; the bench after reset is busy for 10,000, so its first
    // transfers are refused as busy until the reader raises that wait."
    let mut previous = None;
    let transfer = |fall: Moment| {
        let (kind, byte) = sent(&fall.levels)?;
        let wait = previous.map_or(0, |previous| wait_between(previous, fall.stamp));
        previous = Some(fall.stamp);
        Some((kind, byte, wait))
    };
    falls(moments).into_iter().map(transfer).collect()
}

/// "Our pod's stamp has 32 bits and starts again from 0, so each wait is the difference
/// modulo 4,294,967,296."
fn wait_between(previous: u32, stamp: u32) -> u32 {
    stamp.wrapping_sub(previous)
}

/// Kind and byte "with the other lines as they then stand"; "a read's byte is written 00".
/// A status read has RS=0, R/W=1, as document 01 says of documents 002 and 003.
fn sent(levels: &Levels) -> Option<(u8, u8)> {
    match (levels[RS]?, levels[RW]?) {
        (false, false) => Some((INSTRUCTION_WRITE, byte_on(levels)?)),
        (true, false) => Some((DATA_WRITE, byte_on(levels)?)),
        // "DB lines only for writes"
        (false, true) => Some((STATUS_READ, 0x00)),
        (true, true) => Some((DATA_READ, 0x00)),
    }
}

/// The byte on DB7 to DB0, DB0 the lowest bit.
pub fn byte_on(levels: &Levels) -> Option<u8> {
    let mut from_the_top = levels[DB0..].iter().rev();
    from_the_top.try_fold(0, |byte, &level| Some(byte << 1 | u8::from(level?)))
}
