//! Document 02, d) "The oscillator that is fitted". Frequencies are whole kHz.

use std::ops::RangeInclusive;

/// "a frequency from 190 to 350 kHz".
pub const FREQUENCIES: RangeInclusive<u16> = 190..=350;

/// "with 250 and 270 as the two named module kinds": "Newer modules run at 270 kHz", and 250
/// is that of document 01's times and cases.
pub const USUAL_KHZ: u16 = 250;
pub const NEWER_KHZ: u16 = 270;

/// "Reset keeps a frequency in range and puts 250 for any other."
pub(super) fn frequency_after_reset(found: u16) -> u16 {
    if FREQUENCIES.contains(&found) {
        found
    } else {
        USUAL_KHZ
    }
}

/// "Each execution time becomes the 250 kHz time times 250, divided by the frequency,
/// rounded up". It is asked of frequencies in range alone.
pub fn time_at(frequency: u16, time: u32) -> u32 {
    (time * u32::from(USUAL_KHZ)).div_ceil(frequency.into())
}
