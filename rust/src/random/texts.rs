//! Random session texts.

use super::phrases::Text;
use super::records::any_frequency;
use super::Chance;
use crate::model::SESSION_BYTES;

/// The numbers of the panels' generators lie past those of the texts'.
const PANELS: u64 = 1 << 40;

/// The frequency that a program is asked for: none, or one in range.
pub fn asked_frequency(chance: &mut Chance) -> Option<u16> {
    let frequency = any_frequency(chance);
    chance.percent(60).then_some(frequency)
}

/// Text number k of a seed, whose waits are around the times at a frequency.
pub fn random_text(seed: u64, number: u64, frequency: u16) -> Vec<u8> {
    let mut chance = Chance::new(seed, number);
    match chance.below(100) {
        0..=1 => noise(&mut chance),
        2 => large_text(&mut chance, frequency),
        _ => text_of_lines(&mut chance, frequency),
    }
}

/// Text number k of a seed for a panel that is to be seen: one that turns the display on
/// and writes to it, and then the text above; now and then that text alone.
pub fn random_panel_text(seed: u64, number: u64, frequency: u16) -> Vec<u8> {
    let rest = random_text(seed, number, frequency);
    let mut chance = Chance::new(seed, PANELS + number);
    // A text near the limit stays as it is, so that the limit is met.
    if rest.len() > SESSION_BYTES / 2 || chance.percent(15) {
        return rest;
    }
    let mut text = Text::patient(&mut chance, frequency);
    text.panel();
    [text.bytes, rest].concat()
}

/// Random bytes alone, or random ones of those that lines are made of.
fn noise(chance: &mut Chance) -> Vec<u8> {
    let length = chance.index(300);
    if chance.percent(50) {
        return chance.bytes(length);
    }
    (0..length)
        .map(|_| chance.pick(b"IDSR\t\n00123489AF"))
        .collect()
}

/// Good lines close to, at, or over 65,536 bytes.
fn large_text(chance: &mut Chance, frequency: u16) -> Vec<u8> {
    let length = match chance.below(8) {
        0 => 65_535,
        1 | 2 => 65_536,
        3 => 65_537,
        4 => chance.between(65_400, 65_534),
        5 => chance.between(65_538, 65_600),
        6 => chance.between(65_536, 70_000),
        _ => chance.between(70_000, 300_000),
    } as usize;
    let mut text = Text::new(chance, frequency);
    text.opening();
    text.fill_to(length);
    text.bytes
}

/// From 0 to some 400 lines, short texts more often than long ones. Something bad stands
/// in one text of three, more often towards its end.
fn text_of_lines(chance: &mut Chance, frequency: u16) -> Vec<u8> {
    let most = chance.pick(&[4, 20, 60, 150, 400]);
    let lines = chance.between(0, most);
    let bad_after = chance.between(0, lines).max(chance.between(0, lines)) as usize;
    let mut bad = chance.percent(33);
    let mut text = Text::new(chance, frequency);
    if lines > 0 {
        text.opening();
    }
    while text.lines < lines as usize {
        if bad && text.lines >= bad_after {
            text.damaged();
            bad = false;
        }
        text.phrase();
    }
    if bad {
        text.damaged();
    }
    let mut bytes = text.bytes;
    // Now and then the last newline, or a little more, is cut off.
    if chance.percent(6) {
        let cut = chance.pick(&[1, 1, 1, 2, 3, 5]);
        bytes.truncate(bytes.len().saturating_sub(cut));
    }
    bytes
}
