//! Random captures, and the random sessions that captures are made from.

use super::pod::Pod;
use super::{damage, lines, Chance};
use crate::model::capture::is_blank;
use crate::model::{capture_of, Transfer, KINDS};

/// Capture number k of a seed: one of four is damaged.
pub fn random_capture(seed: u64, number: u64) -> Vec<u8> {
    let mut chance = Chance::new(seed, number);
    if chance.percent(2) {
        return damage::noise(&mut chance);
    }
    let mut text = sound_capture(&mut chance);
    if chance.percent(25) {
        for _ in 0..chance.pick(&[1, 1, 1, 1, 2]) {
            damage::damage(&mut chance, &mut text);
        }
    }
    text
}

/// A capture inside the subset. Lines may be missing, and some x or z at a fall.
pub fn sound_capture(chance: &mut Chance) -> Vec<u8> {
    match chance.percent(10) {
        true => made(chance),
        false => watched(chance),
    }
}

/// A session "whose first wait is 0 and whose later waits are 2 or more".
pub fn session_to_capture(chance: &mut Chance) -> Vec<Transfer> {
    let most = chance.pick(&[1, 3, 10, 40]);
    let count = chance.between(0, most);
    let mut session = Vec::new();
    for number in 0..count {
        let (kind, wait) = (chance.pick(&KINDS), lines::wait(chance).max(2));
        let byte = lines::byte_of(kind, chance.byte());
        session.push((kind, byte, if number == 0 { 0 } else { wait }));
    }
    session
}

/// First stamps: those around the pod's new start among them.
pub fn first_stamp(chance: &mut Chance) -> u32 {
    let any = chance.bits() as u32;
    let near_the_end = u32::MAX - chance.below(60) as u32;
    chance.pick(&[0, 0, 1, 100, any, near_the_end, near_the_end, u32::MAX])
}

/// A capture made from such a session.
fn made(chance: &mut Chance) -> Vec<u8> {
    let first = first_stamp(chance);
    capture_of(&session_to_capture(chance), first)
}

/// A capture of a bus with pulses, and what else happens there.
fn watched(chance: &mut Chance) -> Vec<u8> {
    let pulses = chance.pick(&[0, 1, 2, 3, 5, 8, 30]);
    let pulses = chance.between(0, pulses);
    let mut pod = Pod::new(chance);
    pod.definitions();
    pod.opening();
    for _ in 0..pulses {
        pod.phrase();
    }
    let words = pod.words;
    spaced(chance, &words)
}

/// The words with blanks between them: a line each, or any that part words.
fn spaced(chance: &mut Chance, words: &[String]) -> Vec<u8> {
    let style = chance.below(4);
    let mut text = Vec::new();
    if chance.percent(10) {
        text.push(chance.pick(b" \t\r\n"));
    }
    for word in words {
        text.extend_from_slice(word.as_bytes());
        let blank: &[u8] = match style {
            0 => b"\n",
            1 => b"\r\n",
            2 => chance.pick(&[b" ", b"\t"]),
            _ => chance.pick(&[&b" "[..], b"\n", b"\r", b"\t", b"\r\n", b" \n\n", b"\t \r"]),
        };
        text.extend_from_slice(blank);
    }
    // Now and then nothing stands behind the last word.
    while chance.percent(30) && text.last().is_some_and(|&byte| is_blank(byte)) {
        text.pop();
    }
    text
}
