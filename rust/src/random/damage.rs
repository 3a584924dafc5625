//! Damage to captures: a byte changed, dropped or doubled, a word or a section dropped or
//! doubled, a word turned round, the end cut off, or a piece put in that the subset does not
//! have there. That of a byte is done to lines too.

use super::Chance;
use crate::model::capture::is_blank;

/// Bytes that mean something in a capture, and some that may not stand there.
const BYTES: &[u8] = b" \t\r\n01xXzZbr#$!E9\x00\x0B\x20\x7F\x80\xFF";

/// Pieces for which the subset has no place among the sections, and some that may stand.
const AMONG_SECTIONS: [&str; 20] = [
    "$end",
    "#0",
    "$comment no $end",
    "$date today $end",
    "$version 1 $end",
    "$timescale 1 us $end",
    "$timescale 10 us $end",
    "$scope module top $end",
    "$scope program top $end",
    "$scope module $end",
    "$upscope $end",
    "$upscope top $end",
    "$var wire 1 ! RS $end",
    "$var wire 1 ! E $end",
    "$var wire 1 ! other $end",
    "$var wire 8 ! other $end",
    "$var real 1 ! other $end",
    "$var wire 1 ! other [0] $end",
    "$enddefinitions $end",
    "$dumpvars $end",
];

/// The same among the changes.
const AMONG_CHANGES: [&str; 18] = [
    "$end",
    "#",
    "#-1",
    "#4294967295",
    "#4294967296",
    "b1 !",
    "r1.5 !",
    "$dumpvars",
    "$dumpvars $end",
    "$dumpvars #0 $end",
    "$dumpvars $dumpvars $end",
    "$dumpall $end",
    "$dumpon $end",
    "$dumpoff $end",
    "$comment no $end",
    "$upscope $end",
    "$var wire 1 ! other $end",
    "$enddefinitions $end",
];

/// Damages a capture in one place.
pub fn damage(chance: &mut Chance, text: &mut Vec<u8>) {
    if text.is_empty() {
        return;
    }
    let at = chance.index(text.len());
    match chance.below(12) {
        0..=1 => text[at] = chance.pick(BYTES),
        2 => drop(text.remove(at)),
        3 => text.insert(at, text[at]),
        4 => text.truncate(at),
        5 => *text = chance.pick(&WORD_DAMAGES)(text, at),
        6..=7 => section_repeated(chance, text),
        _ => piece_put_in(chance, text),
    }
}

/// Every capture that one damage of a byte or of a word makes of this one.
pub fn every_damage(text: &[u8]) -> Vec<Vec<u8>> {
    let mut damaged = Vec::new();
    for at in 0..text.len() {
        damaged.extend(byte_damages(text, at, BYTES));
        let begins = !is_blank(text[at]) && (at == 0 || is_blank(text[at - 1]));
        if begins {
            damaged.extend(WORD_DAMAGES.map(|damage| damage(text, at)));
        }
    }
    damaged
}

/// The byte at a place dropped, doubled, and changed to each of these.
pub(super) fn byte_damages(text: &[u8], at: usize, bytes: &[u8]) -> Vec<Vec<u8>> {
    let (before, byte, behind) = (&text[..at], &text[at..=at], &text[at + 1..]);
    let mut damaged = vec![
        [before, behind].concat(),
        [before, byte, byte, behind].concat(),
    ];
    damaged.extend(bytes.iter().map(|&new| [before, &[new], behind].concat()));
    damaged
}

/// Random words of those that captures have.
pub fn noise(chance: &mut Chance) -> Vec<u8> {
    let mut text = Vec::new();
    for _ in 0..chance.below(30) {
        let (section, change) = (chance.pick(&AMONG_SECTIONS), chance.pick(&AMONG_CHANGES));
        let word = chance.pick(&["0!", "1!", "x!", "#0", "#1", section, change]);
        text.extend_from_slice(word.as_bytes());
        text.push(chance.pick(b" \n"));
    }
    text
}

/// Where the word at a place begins, and where it ends; at a blank both are the place.
fn word_at(text: &[u8], at: usize) -> (usize, usize) {
    let before = text[..at].iter().rev().take_while(|&&byte| !is_blank(byte));
    let begin = if is_blank(text[at]) {
        at
    } else {
        at - before.count()
    };
    (begin, end_of_word(text, at))
}

fn end_of_word(text: &[u8], at: usize) -> usize {
    let rest = text[at..].iter().take_while(|&&byte| !is_blank(byte));
    at + rest.count()
}

/// A damage to the word at a place.
type WordDamage = fn(&[u8], usize) -> Vec<u8>;

const WORD_DAMAGES: [WordDamage; 3] = [word_dropped, word_doubled, word_turned];

fn word_dropped(text: &[u8], at: usize) -> Vec<u8> {
    let (begin, end) = word_at(text, at);
    [&text[..begin], &text[end..]].concat()
}

fn word_doubled(text: &[u8], at: usize) -> Vec<u8> {
    let (begin, end) = word_at(text, at);
    [&text[..end], b" ", &text[begin..]].concat()
}

/// All but the word's first byte in the other order: a change keeps its value, and has a
/// code that is nearly declared.
fn word_turned(text: &[u8], at: usize) -> Vec<u8> {
    let (begin, end) = word_at(text, at);
    let mut turned = text.to_vec();
    turned[end.min(begin + 1)..end].reverse();
    turned
}

/// Where a section or a stamp begins.
fn beginnings(text: &[u8]) -> Vec<usize> {
    let begins = |&at: &usize| {
        let word = &text[at..end_of_word(text, at)];
        let is_first = at == 0 || is_blank(text[at - 1]);
        is_first && word != END && (word.starts_with(b"$") || word.starts_with(b"#"))
    };
    (0..text.len()).filter(begins).collect()
}

const END: &[u8] = b"$end";

/// A section, or what stands between a stamp and the next `$end`, is dropped or doubled.
fn section_repeated(chance: &mut Chance, text: &mut Vec<u8>) {
    let beginnings = beginnings(text);
    if beginnings.is_empty() {
        return;
    }
    let begin = chance.pick(&beginnings);
    let rest = text[begin..].windows(END.len());
    let end = begin + rest.take_while(|&four| four != END).count() + END.len();
    let section = text[begin..end.min(text.len())].to_vec();
    match chance.percent(50) {
        true => drop(text.drain(begin..begin + section.len())),
        false => drop(text.splice(begin..begin, [&section, &b" "[..]].concat())),
    }
}

/// A piece is put in between two sections, or between two stamps.
fn piece_put_in(chance: &mut Chance, text: &mut Vec<u8>) {
    const LAST: &[u8] = b"$enddefinitions";
    let last = text.windows(LAST.len()).position(|word| word == LAST);
    let last = last.unwrap_or(text.len());
    let (sections, mut stamps): (Vec<usize>, Vec<usize>) =
        beginnings(text).into_iter().partition(|&at| at <= last);
    stamps.push(text.len());
    let (at, piece) = match sections.is_empty() || chance.percent(50) {
        true => (chance.pick(&stamps), chance.pick(&AMONG_CHANGES)),
        false => (chance.pick(&sections), chance.pick(&AMONG_SECTIONS)),
    };
    text.splice(at..at, format!(" {piece} ").into_bytes());
}
