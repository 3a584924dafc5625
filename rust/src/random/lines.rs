//! Random session lines, good and damaged.

use super::damage::byte_damages;
use super::Chance;
use crate::model::{is_read, letter, KINDS};

/// "00h for reads".
pub fn byte_of(kind: u8, byte: u8) -> u8 {
    if is_read(kind) {
        0x00
    } else {
        byte
    }
}

/// A good line, if the byte and the wait are.
pub fn line(kind: u8, byte: u8, wait: u64) -> Vec<u8> {
    format!("{}\t{byte:02X}\t{wait}\n", letter(kind)).into_bytes()
}

/// Waits of every length, those at the ends of their lengths among them.
pub fn wait(chance: &mut Chance) -> u32 {
    let power = 10u32.pow(chance.below(10) as u32);
    let any = chance.bits() as u32 >> chance.below(32);
    chance.pick(&[0, power - 1, power, u32::MAX, u32::MAX - 1, any, any, any])
}

/// A good line of any transfer.
pub fn good_line(chance: &mut Chance) -> Vec<u8> {
    let kind = chance.pick(&KINDS);
    let byte = byte_of(kind, chance.byte());
    line(kind, byte, wait(chance).into())
}

/// A line that should be bad, or nearly so; now and then in two places, so that one fault
/// comes first.
pub fn damaged_line(chance: &mut Chance) -> Vec<u8> {
    let (mut line, edits) = match chance.below(8) {
        0..=1 => (bad_wait(chance).into_bytes(), 0),
        2..=3 => (bad_byte(chance).into_bytes(), 0),
        4..=5 => (bad_form(chance).into_bytes(), 0),
        _ => (good_line(chance), 1),
    };
    for _ in 0..edits + chance.pick(&[0, 0, 1]) {
        edit(chance, &mut line);
    }
    line
}

/// A line, good or damaged, and every text that one damage makes of it: at each place a byte
/// is dropped, doubled, changed to each of the 256 or exchanged with the one before it, or
/// each of the 256 is put in. The same stands behind each of them; then come those that end
/// at each place.
pub fn every_damage(chance: &mut Chance) -> Vec<Vec<u8>> {
    let line = match chance.percent(70) {
        true => good_line(chance),
        false => damaged_line(chance),
    };
    let all: Vec<u8> = (u8::MIN..=u8::MAX).collect();
    let mut damaged = vec![line.clone()];
    for at in 0..line.len() {
        damaged.extend(byte_damages(&line, at, &all));
        let (before, behind) = line.split_at(at);
        damaged.extend(all.iter().map(|&new| [before, &[new], behind].concat()));
        let mut exchanged = line.clone();
        exchanged.swap(at.saturating_sub(1), at);
        damaged.push(exchanged);
    }
    let after = behind_line(chance);
    for text in &mut damaged {
        text.extend_from_slice(&after);
    }
    damaged.extend((0..=line.len()).map(|length| line[..length].to_vec()));
    damaged
}

/// What may stand behind a line: nothing, another one, or anything.
pub fn behind_line(chance: &mut Chance) -> Vec<u8> {
    match chance.below(4) {
        0 => good_line(chance),
        1 => {
            let length = chance.index(20);
            chance.bytes(length)
        }
        _ => Vec::new(),
    }
}

/// A wait with a leading zero or a sign, without digits, or around the greatest.
fn bad_wait(chance: &mut Chance) -> String {
    let kind = chance.pick(&KINDS);
    let start = format!("{}\t{:02X}\t", letter(kind), byte_of(kind, chance.byte()));
    let wait = wait(chance);
    match chance.below(8) {
        0 => format!("{start}0{wait}\n"),
        1 => format!("{start}00\n"),
        2 => format!("{start}\n"),
        3 => format!("{start}{}{wait}\n", chance.pick(&['-', '+', ' '])),
        4 => format!("{start}{}\n", 4_294_967_296 + chance.below(3)),
        5 => format!("{start}{}\n", 4_294_967_295 - chance.below(3)),
        6 => format!("{start}{}{wait}\n", chance.bits()),
        _ => format!(
            "{start}{}\n",
            chance.pick(&[9_999_999_999u64, 10_000_000_000])
        ),
    }
}

/// One digit, three digits or a lower-case one; a read with a byte.
fn bad_byte(chance: &mut Chance) -> String {
    let kind = chance.pick(&KINDS);
    let (letter, read) = (letter(kind), chance.pick(&['S', 'R']));
    let (byte, wait) = (chance.byte(), wait(chance));
    match chance.below(5) {
        0 => format!("{letter}\t{:02x}\t{wait}\n", byte | 0x0A),
        1 => format!("{letter}\t{:X}\t{wait}\n", byte & 0x0F),
        2 => format!("{letter}\t{:03X}\t{wait}\n", byte_of(kind, byte)),
        3 => format!("{read}\t{:02X}\t{wait}\n", byte | 0x01),
        _ => format!("{read}\t{:02X}\t{wait}\n", byte | 0x10),
    }
}

/// Tabs, newline or letter missing, doubled or replaced.
fn bad_form(chance: &mut Chance) -> String {
    let kind = chance.pick(&KINDS);
    let letter = letter(kind);
    let (byte, wait) = (byte_of(kind, chance.byte()), wait(chance));
    match chance.below(12) {
        0 => format!("{letter}{byte:02X}\t{wait}\n"),
        1 => format!("{letter}\t{byte:02X}{wait}\n"),
        2 => format!("{letter} {byte:02X} {wait}\n"),
        3 => format!("{letter}\t{byte:02X}\t{wait}\r\n"),
        4 => format!("{letter}\t{byte:02X}\t{wait} \n"),
        5 => format!("{letter}\t{byte:02X}\t{wait}\t\n"),
        6 => format!(" {letter}\t{byte:02X}\t{wait}\n"),
        7 => format!("{}\t{byte:02X}\t{wait}\n", letter.to_ascii_lowercase()),
        8 => format!(
            "{}\t{byte:02X}\t{wait}\n",
            chance.pick(&['X', 'Z', 'T', 'C'])
        ),
        9 => "\n".to_string(),
        10 => format!("{letter}\t{byte:02X}\t\t{wait}\n"),
        // Without its newline, so that what follows runs into it.
        _ => format!("{letter}\t{byte:02X}\t{wait}"),
    }
}

/// One byte replaced, put in or taken out, or the line cut.
fn edit(chance: &mut Chance, line: &mut Vec<u8>) {
    if line.is_empty() {
        return;
    }
    let at = chance.index(line.len());
    let any = chance.byte();
    let near = line[at].wrapping_add(chance.pick(&[1, 0xFF, 0x20, 0xE0]));
    let new = chance.pick(b"\t\n\r 019:;/@AGFIDSRa\0\xFF");
    let new = chance.pick(&[any, near, new, new]);
    match chance.below(4) {
        0 => line[at] = new,
        1 => line.insert(at, new),
        2 => drop(line.remove(at)),
        _ => line.truncate(at),
    }
}
