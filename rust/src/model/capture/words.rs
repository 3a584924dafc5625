//! The words of a capture.

/// Reading: "Text is read by tokens, parted by space, tab, newline and carriage return, so
/// line ends do not matter."
pub fn is_blank(byte: u8) -> bool {
    matches!(byte, b' ' | b'\t' | b'\n' | b'\r')
}

/// The words, or nothing. Reading: "Any other byte outside 21h to 7Eh is 14."
pub fn words(text: &[u8]) -> Option<Vec<&[u8]>> {
    let is_plain = |&byte: &u8| is_blank(byte) || (0x21..=0x7E).contains(&byte);
    if !text.iter().all(is_plain) {
        return None;
    }
    let parts = text.split(|&byte| is_blank(byte));
    Some(parts.filter(|part| !part.is_empty()).collect())
}
