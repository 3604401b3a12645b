//! A text's words and symbols, split in one pass. Comments are left out; nothing else is looked at.

fn is_word_byte(byte: u8) -> bool {
    byte.is_ascii_alphanumeric() || byte == b'-'
}

/// How many bytes the comment takes that begins a text, if one does.
pub fn comment_length(bytes: &[u8]) -> usize {
    if bytes.starts_with(b"//") {
        return bytes.iter().position(|byte| *byte == b'\n').unwrap_or(bytes.len());
    }
    if !bytes.starts_with(b"/*") {
        return 0;
    }
    let (mut at, mut depth) = (2, 1);
    while depth > 0 && at < bytes.len() {
        if bytes[at..].starts_with(b"/*") {
            depth += 1;
            at += 2;
        } else if bytes[at..].starts_with(b"*/") {
            depth -= 1;
            at += 2;
        } else {
            at += 1;
        }
    }
    at
}

/// How many bytes the word or the symbol takes that begins a text, which is not empty.
pub fn word_length(bytes: &[u8]) -> usize {
    if bytes[0].is_ascii_alphanumeric() {
        return bytes.iter().take_while(|byte| is_word_byte(**byte)).count();
    }
    if bytes.starts_with(b"->") { 2 } else { 1 }
}

pub fn split(text: &str) -> Vec<&str> {
    let bytes = text.as_bytes();
    let mut words = Vec::new();
    let mut at = 0;
    while at < bytes.len() {
        let comment = comment_length(&bytes[at..]);
        if comment > 0 {
            at += comment;
        } else if bytes[at].is_ascii_whitespace() {
            at += 1;
        } else {
            let length = word_length(&bytes[at..]);
            words.push(&text[at..at + length]);
            at += length;
        }
    }
    words
}
