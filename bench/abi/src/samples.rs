//! Values as they stand in the memory of a giver.

use crate::ours::words::*;
use crate::ours::{Call, UTF8, UTF16};

/// A memory that is filled from its beginning; its first 8 bytes are nothing's.
struct Memory {
    bytes: Vec<u8>,
}

impl Memory {
    fn new() -> Self {
        Memory { bytes: vec![0; 8] }
    }

    /// Puts bytes at the next address that is aligned: the address.
    fn put(&mut self, align: usize, bytes: &[u8]) -> u32 {
        let at = self.bytes.len().next_multiple_of(align);
        self.bytes.resize(at, 0);
        self.bytes.extend_from_slice(bytes);
        at as u32
    }
}

/// A list of so many numbers of 32 bits.
pub fn numbers(count: usize) -> Call {
    let mut memory = Memory::new();
    let bytes: Vec<u8> = (0..count as u32)
        .flat_map(|i| i.wrapping_mul(2_654_435_761).to_le_bytes())
        .collect();
    let at = memory.put(4, &bytes);
    Call {
        words: vec![U32, LIST],
        source: UTF8,
        target: UTF8,
        giver: memory.bytes,
        slots: vec![at, count as u32],
    }
}

/// A text, to be passed from one encoding to another.
pub fn text(text: &str, source: u32, target: u32) -> Call {
    let mut memory = Memory::new();
    let units: Vec<u8> = text.encode_utf16().flat_map(u16::to_le_bytes).collect();
    let bytes = if source == UTF16 {
        &units
    } else {
        text.as_bytes()
    };
    let at = memory.put(source as usize, bytes);
    Call {
        words: vec![STRING],
        source,
        target,
        slots: vec![at, bytes.len() as u32 / source],
        giver: memory.bytes,
    }
}

/// A list of so many strings of so many bytes of ASCII; the last one is no UTF-8, if it is to be
/// refused.
pub fn strings(count: usize, size: usize, is_refused: bool) -> Call {
    let mut memory = Memory::new();
    let mut list = Vec::new();
    for i in 0..count {
        let mut text: Vec<u8> = (0..size).map(|k| b'a' + ((i * 7 + k) % 26) as u8).collect();
        if is_refused && i == count - 1 {
            text[size - 1] = 0xff;
        }
        list.extend_from_slice(&memory.put(1, &text).to_le_bytes());
        list.extend_from_slice(&(size as u32).to_le_bytes());
    }
    let at = memory.put(4, &list);
    Call {
        words: vec![STRING, LIST],
        source: UTF8,
        target: UTF8,
        giver: memory.bytes,
        slots: vec![at, count as u32],
    }
}

/// The record of 16 mixed fields that `plain::record` passes. Its bool is a byte that is no 1.
pub fn record(is_refused: bool) -> Call {
    let mut memory = Memory::new();
    let text = memory.put(1, b"sixteen bytes...");
    let list = memory.put(1, &[7; 16]);
    let numbers = memory.put(4, &[9; 32]);
    let mut fields = vec![0x5a; 72];
    fields[0] = 2;
    let scalar = if is_refused { 0xd800 } else { u32::from('é') };
    fields[32..36].copy_from_slice(&scalar.to_le_bytes());
    fields[36] = 4;
    fields[40] = 1;
    for (offset, number) in [
        (48, text),
        (52, 16),
        (56, list),
        (60, 16),
        (64, numbers),
        (68, 8),
    ] {
        fields[offset..offset + 4].copy_from_slice(&number.to_le_bytes());
    }
    let at = memory.put(8, &fields);
    Call {
        words: record_words(),
        source: UTF8,
        target: UTF8,
        giver: memory.bytes,
        slots: vec![at],
    }
}

fn record_words() -> Vec<u32> {
    let mut words = vec![BOOL, U8, S8, U16, S16, U32, S32, U64, S64, CHAR];
    words.extend([enum_of(5), flags_of(8), U32, OPTION, STRING]);
    words.extend([U8, LIST, U32, LIST, record_of(16)]);
    words
}
