//! Adapters written by hand for one type each, without `unsafe`: in one pass they check what the
//! Canonical ABI checks, ask for the same memory in the same order, and copy. Those of `Hand` do so
//! in the phases of the library: a scan that checks the value and keeps a record of each part,
//! the answers to the requests of these parts, and a copy.

/// Why a value is refused.
#[derive(Debug, PartialEq)]
pub enum Fault {
    Misaligned,
    PointerBounds,
    TooLarge,
    BadText,
    BadChar,
    BadCase,
}

/// The most bytes of strings and lists in one call.
const MAX_CONTENT: u64 = 16_777_216;

/// The memory of a giver, and how many bytes of strings and lists may still come.
struct Giver<'a> {
    memory: &'a [u8],
    left: u64,
}

impl<'a> Giver<'a> {
    fn new(memory: &'a [u8]) -> Self {
        Giver {
            memory,
            left: MAX_CONTENT,
        }
    }

    /// So many bytes at a pointer.
    fn region(&self, at: u32, align: u32, size: u64) -> Result<&'a [u8], Fault> {
        if at % align != 0 {
            return Err(Fault::Misaligned);
        }
        let (start, end) = (u64::from(at), u64::from(at) + size);
        if end > self.memory.len() as u64 {
            return Err(Fault::PointerBounds);
        }
        Ok(&self.memory[start as usize..end as usize])
    }

    /// The bytes of a string or of the elements of a list.
    fn content(&mut self, at: u32, align: u32, size: u64) -> Result<&'a [u8], Fault> {
        let bytes = self.region(at, align, size)?;
        self.left = self.left.checked_sub(size).ok_or(Fault::TooLarge)?;
        Ok(bytes)
    }

    /// The bytes of a string in UTF-8.
    fn text(&mut self, at: u32, size: u32) -> Result<&'a [u8], Fault> {
        let bytes = self.content(at, 1, u64::from(size))?;
        match std::str::from_utf8(bytes) {
            Ok(_) => Ok(bytes),
            Err(_) => Err(Fault::BadText),
        }
    }
}

/// The memory of a receiver, given out from its beginning in multiples of 8 bytes.
struct Receiver<'a> {
    memory: &'a mut [u8],
    top: u32,
}

impl<'a> Receiver<'a> {
    fn new(memory: &'a mut [u8]) -> Self {
        Receiver { memory, top: 0 }
    }

    /// Its `realloc`, of new memory.
    fn realloc(&mut self, size: u32) -> u32 {
        let at = self.top;
        self.top = at.wrapping_add(size).wrapping_add(7) / 8 * 8;
        at
    }

    /// Asks for memory, and looks at the answer.
    fn ask(&mut self, align: u32, size: u32) -> Result<u32, Fault> {
        let at = self.realloc(size);
        if at % align != 0 {
            return Err(Fault::Misaligned);
        }
        if u64::from(at) + u64::from(size) > self.memory.len() as u64 {
            return Err(Fault::PointerBounds);
        }
        Ok(at)
    }

    fn write(&mut self, at: u32, bytes: &[u8]) {
        let at = at as usize;
        self.memory[at..at + bytes.len()].copy_from_slice(bytes);
    }

    /// Asks for memory for bytes and copies them there: their place.
    fn place(&mut self, align: u32, bytes: &[u8]) -> Result<u32, Fault> {
        let at = self.ask(align, bytes.len() as u32)?;
        self.write(at, bytes);
        Ok(at)
    }

    fn write_pair(&mut self, at: u32, first: u32, second: u32) {
        let pair = u64::from(second) << 32 | u64::from(first);
        self.write(at, &pair.to_le_bytes());
    }
}

fn u16_at(bytes: &[u8], at: usize) -> u16 {
    u16::from_le_bytes([bytes[at], bytes[at + 1]])
}

fn u32_at(bytes: &[u8], at: usize) -> u32 {
    u32::from_le_bytes(bytes[at..at + 4].try_into().expect("four bytes"))
}

fn u64_at(bytes: &[u8], at: usize) -> u64 {
    u64::from_le_bytes(bytes[at..at + 8].try_into().expect("eight bytes"))
}

/// Two core values as one number.
fn joined(first: u32, second: u32) -> u64 {
    u64::from(second) << 32 | u64::from(first)
}

/// Passes a list of strings in UTF-8.
pub fn strings(memory: &[u8], at: u32, count: u32, receiver: &mut [u8]) -> Result<u64, Fault> {
    let mut giver = Giver::new(memory);
    let mut receiver = Receiver::new(receiver);
    let list = giver.content(at, 4, u64::from(count) * 8)?;
    let place = receiver.ask(4, list.len() as u32)?;
    let mut next = place;
    for pair in list.chunks_exact(8) {
        let size = u32_at(pair, 4);
        let text = giver.text(u32_at(pair, 0), size)?;
        let text_place = receiver.place(1, text)?;
        receiver.write_pair(next, text_place, size);
        next += 8;
    }
    Ok(joined(place, count))
}

/// The size of the record in bytes.
const RECORD: u64 = 72;

/// Passes a record of a bool, u8, s8, u16, s16, u32, s32, u64, s64, a char, an enum of 5, flags of
/// 8, an `option<u32>`, a string in UTF-8, a `list<u8>` and a `list<u32>`. It is behind a pointer,
/// since it takes 20 core values.
pub fn record(memory: &[u8], at: u32, receiver: &mut [u8]) -> Result<u64, Fault> {
    let mut giver = Giver::new(memory);
    let mut receiver = Receiver::new(receiver);
    let from = giver.region(at, 8, RECORD)?;
    let to = receiver.ask(8, RECORD as u32)?;
    numbers(from, to, &mut receiver);
    cases(from, to, &mut receiver)?;
    let size = u32_at(from, 52);
    let text = giver.text(u32_at(from, 48), size)?;
    let place = receiver.place(1, text)?;
    receiver.write_pair(to + 48, place, size);
    for (offset, element) in [(56, 1), (64, 4)] {
        let count = u32_at(from, offset + 4);
        let size = u64::from(count) * u64::from(element);
        let bytes = giver.content(u32_at(from, offset), element, size)?;
        let place = receiver.place(element, bytes)?;
        receiver.write_pair(to + offset as u32, place, count);
    }
    Ok(u64::from(to))
}

/// The fields that are numbers, and the bool.
fn numbers(from: &[u8], to: u32, receiver: &mut Receiver) {
    receiver.write(to, &[u8::from(from[0] != 0), from[1], from[2]]);
    receiver.write(to + 4, &u16_at(from, 4).to_le_bytes());
    receiver.write(to + 6, &u16_at(from, 6).to_le_bytes());
    receiver.write(to + 8, &u32_at(from, 8).to_le_bytes());
    receiver.write(to + 12, &u32_at(from, 12).to_le_bytes());
    receiver.write(to + 16, &u64_at(from, 16).to_le_bytes());
    receiver.write(to + 24, &u64_at(from, 24).to_le_bytes());
}

/// The char, the enum, the flags and the option.
fn cases(from: &[u8], to: u32, receiver: &mut Receiver) -> Result<(), Fault> {
    let scalar = char::from_u32(u32_at(from, 32)).ok_or(Fault::BadChar)?;
    receiver.write(to + 32, &u32::from(scalar).to_le_bytes());
    if from[36] >= 5 {
        return Err(Fault::BadCase);
    }
    receiver.write(to + 36, &[from[36], from[37]]);
    receiver.write(to + 40, &[from[40]]);
    match from[40] {
        0 => Ok(()),
        1 => {
            receiver.write(to + 44, &u32_at(from, 44).to_le_bytes());
            Ok(())
        }
        _ => Err(Fault::BadCase),
    }
}

/// A string or a list of a value: its bytes, and where they come to stand.
struct Part<'a> {
    bytes: &'a [u8],
    align: u32,
    place: u32,
}

/// Adapters in the phases of the library, with one list of records for all calls.
#[derive(Default)]
pub struct Hand<'a> {
    parts: Vec<Part<'a>>,
}

impl<'a> Hand<'a> {
    fn keep(&mut self, bytes: &'a [u8], align: u32) {
        self.parts.push(Part {
            bytes,
            align,
            place: 0,
        });
    }

    /// Answers the request of each part in order, and looks at the answers: they are behind those
    /// that came before.
    fn answer(&mut self, receiver: &mut Receiver) -> Result<(), Fault> {
        let mut behind = 0;
        for part in &mut self.parts {
            part.place = receiver.ask(part.align, part.bytes.len() as u32)?;
            if part.place < behind {
                return Err(Fault::PointerBounds);
            }
            behind = part.place + part.bytes.len() as u32;
        }
        Ok(())
    }

    /// Passes a string in UTF-8.
    pub fn text(
        &mut self,
        memory: &'a [u8],
        at: u32,
        size: u32,
        receiver: &mut [u8],
    ) -> Result<u64, Fault> {
        self.parts.clear();
        self.keep(Giver::new(memory).text(at, size)?, 1);
        let mut receiver = Receiver::new(receiver);
        self.answer(&mut receiver)?;
        let Part { bytes, place, .. } = self.parts[0];
        receiver.write(place, bytes);
        Ok(joined(place, size))
    }

    /// Passes a list of strings in UTF-8.
    pub fn strings(
        &mut self,
        memory: &'a [u8],
        at: u32,
        count: u32,
        receiver: &mut [u8],
    ) -> Result<u64, Fault> {
        self.parts.clear();
        let mut giver = Giver::new(memory);
        let list = giver.content(at, 4, u64::from(count) * 8)?;
        self.keep(list, 4);
        for pair in list.chunks_exact(8) {
            let text = giver.text(u32_at(pair, 0), u32_at(pair, 4))?;
            self.keep(text, 1);
        }
        let mut receiver = Receiver::new(receiver);
        self.answer(&mut receiver)?;
        let place = self.parts[0].place;
        let mut next = place;
        for text in &self.parts[1..] {
            receiver.write(text.place, text.bytes);
            receiver.write_pair(next, text.place, text.bytes.len() as u32);
            next += 8;
        }
        Ok(joined(place, count))
    }

    /// Passes the record of 16 fields.
    pub fn record(
        &mut self,
        memory: &'a [u8],
        at: u32,
        receiver: &mut [u8],
    ) -> Result<u64, Fault> {
        self.parts.clear();
        let mut giver = Giver::new(memory);
        let from = giver.region(at, 8, RECORD)?;
        check_cases(from)?;
        self.keep(from, 8);
        let text = giver.text(u32_at(from, 48), u32_at(from, 52))?;
        self.keep(text, 1);
        for (offset, element) in [(56, 1), (64, 4)] {
            let size = u64::from(u32_at(from, offset + 4)) * u64::from(element);
            let bytes = giver.content(u32_at(from, offset), element, size)?;
            self.keep(bytes, element);
        }
        let mut receiver = Receiver::new(receiver);
        self.answer(&mut receiver)?;
        let to = self.parts[0].place;
        numbers(from, to, &mut receiver);
        cases(from, to, &mut receiver)?;
        for (part, offset) in self.parts[1..].iter().zip([48, 56, 64]) {
            receiver.write(part.place, part.bytes);
            receiver.write_pair(to + offset, part.place, u32_at(from, offset as usize + 4));
        }
        Ok(u64::from(to))
    }
}

/// Whether the char, the enum and the option show values.
fn check_cases(from: &[u8]) -> Result<(), Fault> {
    char::from_u32(u32_at(from, 32)).ok_or(Fault::BadChar)?;
    if from[36] >= 5 || from[40] >= 2 {
        return Err(Fault::BadCase);
    }
    Ok(())
}

/// Passes a string in UTF-8.
pub fn text(memory: &[u8], at: u32, size: u32, receiver: &mut [u8]) -> Result<u64, Fault> {
    let text = Giver::new(memory).text(at, size)?;
    let place = Receiver::new(receiver).place(1, text)?;
    Ok(joined(place, size))
}
