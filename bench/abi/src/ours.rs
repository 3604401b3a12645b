//! The adapters of the library: each function makes so many calls that pass one value.

unsafe extern "C" {
    fn cm_bench_calls_scan(
        words: *const u32,
        word_count: usize,
        source: u32,
        target: u32,
        giver: *const u8,
        giver_size: usize,
        slots: *const u32,
        slot_count: usize,
        rounds: u32,
    ) -> u64;
    fn cm_bench_calls_copy(
        words: *const u32,
        word_count: usize,
        source: u32,
        target: u32,
        giver: *const u8,
        giver_size: usize,
        slots: *const u32,
        slot_count: usize,
        receiver: *mut u8,
        receiver_size: usize,
        rounds: u32,
    ) -> u64;
    fn cm_bench_calls_lift(
        words: *const u32,
        word_count: usize,
        source: u32,
        target: u32,
        giver: *const u8,
        giver_size: usize,
        slots: *const u32,
        slot_count: usize,
        rounds: u32,
    ) -> u64;
    fn cm_bench_calls_lower(
        words: *const u32,
        word_count: usize,
        source: u32,
        target: u32,
        giver: *const u8,
        giver_size: usize,
        slots: *const u32,
        slot_count: usize,
        receiver: *mut u8,
        receiver_size: usize,
        rounds: u32,
    ) -> u64;
}

/// A type, in postfix order: what a word says stands in its low five bits, how many above them.
pub mod words {
    pub const BOOL: u32 = 0;
    pub const S8: u32 = 1;
    pub const U8: u32 = 2;
    pub const S16: u32 = 3;
    pub const U16: u32 = 4;
    pub const S32: u32 = 5;
    pub const U32: u32 = 6;
    pub const S64: u32 = 7;
    pub const U64: u32 = 8;
    pub const CHAR: u32 = 9;
    pub const STRING: u32 = 10;
    pub const LIST: u32 = 11;
    pub const OPTION: u32 = 12;

    /// Of so many types before it.
    pub const fn record_of(count: u32) -> u32 {
        13 | count << 5
    }

    /// Of so many labels.
    pub const fn enum_of(count: u32) -> u32 {
        14 | count << 5
    }

    /// Of so many labels.
    pub const fn flags_of(count: u32) -> u32 {
        15 | count << 5
    }
}

/// How many bytes a unit of a string has.
pub const UTF8: u32 = 1;
pub const UTF16: u32 = 2;

/// What the calls answer that are refused.
pub const REFUSED: u64 = u64::MAX;

/// A value of a type that its giver passes: the bytes of its memory, and the core values.
pub struct Call {
    pub words: Vec<u32>,
    pub source: u32,
    pub target: u32,
    pub giver: Vec<u8>,
    pub slots: Vec<u32>,
}

impl Call {
    /// Scans the value so many times.
    pub fn scan(&self, rounds: u32) -> u64 {
        unsafe {
            cm_bench_calls_scan(
                self.words.as_ptr(),
                self.words.len(),
                self.source,
                self.target,
                self.giver.as_ptr(),
                self.giver.len(),
                self.slots.as_ptr(),
                self.slots.len(),
                rounds,
            )
        }
    }

    /// Scans and copies the value so many times: the first two core values that pass it.
    pub fn copy(&self, receiver: &mut [u8], rounds: u32) -> u64 {
        unsafe {
            cm_bench_calls_copy(
                self.words.as_ptr(),
                self.words.len(),
                self.source,
                self.target,
                self.giver.as_ptr(),
                self.giver.len(),
                self.slots.as_ptr(),
                self.slots.len(),
                receiver.as_mut_ptr(),
                receiver.len(),
                rounds,
            )
        }
    }

    /// Lifts the value so many times.
    pub fn lift(&self, rounds: u32) -> u64 {
        unsafe {
            cm_bench_calls_lift(
                self.words.as_ptr(),
                self.words.len(),
                self.source,
                self.target,
                self.giver.as_ptr(),
                self.giver.len(),
                self.slots.as_ptr(),
                self.slots.len(),
                rounds,
            )
        }
    }

    /// Lifts and lowers the value so many times: the first two core values that pass it.
    pub fn lower(&self, receiver: &mut [u8], rounds: u32) -> u64 {
        unsafe {
            cm_bench_calls_lower(
                self.words.as_ptr(),
                self.words.len(),
                self.source,
                self.target,
                self.giver.as_ptr(),
                self.giver.len(),
                self.slots.as_ptr(),
                self.slots.len(),
                receiver.as_mut_ptr(),
                receiver.len(),
                rounds,
            )
        }
    }
}
