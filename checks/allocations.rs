//! A library to be loaded before a program (`LD_PRELOAD`), which looks at its allocations. It
//! refuses one of them, the one whose number, from 1 on, the variable `REFUSED` has. To the file
//! that `ALLOCATIONS_REPORT` names it adds a line `mark TEXT ASKED` for each line of one byte that
//! the program writes to standard output, and at the program's end `end ASKED PEAK`: how many
//! allocations were asked for so far, and the most bytes that stood at one time.

use std::ffi::c_void;
use std::sync::atomic::{AtomicI32, AtomicU64, Ordering::Relaxed};

unsafe extern "C" {
    fn __libc_malloc(size: usize) -> *mut c_void;
    fn __libc_realloc(old: *mut c_void, size: usize) -> *mut c_void;
    fn __libc_free(old: *mut c_void);
    fn malloc_usable_size(of: *mut c_void) -> usize;
    fn getenv(name: *const u8) -> *const u8;
    fn open(path: *const u8, flags: i32, mode: u32) -> i32;
    fn syscall(number: i64, ...) -> i64;
}

const WRITE: i64 = 1;
const STANDARD_OUTPUT: i32 = 1;
const WRITE_APPEND_CREATE: i32 = 0o1 | 0o2000 | 0o100;

static REFUSED: AtomicU64 = AtomicU64::new(0);
static ASKED: AtomicU64 = AtomicU64::new(0);
static LIVE: AtomicU64 = AtomicU64::new(0);
static PEAK: AtomicU64 = AtomicU64::new(0);
static REPORT: AtomicI32 = AtomicI32::new(-1);

/// The number in decimal digits that a variable has; 0 where there is none.
unsafe fn number_of(name: &[u8]) -> u64 {
    let mut at = unsafe { getenv(name.as_ptr()) };
    let mut number = 0;
    while !at.is_null() && unsafe { *at }.is_ascii_digit() {
        number = number * 10 + u64::from(unsafe { *at } - b'0');
        at = unsafe { at.add(1) };
    }
    number
}

/// A line of the report, made without an allocation.
struct Line {
    bytes: [u8; 96],
    length: usize,
}

impl Line {
    fn of(text: &[u8]) -> Line {
        let mut line = Line { bytes: [0; 96], length: 0 };
        line.put(text);
        line
    }

    fn put(&mut self, text: &[u8]) {
        self.bytes[self.length..][..text.len()].copy_from_slice(text);
        self.length += text.len();
    }

    fn number(&mut self, mut number: u64) {
        let mut digits = [b'0'; 20];
        let mut at = digits.len() - 1;
        loop {
            digits[at] = b'0' + (number % 10) as u8;
            number /= 10;
            if number == 0 {
                break;
            }
            at -= 1;
        }
        self.put(b" ");
        self.put(&digits[at..]);
    }

    fn report(&mut self) {
        self.put(b"\n");
        let file = REPORT.load(Relaxed);
        if file >= 0 {
            unsafe { syscall(WRITE, file, self.bytes.as_ptr(), self.length) };
        }
    }
}

extern "C" fn begin() {
    unsafe {
        let path = getenv(b"ALLOCATIONS_REPORT\0".as_ptr());
        if !path.is_null() {
            REPORT.store(open(path, WRITE_APPEND_CREATE, 0o600), Relaxed);
        }
        REFUSED.store(number_of(b"REFUSED\0"), Relaxed);
        ASKED.store(0, Relaxed);
        PEAK.store(LIVE.load(Relaxed), Relaxed);
    }
}

extern "C" fn end() {
    let mut line = Line::of(b"end");
    line.number(ASKED.load(Relaxed));
    line.number(PEAK.load(Relaxed));
    line.report();
}

#[used]
#[unsafe(link_section = ".init_array")]
static BEGIN: extern "C" fn() = begin;

#[used]
#[unsafe(link_section = ".fini_array")]
static END: extern "C" fn() = end;

fn is_refused() -> bool {
    ASKED.fetch_add(1, Relaxed) + 1 == REFUSED.load(Relaxed)
}

/// Counts the bytes that stand where these come and those go.
unsafe fn count(old: usize, new: *mut c_void) {
    let size = if new.is_null() { 0 } else { unsafe { malloc_usable_size(new) } };
    let live = LIVE.fetch_add(size as u64, Relaxed) + size as u64;
    let live = live.saturating_sub(old as u64);
    LIVE.store(live, Relaxed);
    PEAK.fetch_max(live, Relaxed);
}

/// # Safety
/// That of the C library's `malloc`.
#[unsafe(no_mangle)]
pub unsafe extern "C" fn malloc(size: usize) -> *mut c_void {
    if is_refused() {
        return std::ptr::null_mut();
    }
    let made = unsafe { __libc_malloc(size) };
    unsafe { count(0, made) };
    made
}

/// # Safety
/// That of the C library's `realloc`.
#[unsafe(no_mangle)]
pub unsafe extern "C" fn realloc(old: *mut c_void, size: usize) -> *mut c_void {
    if is_refused() {
        return std::ptr::null_mut();
    }
    let had = if old.is_null() { 0 } else { unsafe { malloc_usable_size(old) } };
    let made = unsafe { __libc_realloc(old, size) };
    if !made.is_null() {
        unsafe { count(had, made) };
    }
    made
}

/// # Safety
/// That of the C library's `free`.
#[unsafe(no_mangle)]
pub unsafe extern "C" fn free(old: *mut c_void) {
    if !old.is_null() {
        unsafe { count(malloc_usable_size(old), std::ptr::null_mut()) };
        unsafe { __libc_free(old) };
    }
}

/// # Safety
/// That of the C library's `write`.
#[unsafe(no_mangle)]
pub unsafe extern "C" fn write(file: i32, bytes: *const u8, count: usize) -> isize {
    if file == STANDARD_OUTPUT && count == 2 && unsafe { *bytes.add(1) } == b'\n' {
        let mut line = Line::of(b"mark ");
        line.put(unsafe { std::slice::from_raw_parts(bytes, 1) });
        line.number(ASKED.load(Relaxed));
        line.report();
    }
    unsafe { syscall(WRITE, file, bytes, count) as isize }
}
