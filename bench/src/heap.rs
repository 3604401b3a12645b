//! The heap that the static library asks for: the program's own `malloc`.

use std::ffi::c_void;
use std::sync::atomic::{AtomicBool, AtomicUsize, Ordering::Relaxed};

unsafe extern "C" {
    fn malloc(size: usize) -> *mut c_void;
    fn realloc(block: *mut c_void, size: usize) -> *mut c_void;
    fn free(block: *mut c_void);
    fn malloc_usable_size(block: *mut c_void) -> usize;
}

/// Whether there is memory, and the pointer to it.
#[repr(C)]
pub struct Tried {
    is_some: bool,
    block: *mut c_void,
}

fn tried(block: *mut c_void) -> Tried {
    Tried {
        is_some: !block.is_null(),
        block,
    }
}

/// A block of no bytes is as large as its alignment.
fn size_of_block(size: usize, align: usize) -> usize {
    if size == 0 { align } else { size }
}

/// Whether bytes are counted, how many are taken, how many at most, and how often some were taken.
static COUNTS: AtomicBool = AtomicBool::new(false);
static TIMES: AtomicUsize = AtomicUsize::new(0);
static TAKEN: AtomicUsize = AtomicUsize::new(0);
static MOST: AtomicUsize = AtomicUsize::new(0);

/// Counts the bytes that are taken from here on.
pub fn begin() {
    TAKEN.store(0, Relaxed);
    MOST.store(0, Relaxed);
    TIMES.store(0, Relaxed);
    COUNTS.store(true, Relaxed);
}

/// Ends the count: the greatest number of bytes that were taken at a time.
pub fn end() -> usize {
    COUNTS.store(false, Relaxed);
    MOST.load(Relaxed)
}

/// How many times a task asks for memory.
pub fn count(task: impl FnOnce()) -> usize {
    begin();
    task();
    end();
    times()
}

/// How often bytes were taken since the count began.
#[allow(dead_code)] // of the part `abi` alone
pub fn times() -> usize {
    TIMES.load(Relaxed)
}

fn took(block: *mut c_void) -> *mut c_void {
    if COUNTS.load(Relaxed) && !block.is_null() {
        TIMES.fetch_add(1, Relaxed);
        let size = unsafe { malloc_usable_size(block) };
        let taken = TAKEN.fetch_add(size, Relaxed) + size;
        MOST.fetch_max(taken, Relaxed);
    }
    block
}

fn gave(block: *mut c_void) {
    if COUNTS.load(Relaxed) && !block.is_null() {
        TAKEN.fetch_sub(unsafe { malloc_usable_size(block) }, Relaxed);
    }
}

#[unsafe(no_mangle)]
extern "C" fn rattle_alloc(size: usize, align: usize) -> Tried {
    tried(took(unsafe { malloc(size_of_block(size, align)) }))
}

#[unsafe(no_mangle)]
extern "C" fn rattle_realloc(block: *mut c_void, _old: usize, size: usize, align: usize) -> Tried {
    gave(block);
    tried(took(unsafe { realloc(block, size_of_block(size, align)) }))
}

#[unsafe(no_mangle)]
extern "C" fn rattle_dealloc(block: *mut c_void) {
    gave(block);
    unsafe { free(block) }
}
