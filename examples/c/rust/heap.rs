//! The heap that the library asks for: the program's own `malloc`, as in ../heap.c.

use std::ffi::c_void;

unsafe extern "C" {
    fn malloc(size: usize) -> *mut c_void;
    fn realloc(block: *mut c_void, size: usize) -> *mut c_void;
    fn free(block: *mut c_void);
}

/// Whether there is memory, and the pointer to it.
#[repr(C)]
struct Tried {
    is_some: bool,
    block: *mut c_void,
}

fn tried(block: *mut c_void) -> Tried {
    Tried {
        is_some: !block.is_null(),
        block,
    }
}

/// A block of no bytes is as large as its alignment.
fn room(size: usize, align: usize) -> usize {
    if size == 0 { align } else { size }
}

#[unsafe(no_mangle)]
extern "C" fn rattle_alloc(size: usize, align: usize) -> Tried {
    tried(unsafe { malloc(room(size, align)) })
}

#[unsafe(no_mangle)]
extern "C" fn rattle_realloc(
    block: *mut c_void,
    _old_size: usize,
    size: usize,
    align: usize,
) -> Tried {
    tried(unsafe { realloc(block, room(size, align)) })
}

#[unsafe(no_mangle)]
extern "C" fn rattle_dealloc(block: *mut c_void) {
    unsafe { free(block) }
}
