//! The allocator of the static library, over the C library's.

use std::ffi::c_void;

extern "C" {
    fn malloc(size: usize) -> *mut c_void;
    fn realloc(block: *mut c_void, size: usize) -> *mut c_void;
    fn free(block: *mut c_void);
}

/// A block, or that there is none; then the pointer is of no block, and not null.
#[repr(C)]
pub struct Tried {
    ok: bool,
    block: *mut c_void,
}

fn answer(block: *mut c_void) -> Tried {
    if block.is_null() {
        Tried { ok: false, block: std::ptr::NonNull::<c_void>::dangling().as_ptr() }
    } else {
        Tried { ok: true, block }
    }
}

/// A new block; one of no bytes takes its alignment, so that it has a place of its own.
#[no_mangle]
extern "C" fn rattle_alloc(size: usize, align: usize) -> Tried {
    // malloc takes every size.
    answer(unsafe { malloc(if size == 0 { align } else { size }) })
}

/// The block with another size.
///
/// # Safety
/// The block is of one of these calls, and not freed.
#[no_mangle]
unsafe extern "C" fn rattle_realloc(block: *mut c_void, _kept: usize, size: usize, align: usize) -> Tried {
    answer(realloc(block, if size == 0 { align } else { size }))
}

/// Frees the block.
///
/// # Safety
/// The block is of one of these calls, and not freed.
#[no_mangle]
unsafe extern "C" fn rattle_dealloc(block: *mut c_void) {
    free(block);
}
