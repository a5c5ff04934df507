//! The heap of the library, over the malloc of the program. So no C is compiled.
use std::ffi::c_void;
use std::ptr::NonNull;

unsafe extern "C" {
    fn malloc(size: usize) -> *mut c_void;
    fn realloc(old: *mut c_void, size: usize) -> *mut c_void;
    fn free(old: *mut c_void);
}

/// An address, which is never null, and whether there was memory.
#[repr(C)]
pub struct Block {
    is_there: u64,
    address: NonNull<c_void>,
}

fn block_at(address: *mut c_void) -> Block {
    match NonNull::new(address) {
        Some(address) => Block { is_there: 1, address },
        None => Block { is_there: 0, address: NonNull::dangling() },
    }
}

#[unsafe(no_mangle)]
unsafe extern "C" fn rattle_alloc(size: usize, alignment: usize) -> Block {
    // SAFETY: malloc takes any size.
    block_at(unsafe { malloc(if size == 0 { alignment } else { size }) })
}

#[unsafe(no_mangle)]
unsafe extern "C" fn rattle_realloc(old: *mut c_void, _used: usize, size: usize, alignment: usize) -> Block {
    // SAFETY: the library hands in what `rattle_alloc` or this function answered.
    block_at(unsafe { realloc(old, if size == 0 { alignment } else { size }) })
}

#[unsafe(no_mangle)]
unsafe extern "C" fn rattle_dealloc(old: *mut c_void) {
    // SAFETY: as above.
    unsafe { free(old) }
}
