//! Refuses one growth of memory, the one whose number the environment variable `REFUSED` has: a library that is loaded before the C
//! library of a program. It says on standard error that it did.
//!
//!     rustc -O --crate-type cdylib bench/refuse.rs -o librefuse.so
//!     REFUSED=3 LD_PRELOAD=./librefuse.so program
use std::ffi::{c_char, c_int, c_void};
use std::ptr;
use std::sync::atomic::{AtomicUsize, Ordering};

unsafe extern "C" {
    fn __libc_malloc(size: usize) -> *mut c_void;
    fn __libc_realloc(old: *mut c_void, size: usize) -> *mut c_void;
    fn getenv(name: *const c_char) -> *const c_char;
    fn atoi(text: *const c_char) -> c_int;
    fn write(file: c_int, bytes: *const c_void, count: usize) -> isize;
}

static GROWTHS: AtomicUsize = AtomicUsize::new(0);

/// Whether this growth is the one to be refused.
fn is_refused() -> bool {
    let number = GROWTHS.fetch_add(1, Ordering::Relaxed) + 1;
    let wanted = unsafe { getenv(c"REFUSED".as_ptr()) };
    if wanted.is_null() || unsafe { atoi(wanted) } as usize != number {
        return false;
    }
    let told = b"a growth is refused\n";
    unsafe { write(2, told.as_ptr().cast(), told.len()) };
    true
}

#[unsafe(no_mangle)]
pub extern "C" fn malloc(size: usize) -> *mut c_void {
    if is_refused() { ptr::null_mut() } else { unsafe { __libc_malloc(size) } }
}

#[unsafe(no_mangle)]
pub unsafe extern "C" fn realloc(old: *mut c_void, size: usize) -> *mut c_void {
    if is_refused() { ptr::null_mut() } else { unsafe { __libc_realloc(old, size) } }
}
