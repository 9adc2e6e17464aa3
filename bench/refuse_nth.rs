//! Loaded into a program by LD_PRELOAD: the allocation whose number is in REFUSED, counted from 1, gets no memory, and a line
//! on standard error says so. With 0 none is refused.

use std::ffi::{c_char, c_int, c_longlong, c_void};
use std::ptr::null_mut;
use std::sync::atomic::{AtomicI64, Ordering::SeqCst};

const UNREAD: i64 = -1;
const TOLD: &[u8] = b"refused an allocation\n";

/// How many allocations are left up to the one that is refused.
static LEFT: AtomicI64 = AtomicI64::new(UNREAD);

unsafe extern "C" {
    fn __libc_malloc(size: usize) -> *mut c_void;
    fn __libc_realloc(old: *mut c_void, size: usize) -> *mut c_void;
    fn getenv(name: *const c_char) -> *const c_char;
    fn atoll(text: *const c_char) -> c_longlong;
    fn write(file: c_int, bytes: *const c_void, count: usize) -> isize;
}

unsafe fn is_refused() -> bool {
    if LEFT.load(SeqCst) == UNREAD {
        let text = unsafe { getenv(c"REFUSED".as_ptr()) };
        if text.is_null() {
            return false;
        }
        LEFT.store(unsafe { atoll(text) }.max(0), SeqCst);
    }
    if LEFT.load(SeqCst) == 0 || LEFT.fetch_sub(1, SeqCst) > 1 {
        return false;
    }
    unsafe { write(2, TOLD.as_ptr().cast(), TOLD.len()) };
    true
}

#[unsafe(no_mangle)]
pub unsafe extern "C" fn malloc(size: usize) -> *mut c_void {
    if unsafe { is_refused() } { null_mut() } else { unsafe { __libc_malloc(size) } }
}

#[unsafe(no_mangle)]
pub unsafe extern "C" fn realloc(old: *mut c_void, size: usize) -> *mut c_void {
    if unsafe { is_refused() } { null_mut() } else { unsafe { __libc_realloc(old, size) } }
}
