//! A library for `LD_PRELOAD` that refuses one allocation of a program: the one that the variable
//! `REFUSED_ALLOCATION` counts, from 1 on. All others are made. When it refuses, it writes a byte to the file descriptor
//! that `REFUSAL_REPORT` names. memory.py uses it.

use std::ffi::{CStr, c_char, c_int};
use std::ptr::null_mut;
use std::str::FromStr;
use std::sync::atomic::{AtomicI32, AtomicUsize, Ordering};

unsafe extern "C" {
    fn __libc_malloc(size: usize) -> *mut u8;
    fn __libc_calloc(count: usize, size: usize) -> *mut u8;
    fn __libc_realloc(old: *mut u8, size: usize) -> *mut u8;
    fn getenv(name: *const c_char) -> *const c_char;
    fn write(file: c_int, bytes: *const u8, count: usize) -> isize;
    fn __errno_location() -> *mut c_int;
}

/// As `errno.h` has it on Linux.
const OUT_OF_MEMORY: c_int = 12;

/// Which allocation from now on is refused: 1 is the next one, and 0 is none.
static LEFT: AtomicUsize = AtomicUsize::new(0);

/// Where a refusal is told, and nowhere where it is negative.
static REPORT: AtomicI32 = AtomicI32::new(-1);

#[used]
#[unsafe(link_section = ".init_array")]
static START: extern "C" fn() = start;

extern "C" fn start() {
    REPORT.store(number_in(c"REFUSAL_REPORT").unwrap_or(-1), Ordering::SeqCst);
    LEFT.store(
        number_in(c"REFUSED_ALLOCATION").unwrap_or(0),
        Ordering::SeqCst,
    );
}

fn number_in<T: FromStr>(variable: &CStr) -> Option<T> {
    let text = unsafe { getenv(variable.as_ptr()) };
    if text.is_null() {
        return None;
    }
    unsafe { CStr::from_ptr(text) }.to_str().ok()?.parse().ok()
}

fn is_refused() -> bool {
    // Threads allocate at the same time.
    let left = LEFT.fetch_update(Ordering::SeqCst, Ordering::SeqCst, |left| left.checked_sub(1));
    if left == Ok(1) {
        unsafe {
            write(REPORT.load(Ordering::SeqCst), c"!".as_ptr().cast(), 1);
            // The start of a thread looks at it.
            *__errno_location() = OUT_OF_MEMORY;
        }
    }
    left == Ok(1)
}

#[unsafe(no_mangle)]
unsafe extern "C" fn malloc(size: usize) -> *mut u8 {
    if is_refused() {
        return null_mut();
    }
    unsafe { __libc_malloc(size) }
}

#[unsafe(no_mangle)]
unsafe extern "C" fn calloc(count: usize, size: usize) -> *mut u8 {
    if is_refused() {
        return null_mut();
    }
    unsafe { __libc_calloc(count, size) }
}

#[unsafe(no_mangle)]
unsafe extern "C" fn realloc(old: *mut u8, size: usize) -> *mut u8 {
    if is_refused() {
        return null_mut();
    }
    unsafe { __libc_realloc(old, size) }
}
