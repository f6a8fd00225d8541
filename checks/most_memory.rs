//! A library for `LD_PRELOAD` that counts the bytes of the heap that a program has at one time. At the program's end it
//! writes two numbers to the file descriptor that `MEMORY_REPORT` names: the greatest count, and the most KiB that the
//! program had in memory, as the system counts them. sizes.py uses it.
//!
//! What is asked for counts in the first number, whether the program ever writes there or not: so room that is made for
//! what never comes is seen. In the second one only what it wrote to or read counts.

use std::env;
use std::ffi::{c_int, c_long, c_void};
use std::fs;
use std::sync::atomic::{AtomicIsize, Ordering};

unsafe extern "C" {
    fn __libc_malloc(size: usize) -> *mut c_void;
    fn __libc_calloc(count: usize, size: usize) -> *mut c_void;
    fn __libc_realloc(old: *mut c_void, size: usize) -> *mut c_void;
    fn __libc_free(old: *mut c_void);
    fn malloc_usable_size(block: *mut c_void) -> usize;
    fn write(file: c_int, bytes: *const u8, count: usize) -> isize;
    fn syscall(number: c_long, ...) -> c_long;
}

/// As `sys/syscall.h` has it on Linux, for x86-64.
const EXIT_CALL: c_long = 231;

static HELD: AtomicIsize = AtomicIsize::new(0);
static MOST: AtomicIsize = AtomicIsize::new(0);

/// The programs end so, and not by `exit`.
#[unsafe(no_mangle)]
unsafe extern "C" fn _exit(status: c_int) -> ! {
    report();
    loop {
        unsafe { syscall(EXIT_CALL, status) };
    }
}

fn report() {
    let file = env::var("MEMORY_REPORT").ok().and_then(|text| text.parse().ok());
    if let Some(file) = file {
        let most = MOST.load(Ordering::SeqCst);
        let text = format!("{most} {}", most_in_memory().unwrap_or_default());
        unsafe { write(file, text.as_ptr(), text.len()) };
    }
}

fn most_in_memory() -> Option<usize> {
    let status = fs::read_to_string("/proc/self/status").ok()?;
    let line = status.lines().find_map(|line| line.strip_prefix("VmHWM:"))?;
    line.trim().strip_suffix(" kB")?.parse().ok()
}

/// Counts a block that was made, which may be none.
fn taken(block: *mut c_void) -> *mut c_void {
    let size = unsafe { malloc_usable_size(block) } as isize;
    let held = HELD.fetch_add(size, Ordering::SeqCst) + size;
    MOST.fetch_max(held, Ordering::SeqCst);
    block
}

fn given_back(block: *mut c_void) {
    HELD.fetch_sub(unsafe { malloc_usable_size(block) } as isize, Ordering::SeqCst);
}

#[unsafe(no_mangle)]
unsafe extern "C" fn malloc(size: usize) -> *mut c_void {
    taken(unsafe { __libc_malloc(size) })
}

#[unsafe(no_mangle)]
unsafe extern "C" fn calloc(count: usize, size: usize) -> *mut c_void {
    taken(unsafe { __libc_calloc(count, size) })
}

#[unsafe(no_mangle)]
unsafe extern "C" fn realloc(old: *mut c_void, size: usize) -> *mut c_void {
    let before = unsafe { malloc_usable_size(old) } as isize;
    let new = unsafe { __libc_realloc(old, size) };
    if !new.is_null() || size == 0 {
        HELD.fetch_sub(before, Ordering::SeqCst);
    }
    taken(new)
}

#[unsafe(no_mangle)]
unsafe extern "C" fn free(old: *mut c_void) {
    given_back(old);
    unsafe { __libc_free(old) }
}
