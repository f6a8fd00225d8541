//! A library for `LD_PRELOAD` that gives a program another machine: `PROCESSORS` tells how many processors there are,
//! and `REFUSED_THREAD` which start of a thread is refused, from 1 on. All others are made. When it refuses, it writes a
//! byte to the file descriptor that `REFUSAL_REPORT` names. few_threads.py uses it.

use std::ffi::{CStr, c_char, c_int, c_long, c_void};
use std::mem::transmute;
use std::ptr::null_mut;
use std::str::FromStr;
use std::sync::atomic::{AtomicI32, AtomicUsize, Ordering};

type Start = extern "C" fn(*mut c_void) -> *mut c_void;
type Create = unsafe extern "C" fn(*mut usize, *const c_void, Start, *mut c_void) -> c_int;
type Ask = unsafe extern "C" fn(c_int) -> c_long;
type Mask = unsafe extern "C" fn(c_int, usize, *mut u8) -> c_int;

unsafe extern "C" {
    fn dlsym(handle: *mut c_void, name: *const c_char) -> *mut c_void;
    fn getenv(name: *const c_char) -> *const c_char;
    fn write(file: c_int, bytes: *const u8, count: usize) -> isize;
}

/// The definitions behind those of this library, as `dlfcn.h` names them.
const NEXT: *mut c_void = -1isize as *mut c_void;
/// As `unistd.h` and `errno.h` have them on Linux.
const ONLINE_PROCESSORS: c_int = 84;
const TRY_AGAIN: c_int = 11;

/// Which start of a thread is refused: 1 is the next one, and 0 is none.
static LEFT: AtomicUsize = AtomicUsize::new(0);

/// How many processors there are said to be, and 0 where it is as the system says.
static PROCESSORS: AtomicUsize = AtomicUsize::new(0);

/// Where a refusal is told, and nowhere where it is negative.
static REPORT: AtomicI32 = AtomicI32::new(-1);

#[used]
#[unsafe(link_section = ".init_array")]
static BEGIN: extern "C" fn() = begin;

extern "C" fn begin() {
    REPORT.store(number_in(c"REFUSAL_REPORT").unwrap_or(-1), Ordering::SeqCst);
    LEFT.store(number_in(c"REFUSED_THREAD").unwrap_or(0), Ordering::SeqCst);
    PROCESSORS.store(number_in(c"PROCESSORS").unwrap_or(0), Ordering::SeqCst);
}

fn number_in<T: FromStr>(variable: &CStr) -> Option<T> {
    let text = unsafe { getenv(variable.as_ptr()) };
    if text.is_null() {
        return None;
    }
    unsafe { CStr::from_ptr(text) }.to_str().ok()?.parse().ok()
}

fn next(name: &CStr) -> *mut c_void {
    unsafe { dlsym(NEXT, name.as_ptr()) }
}

fn is_refused() -> bool {
    let left = LEFT.fetch_update(Ordering::SeqCst, Ordering::SeqCst, |left| left.checked_sub(1));
    if left == Ok(1) {
        unsafe { write(REPORT.load(Ordering::SeqCst), c"!".as_ptr().cast(), 1) };
    }
    left == Ok(1)
}

#[unsafe(no_mangle)]
unsafe extern "C" fn pthread_create(
    thread: *mut usize,
    attributes: *const c_void,
    start: Start,
    argument: *mut c_void,
) -> c_int {
    if is_refused() {
        return TRY_AGAIN;
    }
    let create: Create = unsafe { transmute(next(c"pthread_create")) };
    unsafe { create(thread, attributes, start, argument) }
}

#[unsafe(no_mangle)]
unsafe extern "C" fn sysconf(name: c_int) -> c_long {
    let processors = PROCESSORS.load(Ordering::SeqCst);
    if name == ONLINE_PROCESSORS && processors > 0 {
        return processors as c_long;
    }
    let ask: Ask = unsafe { transmute(next(c"sysconf")) };
    unsafe { ask(name) }
}

#[unsafe(no_mangle)]
unsafe extern "C" fn sched_getaffinity(process: c_int, size: usize, mask: *mut u8) -> c_int {
    let processors = PROCESSORS.load(Ordering::SeqCst);
    if processors > 0 && mask != null_mut() {
        for at in 0..size {
            let bits = processors.saturating_sub(8 * at).min(8);
            unsafe { mask.add(at).write(((1u32 << bits) - 1) as u8) };
        }
        return 0;
    }
    let ask: Mask = unsafe { transmute(next(c"sched_getaffinity")) };
    unsafe { ask(process, size, mask) }
}
