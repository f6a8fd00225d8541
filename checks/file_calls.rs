//! A library for `LD_PRELOAD` that sees what a program asks of the files in one folder, notes it,
//! and has one call fail. bank_calls.py uses it, and reads the notes.
//!
//! - `CALLS_FOLDER` is the folder. Only calls of it, of files in it and of standard output are
//!   seen.
//! - `CALLS_TRACE` is a file to which each call is appended, in the order in which the calls were
//!   made: one lock lies round a call and its note. A note is a line with the call's word, the
//!   file's number, an offset, how many bytes follow the line, and the result. Reads are not noted.
//! - `FAILED_CALL` is which call fails: five words, parted by spaces. The first one is the call:
//!   `read`, `write`, `cut`, `sync`, `make`, `rename`, `remove`, or `change`, which is all of these
//!   but `read` and `sync`. Then comes the file: `log`, `volume`, `master`, `copy`, `manifest`,
//!   `folder`, `lines`, or `any` for all but `lines`. Then which of these calls it is, from 1 on,
//!   the number of the fault, and how: `once`; `on` for it and all behind it; `late` for a call that
//!   is made before it fails; and `short` for a write of less than half, with a fault at each call
//!   behind it.
//! - `FAILURE_REPORT` is a file descriptor, to which a byte is written at the first fault.
//! - `SHORT_WRITES`, if it is there, has each write of a file take less than half of what it is
//!   given, and one byte at least.

use std::env;
use std::ffi::{CStr, CString, c_char, c_int, c_long, c_uint, c_void};
use std::mem::transmute;
use std::os::unix::ffi::OsStrExt;
use std::slice;
use std::sync::{LazyLock, Mutex, MutexGuard};

type Open = unsafe extern "C" fn(*const c_char, c_int, c_uint) -> c_int;
type OpenAt = unsafe extern "C" fn(c_int, *const c_char, c_int, c_uint) -> c_int;
type OfFile = unsafe extern "C" fn(c_int) -> c_int;
type Cut = unsafe extern "C" fn(c_int, i64) -> c_int;
type Write = unsafe extern "C" fn(c_int, *const u8, usize) -> isize;
type WriteAt = unsafe extern "C" fn(c_int, *const u8, usize, i64) -> isize;
type ReadAt = unsafe extern "C" fn(c_int, *mut u8, usize, i64) -> isize;
type OfName = unsafe extern "C" fn(*const c_char) -> c_int;
type Rename = unsafe extern "C" fn(*const c_char, *const c_char) -> c_int;

unsafe extern "C" {
    fn dlsym(handle: *mut c_void, name: *const c_char) -> *mut c_void;
    fn syscall(number: c_long, ...) -> c_long;
    fn __errno_location() -> *mut c_int;
}

/// The definitions behind those of this library, as `dlfcn.h` names them.
const NEXT: *mut c_void = -1isize as *mut c_void;
/// As `fcntl.h` and `sys/syscall.h` have them on Linux, for x86-64.
const CREATE: c_int = 0o100;
const WRITE_CALL: c_long = 1;
const OPEN_CALL: c_long = 2;
const APPEND_NEW: c_int = 0o2101;

const MOST_FILES: usize = 4096;
const OUTPUT: c_int = 1;

#[derive(Clone, Copy, PartialEq)]
enum Kind {
    Unseen,
    Log,
    Volume,
    Master,
    Copy,
    Manifest,
    Folder,
    Lines,
    Other,
}

#[derive(Clone, Copy, PartialEq)]
enum How {
    Once,
    On,
    Late,
    Short,
}

/// Which call fails, and how.
struct Failure {
    call: String,
    file: Option<Kind>,
    left: usize,
    number: c_int,
    how: How,
    is_met: bool,
}

struct State {
    folder: Vec<u8>,
    trace: c_int,
    report: c_int,
    has_short_writes: bool,
    failure: Option<Failure>,
    kinds: [Kind; MOST_FILES],
}

static STATE: LazyLock<Mutex<State>> = LazyLock::new(|| Mutex::new(State::new()));

fn state() -> MutexGuard<'static, State> {
    STATE.lock().unwrap()
}

fn next(name: &CStr) -> *mut c_void {
    unsafe { dlsym(NEXT, name.as_ptr()) }
}

fn number_of_fault() -> c_int {
    unsafe { *__errno_location() }
}

fn kind_of(name: &[u8]) -> Kind {
    match name {
        b"log" => Kind::Log,
        b"volume" => Kind::Volume,
        b"" => Kind::Folder,
        _ if name.starts_with(b"master") => Kind::Master,
        _ if name.starts_with(b"copy-") => Kind::Copy,
        _ if name.starts_with(b"manifest") => Kind::Manifest,
        _ => Kind::Other,
    }
}

impl Failure {
    fn read(text: &str) -> Option<Failure> {
        let words: Vec<&str> = text.split(' ').collect();
        let [call, file, left, number, how] = words[..] else {
            return None;
        };
        Some(Failure {
            call: call.to_string(),
            file: match file {
                "any" => None,
                "log" => Some(Kind::Log),
                "volume" => Some(Kind::Volume),
                "master" => Some(Kind::Master),
                "copy" => Some(Kind::Copy),
                "manifest" => Some(Kind::Manifest),
                "folder" => Some(Kind::Folder),
                "lines" => Some(Kind::Lines),
                _ => return None,
            },
            left: left.parse().ok()?,
            number: number.parse().ok()?,
            how: match how {
                "once" => How::Once,
                "on" => How::On,
                "late" => How::Late,
                "short" => How::Short,
                _ => return None,
            },
            is_met: false,
        })
    }

    fn is_of(&self, call: &str, kind: Kind) -> bool {
        let is_change = !matches!(call, "open" | "close" | "read" | "sync");
        let is_call = self.call == call || self.call == "change" && is_change;
        is_call && self.file.map_or(kind != Kind::Lines, |file| file == kind)
    }
}

impl State {
    fn new() -> State {
        let variable = |name| env::var_os(name).map(|text| text.as_bytes().to_vec());
        let number = |name| env::var(name).ok().and_then(|text| text.parse().ok());
        let trace = variable("CALLS_TRACE").map_or(-1, |path| {
            let path = CString::new(path).unwrap();
            unsafe { syscall(OPEN_CALL, path.as_ptr(), APPEND_NEW, 0o644) as c_int }
        });
        let mut kinds = [Kind::Unseen; MOST_FILES];
        kinds[OUTPUT as usize] = Kind::Lines;
        State {
            folder: variable("CALLS_FOLDER").unwrap_or_default(),
            trace,
            report: number("FAILURE_REPORT").unwrap_or(-1),
            has_short_writes: env::var_os("SHORT_WRITES").is_some(),
            failure: env::var("FAILED_CALL")
                .ok()
                .and_then(|text| Failure::read(&text)),
            kinds,
        }
    }

    /// What the path names: the folder, or a file in it.
    fn kind_at(&self, path: &[u8]) -> Kind {
        match path.strip_prefix(&self.folder[..]) {
            Some(b"" | b"/") => Kind::Folder,
            Some([b'/', name @ ..]) => kind_of(name),
            _ => Kind::Unseen,
        }
    }

    fn kind(&self, file: c_int) -> Kind {
        *self.kinds.get(file as usize).unwrap_or(&Kind::Unseen)
    }

    /// How this call fails, if it does. The first one that does is noted.
    fn fault_of(&mut self, call: &str, kind: Kind) -> Option<(c_int, How)> {
        let report = self.report;
        let failure = self.failure.as_mut()?;
        if !failure.is_of(call, kind) {
            return None;
        }
        if failure.is_met {
            // Behind a call that wrote too little, and behind the first fault of many.
            return match failure.how {
                How::On | How::Short => Some((failure.number, How::On)),
                How::Once | How::Late => None,
            };
        }
        failure.left = failure.left.saturating_sub(1);
        if failure.left > 0 {
            return None;
        }
        failure.is_met = true;
        unsafe { syscall(WRITE_CALL, report, c"!".as_ptr(), 1usize) };
        let fault = (failure.number, failure.how);
        self.note("fault", -1, kind as i64, call.as_bytes(), -1);
        Some(fault)
    }

    /// Appends a line, and the bytes that it counts.
    fn note(&self, call: &str, file: c_int, at: i64, bytes: &[u8], result: i64) {
        if self.trace < 0 {
            return;
        }
        let fault = number_of_fault();
        let mut text = format!("{call} {file} {at} {} {result}\n", bytes.len()).into_bytes();
        text.extend_from_slice(bytes);
        unsafe {
            syscall(WRITE_CALL, self.trace, text.as_ptr(), text.len());
            *__errno_location() = fault;
        }
    }

    /// Makes a call of a kind of file, unless it is to fail. Says first what it did, then what it
    /// answers.
    fn make(&mut self, call: &str, kind: Kind, make: impl FnOnce() -> i64) -> (i64, i64) {
        let Some((number, how)) = self.fault_of(call, kind) else {
            let result = make();
            return (result, result);
        };
        let done = if how == How::Late { make() } else { -1 };
        unsafe { *__errno_location() = number };
        (done, -1)
    }

    /// Writes bytes by a call, of which a part may be written only.
    fn write(
        &mut self,
        file: c_int,
        at: i64,
        bytes: &[u8],
        write: impl FnOnce(usize) -> i64,
    ) -> isize {
        let kind = self.kind(file);
        let fault = self.fault_of("write", kind);
        let is_short = self.has_short_writes || matches!(fault, Some((_, How::Short)));
        let few = if is_short && kind != Kind::Lines {
            (bytes.len() / 2).saturating_sub(1).max(1)
        } else {
            bytes.len()
        };
        let (done, result) = match fault {
            None | Some((_, How::Short)) => {
                let result = write(few.min(bytes.len()));
                (result, result)
            }
            Some((_, How::Late)) => (write(bytes.len()), -1),
            Some(_) => (-1, -1),
        };
        if let (Some((number, _)), true) = (fault, result < 0) {
            unsafe { *__errno_location() = number };
        }
        if done > 0 {
            self.note("write", file, at, &bytes[..done as usize], result);
        }
        result as isize
    }

    fn open(&mut self, path: &CStr, flags: c_int, open: impl FnOnce() -> c_int) -> c_int {
        let kind = self.kind_at(path.to_bytes());
        if kind == Kind::Unseen {
            let file = open();
            if let Some(known) = self.kinds.get_mut(file as usize) {
                *known = Kind::Unseen;
            }
            return file;
        }
        let call = if flags & CREATE != 0 { "make" } else { "open" };
        let (done, result) = self.make(call, kind, || open() as i64);
        if let Some(known) = self.kinds.get_mut(done as usize) {
            *known = kind;
        }
        if done >= 0 {
            self.note("open", done as c_int, flags as i64, path.to_bytes(), result);
        }
        result as c_int
    }

    /// A call of a file that has no bytes.
    fn of_file(&mut self, call: &str, file: c_int, at: i64, make: impl FnOnce() -> c_int) -> c_int {
        let kind = self.kind(file);
        if kind == Kind::Unseen {
            return make();
        }
        let (done, result) = self.make(call, kind, || make() as i64);
        // A sync that failed is noted too: the system may drop what was not stored.
        if done >= 0 || call == "sync" {
            self.note(call, file, at, b"", result);
        }
        result as c_int
    }

    /// A call of names.
    fn of_names(&mut self, call: &str, names: &[&CStr], make: impl FnOnce() -> c_int) -> c_int {
        let kind = self.kind_at(names[names.len() - 1].to_bytes());
        if kind == Kind::Unseen {
            return make();
        }
        let (done, result) = self.make(call, kind, || make() as i64);
        if done >= 0 {
            let names: Vec<&[u8]> = names.iter().map(|name| name.to_bytes()).collect();
            self.note(call, -1, 0, &names.join(&0), result);
        }
        result as c_int
    }
}

unsafe fn read_at_by(name: &CStr, file: c_int, buffer: *mut u8, count: usize, at: i64) -> isize {
    let read: ReadAt = unsafe { transmute(next(name)) };
    let mut state = state();
    let kind = state.kind(file);
    let (_, result) = state.make("read", kind, || unsafe {
        read(file, buffer, count, at) as i64
    });
    result as isize
}

unsafe fn open_by(name: &CStr, path: *const c_char, flags: c_int, mode: c_uint) -> c_int {
    let open: Open = unsafe { transmute(next(name)) };
    state().open(unsafe { CStr::from_ptr(path) }, flags, || unsafe {
        open(path, flags, mode)
    })
}

unsafe fn open_at_by(
    name: &CStr,
    folder: c_int,
    path: *const c_char,
    flags: c_int,
    mode: c_uint,
) -> c_int {
    let open: OpenAt = unsafe { transmute(next(name)) };
    state().open(unsafe { CStr::from_ptr(path) }, flags, || unsafe {
        open(folder, path, flags, mode)
    })
}

unsafe fn cut_by(name: &CStr, file: c_int, length: i64) -> c_int {
    let cut: Cut = unsafe { transmute(next(name)) };
    state().of_file("cut", file, length, || unsafe { cut(file, length) })
}

unsafe fn sync_by(name: &CStr, file: c_int) -> c_int {
    let sync: OfFile = unsafe { transmute(next(name)) };
    state().of_file("sync", file, 0, || unsafe { sync(file) })
}

unsafe fn write_at_by(name: &CStr, file: c_int, bytes: *const u8, count: usize, at: i64) -> isize {
    let write: WriteAt = unsafe { transmute(next(name)) };
    let mut state = state();
    if state.kind(file) == Kind::Unseen {
        return unsafe { write(file, bytes, count, at) };
    }
    let given = unsafe { slice::from_raw_parts(bytes, count) };
    state.write(file, at, given, |few| unsafe {
        write(file, bytes, few, at) as i64
    })
}

#[unsafe(no_mangle)]
unsafe extern "C" fn open(path: *const c_char, flags: c_int, mode: c_uint) -> c_int {
    unsafe { open_by(c"open", path, flags, mode) }
}

#[unsafe(no_mangle)]
unsafe extern "C" fn open64(path: *const c_char, flags: c_int, mode: c_uint) -> c_int {
    unsafe { open_by(c"open64", path, flags, mode) }
}

#[unsafe(no_mangle)]
unsafe extern "C" fn openat(
    folder: c_int,
    path: *const c_char,
    flags: c_int,
    mode: c_uint,
) -> c_int {
    unsafe { open_at_by(c"openat", folder, path, flags, mode) }
}

#[unsafe(no_mangle)]
unsafe extern "C" fn openat64(
    folder: c_int,
    path: *const c_char,
    flags: c_int,
    mode: c_uint,
) -> c_int {
    unsafe { open_at_by(c"openat64", folder, path, flags, mode) }
}

#[unsafe(no_mangle)]
unsafe extern "C" fn close(file: c_int) -> c_int {
    let close: OfFile = unsafe { transmute(next(c"close")) };
    let mut state = state();
    let result = state.of_file("close", file, 0, || unsafe { close(file) });
    if file != OUTPUT
        && let Some(known) = state.kinds.get_mut(file as usize)
    {
        *known = Kind::Unseen;
    }
    result
}

#[unsafe(no_mangle)]
unsafe extern "C" fn write(file: c_int, bytes: *const u8, count: usize) -> isize {
    let write: Write = unsafe { transmute(next(c"write")) };
    let mut state = state();
    if state.kind(file) == Kind::Unseen {
        return unsafe { write(file, bytes, count) };
    }
    let given = unsafe { slice::from_raw_parts(bytes, count) };
    state.write(file, -1, given, |few| unsafe {
        write(file, bytes, few) as i64
    })
}

#[unsafe(no_mangle)]
unsafe extern "C" fn pwrite(file: c_int, bytes: *const u8, count: usize, at: i64) -> isize {
    unsafe { write_at_by(c"pwrite", file, bytes, count, at) }
}

#[unsafe(no_mangle)]
unsafe extern "C" fn pwrite64(file: c_int, bytes: *const u8, count: usize, at: i64) -> isize {
    unsafe { write_at_by(c"pwrite64", file, bytes, count, at) }
}

#[unsafe(no_mangle)]
unsafe extern "C" fn pread(file: c_int, buffer: *mut u8, count: usize, at: i64) -> isize {
    unsafe { read_at_by(c"pread", file, buffer, count, at) }
}

#[unsafe(no_mangle)]
unsafe extern "C" fn pread64(file: c_int, buffer: *mut u8, count: usize, at: i64) -> isize {
    unsafe { read_at_by(c"pread64", file, buffer, count, at) }
}

#[unsafe(no_mangle)]
unsafe extern "C" fn ftruncate(file: c_int, length: i64) -> c_int {
    unsafe { cut_by(c"ftruncate", file, length) }
}

#[unsafe(no_mangle)]
unsafe extern "C" fn ftruncate64(file: c_int, length: i64) -> c_int {
    unsafe { cut_by(c"ftruncate64", file, length) }
}

#[unsafe(no_mangle)]
unsafe extern "C" fn fdatasync(file: c_int) -> c_int {
    unsafe { sync_by(c"fdatasync", file) }
}

#[unsafe(no_mangle)]
unsafe extern "C" fn fsync(file: c_int) -> c_int {
    unsafe { sync_by(c"fsync", file) }
}

#[unsafe(no_mangle)]
unsafe extern "C" fn rename(from: *const c_char, to: *const c_char) -> c_int {
    let rename: Rename = unsafe { transmute(next(c"rename")) };
    let names = unsafe { [CStr::from_ptr(from), CStr::from_ptr(to)] };
    state().of_names("rename", &names, || unsafe { rename(from, to) })
}

#[unsafe(no_mangle)]
unsafe extern "C" fn unlink(path: *const c_char) -> c_int {
    let unlink: OfName = unsafe { transmute(next(c"unlink")) };
    let name = unsafe { CStr::from_ptr(path) };
    state().of_names("remove", &[name], || unsafe { unlink(path) })
}
