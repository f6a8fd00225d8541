//! `peak_memory PROGRAM ARGUMENT.. < input > output` runs the program, and then writes to standard error the largest
//! resident set that it had, in bytes. The system counts that of the process that started the program too, so this one
//! is small.

use std::ffi::{c_int, c_long};
use std::io;
use std::process::{Command, ExitCode};

const UNIT: c_long = if cfg!(target_os = "macos") { 1 } else { 1024 };

/// What the system tells of a process that ended.
#[derive(Default)]
#[repr(C)]
struct Usage {
    times: [c_long; 4],
    peak: c_long,
    others: [c_long; 13],
}

extern "C" {
    fn wait4(process: c_int, status: *mut c_int, options: c_int, usage: *mut Usage) -> c_int;
}

fn main() -> ExitCode {
    let mut words = std::env::args_os().skip(1);
    let Some(program) = words.next() else {
        eprintln!("usage: peak_memory PROGRAM ARGUMENT.. < input > output");
        return ExitCode::from(1);
    };
    match peak_memory(Command::new(program).args(words)) {
        Ok(bytes) => {
            eprintln!("{bytes}");
            ExitCode::SUCCESS
        }
        Err(error) => {
            eprintln!("peak_memory: {error}");
            ExitCode::from(1)
        }
    }
}

fn peak_memory(command: &mut Command) -> io::Result<c_long> {
    let process = command.spawn()?.id() as c_int;
    let mut status = 0;
    let mut usage = Usage::default();
    // SAFETY: both places are of the types that the system writes, and live until the call returns.
    if unsafe { wait4(process, &mut status, 0, &mut usage) } != process {
        return Err(io::Error::last_os_error());
    }
    if status != 0 {
        return Err(io::Error::other("the program did not end with status 0"));
    }
    Ok(usage.peak * UNIT)
}
