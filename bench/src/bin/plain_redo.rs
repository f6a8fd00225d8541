//! `plain_redo redo < log > volume` does what `imgcopy redo` does, with the same checks and the same faults, in
//! plain Rust. It is the measure that imgcopy is held to.

use bench::redo::{redo, Failure};
use std::fs::File;
use std::io::{self, Write};
use std::os::fd::AsFd;
use std::process::ExitCode;

fn main() -> ExitCode {
    if !std::env::args_os().skip(1).eq(["redo"]) {
        eprintln!("usage: plain_redo redo < log > volume");
        return ExitCode::from(1);
    }
    match run() {
        Ok(()) => ExitCode::SUCCESS,
        Err(Failure::Fault(fault)) => {
            eprintln!("{fault}");
            ExitCode::from(fault.status())
        }
        Err(Failure::Io(error)) => {
            eprintln!("plain_redo: {error}");
            ExitCode::from(1)
        }
    }
}

fn run() -> Result<(), Failure> {
    let input = File::from(io::stdin().as_fd().try_clone_to_owned()?);
    let mut output = File::from(io::stdout().as_fd().try_clone_to_owned()?);
    let mut redo = redo(input)?;
    Ok(output.write_all(redo.volume.finish(redo.page_count))?)
}
