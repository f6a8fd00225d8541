//! Prints what the library says of a log and of copies.
//!
//! usage: files LOG COPY..
//!
//! The lines are: the counts of the log, or its fault; where a crash's log is to be cut; and `sound`,
//! or why the copies are not.

use imgcopy::{audit, check_log, log_prefix, Fault};
use std::io;

fn main() -> io::Result<()> {
    let mut names = std::env::args_os().skip(1);
    let log = std::fs::read(names.next().unwrap_or_default())?;
    let copies = names.map(std::fs::read).collect::<io::Result<Vec<_>>>()?;
    let archives: Vec<&[u8]> = copies.iter().map(Vec::as_slice).collect();
    print(check_log(&log).map(|it| format!("{} {} {}", it.pages, it.records, it.end)));
    print(log_prefix(&log).map(|it| format!("{} {}", it.end, it.forced_behind.unwrap_or(0))));
    print(audit(&log, &archives).map(|()| "sound".to_owned()));
    Ok(())
}

fn print(answer: Result<String, Fault>) {
    println!("{}", answer.unwrap_or_else(|fault| fault.to_string()));
}
