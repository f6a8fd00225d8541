//! Checks logs of imgcopy, redoes them, finds where a crash has left one, recovers a database from
//! it, and audits image copies against it. The calls are proved, and made by libimgcopy; `include/imgcopy.h` says what each of
//! them answers.
//!
//! ```no_run
//! let log = std::fs::read("day/log")?;
//! let volume = imgcopy::redo(&log)?;
//! imgcopy::audit(&log, &[&std::fs::read("day/copy-1")?])?;
//! # Ok::<(), Box<dyn std::error::Error>>(())
//! ```

mod fault;

pub use fault::Fault;

use imgcopy_sys as sys;

/// The bytes of a page in a volume.
pub const PAGE_BYTES: usize = 512;

/// How many pages a volume has at most.
pub const MAX_PAGES: usize = 65_536;

/// What a check says of a whole log.
#[derive(Clone, Copy, Debug, PartialEq, Eq)]
pub struct LogCounts {
    /// How many pages its volume has.
    pub pages: u64,
    /// How many records it has.
    pub records: u64,
    /// The LSN behind the last record: the log's length in bytes.
    pub end: u64,
}

/// The longest front of some bytes that is a log.
#[derive(Clone, Copy, Debug, PartialEq, Eq)]
pub struct LogPrefix {
    /// The offset at which it ends.
    pub end: u64,
    /// What `check_log` says of the bytes behind it; `None` if there are none.
    pub fault: Option<Fault>,
    /// The LSN of the first record behind it that was forced. If there is one, records are lost
    /// that no crash takes: such a log is not to be cut.
    pub forced_behind: Option<u64>,
}

/// What a recovery makes of a log.
#[derive(Clone, Debug, PartialEq, Eq)]
pub struct Recovered {
    /// The bytes of the volume, in which each slot has what was committed.
    pub volume: Vec<u8>,
    /// The bytes of the records that undo appends to the log: behind it they make a log in which no
    /// transaction is open.
    pub tail: Vec<u8>,
}

/// Checks whether the bytes are a whole log.
pub fn check_log(log: &[u8]) -> Result<LogCounts, Fault> {
    // SAFETY: the pointer and the length are those of a slice.
    let told = told(unsafe { sys::imgcopy_check_log(log.as_ptr(), log.len()) })?;
    Ok(LogCounts {
        pages: told.first,
        records: told.second,
        end: told.third,
    })
}

/// The volume of a log: the bytes of its pages, in the order of their numbers.
pub fn redo(log: &[u8]) -> Result<Vec<u8>, Fault> {
    let mut volume = vec![0; PAGE_BYTES * pages_in_header(log)];
    let made = match redo_into(log, &mut volume) {
        // The volume has grown since the header was written.
        Err(Fault::TooShort { needed }) => {
            volume.resize(needed as usize, 0);
            redo_into(log, &mut volume)
        }
        answer => answer,
    }?;
    volume.truncate(made);
    Ok(volume)
}

/// Puts the volume of a log at the front of `volume`, and returns its length in bytes. The bytes
/// behind it are as they were, and so are all of them at an `Err`.
pub fn redo_into(log: &[u8], volume: &mut [u8]) -> Result<usize, Fault> {
    // SAFETY: the pointers and the lengths are those of slices, and the borrow of `volume` rules out
    // that they overlap.
    let outcome =
        unsafe { sys::imgcopy_redo(log.as_ptr(), log.len(), volume.as_mut_ptr(), volume.len()) };
    Ok(told(outcome)?.first as usize)
}

/// Finds where the bytes of a log are to be cut that a crash has left.
pub fn log_prefix(log: &[u8]) -> Result<LogPrefix, Fault> {
    // SAFETY: the pointer and the length are those of a slice.
    let told = told(unsafe { sys::imgcopy_log_prefix(log.as_ptr(), log.len()) })?;
    Ok(LogPrefix {
        end: told.first,
        fault: Fault::at_cut(told.second, told.first),
        forced_behind: (told.third != 0).then_some(told.third),
    })
}

/// Recovers a database from its whole log, as a restart does. First cut the log where `log_prefix`
/// says.
pub fn recover(log: &[u8]) -> Result<Recovered, Fault> {
    let (mut volume, mut tail) = (vec![0; PAGE_BYTES * pages_in_header(log)], Vec::new());
    loop {
        // SAFETY: the pointers and the lengths are those of slices, and the two that are written are
        // of two vectors.
        let outcome = unsafe {
            sys::imgcopy_recover(
                log.as_ptr(),
                log.len(),
                volume.as_mut_ptr(),
                volume.len(),
                tail.as_mut_ptr(),
                tail.len(),
            )
        };
        match told(outcome) {
            Ok(put) => {
                volume.truncate(put.first as usize);
                tail.truncate(put.second as usize);
                return Ok(Recovered { volume, tail });
            }
            Err(Fault::TooShort { .. }) => {
                volume.resize(outcome.first as usize, 0);
                tail.resize(outcome.second as usize, 0);
            }
            Err(fault) => return Err(fault),
        }
    }
}

/// Audits the archives of a chain of image copies, the full copy first, against a log. It copies
/// them into one buffer; `audit_joined` takes such a one.
pub fn audit(log: &[u8], archives: &[&[u8]]) -> Result<(), Fault> {
    let lengths: Vec<usize> = archives.iter().map(|archive| archive.len()).collect();
    audit_joined(log, &archives.concat(), &lengths)
}

/// Audits archives that stand one behind another, each of which has so many bytes.
pub fn audit_joined(log: &[u8], archives: &[u8], lengths: &[usize]) -> Result<(), Fault> {
    // SAFETY: the pointers and the lengths are those of slices.
    let outcome = unsafe {
        sys::imgcopy_audit(
            log.as_ptr(),
            log.len(),
            archives.as_ptr(),
            archives.len(),
            lengths.as_ptr(),
            lengths.len(),
        )
    };
    told(outcome).map(|_| ())
}

fn told(outcome: sys::imgcopy_outcome) -> Result<sys::imgcopy_outcome, Fault> {
    match outcome.code {
        0 => Ok(outcome),
        _ => Err(Fault::from(outcome)),
    }
}

/// The page count that a log's header gives, if it gives one that a volume may have.
fn pages_in_header(log: &[u8]) -> usize {
    let pages = log
        .get(8..12)
        .and_then(|bytes| bytes.try_into().ok())
        .map_or(0, u32::from_le_bytes);
    if pages as usize <= MAX_PAGES {
        pages as usize
    } else {
        0
    }
}
