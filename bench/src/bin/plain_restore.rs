//! `plain_restore restore LOG MASTER ARCHIVE.. > volume` does what `imgcopy restore` does, with the same checks and the
//! same faults of files that can be read, in plain Rust.

use bench::chains::{Chains, Change, ChangeKind};
use bench::checkpoints::Checkpoints;
use bench::copies::{open_chain, pages_of_chain, redo_point};
use bench::redo::{read_keeping, Failure, Kept};
use bench::{lsn_of, word, words, Fault, Page, FIRST_SLOT, MOST_RECORDS, PAGE_SIZE, RECORD_SIZE};
use std::ffi::OsString;
use std::fs::{self, File};
use std::io::{self, Write};
use std::os::fd::AsFd;
use std::process::ExitCode;

const MASTER_MAGIC: &[u8; 8] = b"AIMGMST1";

fn main() -> ExitCode {
    let names: Vec<OsString> = std::env::args_os().skip(1).collect();
    let [restore, log, master, archives @ ..] = names.as_slice() else {
        return usage();
    };
    if restore != "restore" {
        return usage();
    }
    match run(log, master, archives) {
        Ok(()) => ExitCode::SUCCESS,
        Err(Failure::Fault(fault)) => {
            eprintln!("{fault}");
            ExitCode::from(fault.status())
        }
        Err(Failure::Io(error)) => {
            eprintln!("plain_restore: {error}");
            ExitCode::from(2)
        }
    }
}

fn usage() -> ExitCode {
    eprintln!("usage: plain_restore restore LOG MASTER ARCHIVE.. > volume");
    ExitCode::from(1)
}

/// How many changes are looked at ahead.
const AHEAD: usize = 32;

/// How many pages of an incremental copy are read at a time.
const READ_AHEAD: usize = 256;

fn run(log: &OsString, master: &OsString, archives: &[OsString]) -> Result<(), Failure> {
    // Only from there on a change is redone, so only those are kept.
    let from = archives.last().and_then(redo_point).unwrap_or(u64::MAX);
    let read = read_keeping(File::open(log)?, from)?;
    check_master(&fs::read(master)?, &read.checkpoints)?;
    let chain = open_chain(archives, &read, READ_AHEAD)?;
    // The log is checked, so the memory of its pages is free for those of the chain.
    let mut bytes = pages_of_chain(chain, read.page_count, read.volume.into_bytes())?;
    let records = read.lsn / RECORD_SIZE - 1;
    let open = read.chains.open_transactions();
    let owed: usize = open.map(|open| open.owed()).sum();
    if records + owed > MOST_RECORDS {
        return Err(Fault::LogFull.into());
    }
    let (pages, _) = bytes.as_chunks_mut::<PAGE_SIZE>();
    resume(pages, &read.kept);
    undo(pages, &read.chains, read.lsn as u64);
    let mut out = File::from(io::stdout().as_fd().try_clone_to_owned()?);
    Ok(out.write_all(&bytes)?)
}

/// Checks that these bytes name a complete checkpoint of the log.
fn check_master(master: &[u8], checkpoints: &Checkpoints) -> Result<(), Fault> {
    let bytes: &[u8; 64] = master.try_into().map_err(|_| Fault::BadHeader)?;
    let [magic, begin, end, rest @ ..] = words(bytes);
    let is_master = magic == u64::from_le_bytes(*MASTER_MAGIC)
        && begin % 64 == 0
        && end % 64 == 0
        && (64..end).contains(&begin)
        && rest == [0; 5];
    if !is_master {
        return Err(Fault::BadHeader);
    }
    if checkpoints.is_complete(begin, end) {
        Ok(())
    } else {
        Err(Fault::BadChain(begin as usize))
    }
}

/// Redoes changes on pages that have some of them already.
fn resume(pages: &mut [Page], changes: &[Kept]) {
    for changes in changes.chunks(AHEAD) {
        let looks = changes.iter().map(|change| {
            let page = &pages[usize::from(change.page)];
            page[8] ^ page[at_slot(change.slot)]
        });
        std::hint::black_box(looks.fold(0, |all, byte| all ^ byte));
        for change in changes {
            let page = &mut pages[usize::from(change.page)];
            if u64::from(change.lsn) > lsn_of(page) {
                put(page, change.slot, change.is_add, change.number, change.lsn);
            }
        }
    }
}

fn at_slot(slot: u8) -> usize {
    FIRST_SLOT + 8 * usize::from(slot)
}

#[inline]
fn put(page: &mut Page, slot: u8, is_add: bool, number: u64, lsn: u32) {
    page[8..16].copy_from_slice(&u64::from(lsn).to_le_bytes());
    let slot = &mut page[at_slot(slot)..at_slot(slot) + 8];
    let base = if is_add { word(slot) } else { 0 };
    slot.copy_from_slice(&base.wrapping_add(number).to_le_bytes());
}

/// Takes back the pending changes, the last one first. Each Comp and each End takes the place of a record.
fn undo(pages: &mut [Page], chains: &Chains, end: u64) {
    let mut lsn = end;
    let mut changes = Vec::new();
    let mut left = Vec::new();
    for (index, open) in chains.open_transactions().enumerate() {
        left.push(open.pending.len());
        if open.pending.is_empty() {
            lsn += RECORD_SIZE as u64;
        }
        changes.extend(open.pending.iter().map(|pending| (pending, index)));
    }
    changes.sort_by_key(|(pending, _)| pending.lsn);
    for (pending, index) in changes.into_iter().rev() {
        let Change {
            page,
            slot,
            kind,
            number,
        } = pending.undo();
        let page = &mut pages[usize::from(page)];
        put(page, slot, kind == ChangeKind::Add, number, lsn as u32);
        left[index] -= 1;
        lsn += RECORD_SIZE as u64 * if left[index] == 0 { 2 } else { 1 };
    }
}
