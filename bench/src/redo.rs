//! Reads a log with all of its checks, and makes the volume that it gives.

use crate::chains::{Chains, Change, ChangeKind};
use crate::checkpoints::{self, Checkpoints};
use crate::volume::{Place, Volume};
use crate::{
    fill, halves, is_one_of, word, words, Fault, ABORT, ADD, BEGIN, BEGIN_CHKPT, COMMIT, COMP, END,
    EXTEND, FIRST_MAGIC, HEADER_SIZE, LONGEST_LOG, MAGIC, MOST_PAGES, RECORD_SIZE, SET, SLOTS,
    UPDATE,
};
use std::io::{self, Read};

/// What is read at a time, so little that it stays near the processor.
const CHUNK_SIZE: usize = 1 << 17;

/// How many records are looked at ahead.
const AHEAD: usize = 32;

struct Record {
    transaction: u32,
    previous: u64,
    step: Step,
}

enum Step {
    Begin,
    Update { change: Change, before: u64 },
    Comp { change: Change, undo_next: u64 },
    Commit,
    Abort,
    End,
}

pub enum Failure {
    Fault(Fault),
    Io(io::Error),
}

impl From<Fault> for Failure {
    fn from(fault: Fault) -> Failure {
        Failure::Fault(fault)
    }
}

impl From<io::Error> for Failure {
    fn from(error: io::Error) -> Failure {
        Failure::Io(error)
    }
}

/// What the header of a log says.
struct Header {
    page_count: u32,
    /// A log of the first format has no Extend.
    is_first: bool,
}

/// A change of the log, in sixteen bytes.
#[derive(Clone, Copy, Default)]
pub struct Kept {
    pub number: u64,
    pub lsn: u32,
    pub page: u16,
    pub slot: u8,
    pub is_add: bool,
}

/// Reads a log by pieces, and keeps none of it.
pub fn redo(log: impl Read) -> Result<Redo, Failure> {
    read_keeping(log, u64::MAX)
}

/// Reads a log by pieces, and keeps of it the changes from this LSN on.
pub fn read_keeping(mut log: impl Read, keep_from: u64) -> Result<Redo, Failure> {
    let mut header = [0; HEADER_SIZE];
    if fill(&mut log, &mut header)? < HEADER_SIZE {
        return Err(Fault::BadHeader.into());
    }
    let mut redo = Redo::new(read_header(&header).ok_or(Fault::BadHeader)?, keep_from);
    let mut chunk = vec![0; CHUNK_SIZE];
    loop {
        let count = fill(&mut log, &mut chunk)?;
        redo.take_chunk(&chunk[..count])?;
        if count < CHUNK_SIZE {
            return Ok(redo);
        }
    }
}

/// What the records until now leave.
pub struct Redo {
    /// Where the next record begins.
    pub lsn: usize,
    is_first: bool,
    /// How many pages the volume has before the log, and after each Extend, by its LSN.
    counts: Vec<(u64, u32)>,
    pub page_count: u32,
    pub volume: Volume,
    pub chains: Chains,
    pub checkpoints: Checkpoints,
    keep_from: u64,
    pub kept: Vec<Kept>,
}

impl Redo {
    fn new(header: Header, keep_from: u64) -> Redo {
        let page_count = header.page_count;
        Redo {
            lsn: HEADER_SIZE,
            is_first: header.is_first,
            counts: vec![(0, page_count)],
            page_count,
            volume: Volume::new(page_count),
            chains: Chains::new(),
            checkpoints: Checkpoints::new(),
            keep_from,
            kept: Vec::new(),
        }
    }

    /// How many pages the records below this LSN give the volume.
    pub fn page_count_below(&self, lsn: u64) -> u32 {
        let behind = self.counts.partition_point(|(extend, _)| *extend < lsn);
        self.counts[behind.max(1) - 1].1
    }

    fn take_chunk(&mut self, chunk: &[u8]) -> Result<(), Fault> {
        for records in chunk.chunks(AHEAD * RECORD_SIZE) {
            self.look(records);
            for bytes in records.chunks(RECORD_SIZE) {
                self.take_bytes(bytes)?;
            }
        }
        Ok(())
    }

    /// Looks at the slots of these records, right or wrong, so that all of them come from memory at the same time. Where they
    /// are is found before, so that no look waits for that.
    fn look(&self, records: &[u8]) {
        let mut places = [Place::of(0, 0); AHEAD];
        for (place, bytes) in places.iter_mut().zip(records.chunks_exact(RECORD_SIZE)) {
            let (number, slot) = halves(word(&bytes[24..32]));
            *place = Place::of(number as u16, slot as u8 & 63);
        }
        let looks = places.iter().map(|place| self.volume.look(*place));
        std::hint::black_box(looks.fold(0, |all, byte| all ^ byte));
    }

    #[inline]
    fn take_bytes(&mut self, bytes: &[u8]) -> Result<(), Fault> {
        if self.lsn == LONGEST_LOG {
            return Err(Fault::TooLong);
        }
        let Some(bytes) = bytes.first_chunk::<RECORD_SIZE>() else {
            return Err(Fault::Torn(self.lsn));
        };
        if u32::from(bytes[0]) >= BEGIN_CHKPT {
            let is_extend = u32::from(bytes[0]) == EXTEND && !self.is_first;
            return if is_extend {
                self.take_extend(bytes)
            } else {
                self.take_checkpoint(bytes)
            };
        }
        let record =
            read_record(bytes, self.lsn, self.page_count).ok_or(Fault::BadRecord(self.lsn))?;
        self.take(&record).ok_or(Fault::BadChain(self.lsn))?;
        self.lsn += RECORD_SIZE;
        Ok(())
    }

    #[inline(never)]
    fn take_checkpoint(&mut self, bytes: &[u8; RECORD_SIZE]) -> Result<(), Fault> {
        let lsn = self.lsn as u64;
        let record =
            checkpoints::read(bytes, lsn, self.page_count).ok_or(Fault::BadRecord(self.lsn))?;
        self.checkpoints
            .take(&record, lsn, &self.chains)
            .ok_or(Fault::BadChain(self.lsn))?;
        self.lsn += RECORD_SIZE;
        Ok(())
    }

    /// The volume grows.
    #[inline(never)]
    fn take_extend(&mut self, bytes: &[u8; RECORD_SIZE]) -> Result<(), Fault> {
        let page_count = read_extend(bytes, self.lsn).ok_or(Fault::BadRecord(self.lsn))?;
        if page_count <= self.page_count {
            return Err(Fault::BadChain(self.lsn));
        }
        self.volume.grow(self.page_count, page_count);
        self.page_count = page_count;
        self.counts.push((self.lsn as u64, page_count));
        self.lsn += RECORD_SIZE;
        Ok(())
    }

    /// Makes the record's change, or gives `None` if the record may not follow those before it.
    #[inline]
    fn take(&mut self, record: &Record) -> Option<()> {
        let (transaction, previous, lsn) = (record.transaction, record.previous, self.lsn as u64);
        if let Step::Begin = record.step {
            return self.chains.begin(transaction, lsn);
        }
        let seat = self.chains.go_on(transaction, previous, lsn)?;
        let volume = &mut self.volume;
        match &record.step {
            Step::Begin => unreachable!("a Begin was taken above"),
            Step::Update { change, before } => {
                self.chains
                    .update(seat, previous, change, *before, volume)?;
                self.note(change);
                Some(())
            }
            Step::Comp { change, undo_next } => {
                self.chains.compensate(seat, change, *undo_next, volume)?;
                self.note(change);
                Some(())
            }
            Step::Commit => self.chains.commit(transaction, seat, volume),
            Step::Abort => self.chains.abort(seat),
            Step::End => self.chains.end(transaction, seat),
        }
    }

    #[inline]
    fn note(&mut self, change: &Change) {
        self.checkpoints.note(self.lsn as u64, change.page);
        if self.lsn as u64 >= self.keep_from {
            self.kept.push(Kept {
                number: change.number,
                lsn: self.lsn as u32,
                page: change.page,
                slot: change.slot,
                is_add: change.kind == ChangeKind::Add,
            });
        }
    }
}

/// What the header says, if these bytes are one.
fn read_header(header: &[u8; HEADER_SIZE]) -> Option<Header> {
    let [magic, page_count, rest @ ..] = words(header);
    let page_count = page_count_of(page_count)?;
    let is_header = is_one_of(magic, [MAGIC, FIRST_MAGIC]) && rest == [0; 6];
    is_header.then_some(Header {
        page_count,
        is_first: header.starts_with(FIRST_MAGIC),
    })
}

/// The page count of an Extend, if these bytes are one at this LSN.
fn read_extend(bytes: &[u8; RECORD_SIZE], lsn: usize) -> Option<u32> {
    let [head, previous, undo_next, page_count, rest @ .., own] = words(bytes);
    let is_extend = [head, previous, undo_next, own] == [u64::from(EXTEND), 0, 0, lsn as u64];
    page_count_of(page_count).filter(|_| is_extend && rest == [0; 3])
}

fn page_count_of(word: u64) -> Option<u32> {
    let page_count = u32::try_from(word).ok()?;
    (1..=MOST_PAGES).contains(&page_count).then_some(page_count)
}

/// The record, if these bytes are one at this LSN in a volume of this many pages.
#[inline]
fn read_record(bytes: &[u8; RECORD_SIZE], lsn: usize, page_count: u32) -> Option<Record> {
    let [head, previous, undo_next, place, before, number, zero, own] = words(bytes);
    let (kind, transaction) = halves(head);
    if transaction == 0 || zero != 0 || own != lsn as u64 {
        return None;
    }
    let no_change = place | before | number == 0;
    let is_chained = is_before(previous, own) && (kind == COMP || undo_next == 0);
    let step = match kind {
        BEGIN if previous == 0 && undo_next == 0 && no_change => Step::Begin,
        UPDATE if is_chained => Step::Update {
            change: read_change(place, number, page_count)
                .filter(|change| (change.kind == ChangeKind::Set) | (before == 0))?,
            before,
        },
        COMP if is_chained && is_before(undo_next, own) && before == 0 => Step::Comp {
            change: read_change(place, number, page_count)?,
            undo_next,
        },
        COMMIT if is_chained && no_change => Step::Commit,
        ABORT if is_chained && no_change => Step::Abort,
        END if is_chained && no_change => Step::End,
        _ => return None,
    };
    Some(Record {
        transaction,
        previous,
        step,
    })
}

/// Whether a record may stand at this LSN and before the other one.
#[inline]
fn is_before(lsn: u64, own: u64) -> bool {
    lsn >= HEADER_SIZE as u64 && lsn < own && lsn % RECORD_SIZE as u64 == 0
}

#[inline]
fn read_change(place: u64, number: u64, page_count: u32) -> Option<Change> {
    let (page, slot_and_kind) = halves(place);
    let (slot, kind) = (slot_and_kind as u16, (slot_and_kind >> 16) as u16);
    let is_change = (kind == SET) | (kind == ADD);
    (is_change && page < page_count && usize::from(slot) < SLOTS).then_some(Change {
        page: page as u16,
        slot: slot as u8,
        kind: if kind == SET {
            ChangeKind::Set
        } else {
            ChangeKind::Add
        },
        number,
    })
}
