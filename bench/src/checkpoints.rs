//! The records of checkpoints, and by which of them an open checkpoint may go on.

use crate::chains::Chains;
use crate::{
    BEGIN_CHKPT, CHKPT_PAGES, CHKPT_TXNS, END_CHKPT, HEADER_SIZE, MOST_RECORDS, RECORD_SIZE,
};

/// A record of a checkpoint, with the LSN of its BeginChkpt.
pub struct Record {
    begin: u64,
    step: Step,
}

/// Up to three pages, each with its RecLSN.
struct Entries {
    entries: [(u32, u64); 3],
    count: usize,
}

impl Entries {
    fn all(&self) -> &[(u32, u64)] {
        &self.entries[..self.count]
    }
}

enum Step {
    Begin,
    Pages(Entries),
    Transaction {
        transaction: u32,
        is_rolling: bool,
        last: u64,
        undo_next: u64,
    },
    End {
        redo: u64,
    },
}

#[derive(Default)]
struct Open {
    begin: u64,
    redo: u64,
    last_page: Option<u32>,
    transactions: Vec<u32>,
}

pub struct Checkpoints {
    /// By record: one more than the page that it changes, in two bytes. 0 where it changes none, or the last page.
    changed: Vec<u16>,
    /// The LSNs of the records that change the last page that there may be.
    of_last_page: Vec<u32>,
    open: Option<Open>,
    /// The begin and the end of each complete checkpoint.
    complete: Vec<(u32, u32)>,
}

/// The record of a checkpoint, if these bytes are one at this LSN in a volume of this many pages.
pub fn read(bytes: &[u8], lsn: u64, page_count: u32) -> Option<Record> {
    let begin = u64_at(bytes, 8);
    if u32_at(bytes, 4) != 0 || u64_at(bytes, 56) != lsn {
        return None;
    }
    let (step, used) = match u32_at(bytes, 0) {
        BEGIN_CHKPT => (Step::Begin, 16),
        CHKPT_PAGES => {
            let count = u32_at(bytes, 16) as usize;
            if !(1..=3).contains(&count) {
                return None;
            }
            let entries = std::array::from_fn(|index| {
                let at = 20 + 12 * index;
                (u32_at(bytes, at), u64_at(bytes, at + 4))
            });
            let used = 20 + 12 * count;
            (Step::Pages(Entries { entries, count }), used)
        }
        CHKPT_TXNS => {
            let state = u32_at(bytes, 24);
            if u32_at(bytes, 16) != 0 || !(1..=2).contains(&state) {
                return None;
            }
            let step = Step::Transaction {
                transaction: u32_at(bytes, 20),
                is_rolling: state == 2,
                last: u64_at(bytes, 28),
                undo_next: u64_at(bytes, 36),
            };
            (step, 44)
        }
        END_CHKPT if u64_at(bytes, 16) == 0 => (
            Step::End {
                redo: u64_at(bytes, 24),
            },
            32,
        ),
        _ => return None,
    };
    let is_before =
        |other: u64| other >= HEADER_SIZE as u64 && other < lsn && other % RECORD_SIZE as u64 == 0;
    let is_right = match &step {
        Step::Begin => begin == 0,
        Step::Pages(entries) => {
            entries.all().windows(2).all(|pair| pair[0].0 < pair[1].0)
                && entries
                    .all()
                    .iter()
                    .all(|entry| entry.0 < page_count && is_before(entry.1))
        }
        Step::Transaction {
            transaction,
            last,
            undo_next,
            ..
        } => *transaction != 0 && is_before(*last) && is_before(*undo_next),
        Step::End { redo } => is_before(*redo),
    };
    let is_named = matches!(step, Step::Begin) || is_before(begin);
    let is_spare = bytes[used..56].iter().all(|byte| *byte == 0);
    (is_right && is_named && is_spare).then_some(Record { begin, step })
}

impl Checkpoints {
    pub fn new() -> Checkpoints {
        Checkpoints {
            changed: vec![0; MOST_RECORDS],
            of_last_page: Vec::new(),
            open: None,
            complete: Vec::new(),
        }
    }

    /// Notes that the record at this LSN changes a page.
    #[inline]
    pub fn note(&mut self, lsn: u64, page: u16) {
        self.changed[index_of(lsn)] = page.wrapping_add(1);
        if page == u16::MAX {
            self.of_last_page.push(lsn as u32);
        }
    }

    /// Whether the checkpoint with this BeginChkpt and this EndChkpt is complete.
    pub fn is_complete(&self, begin: u64, end: u64) -> bool {
        let mut ends = self.complete.iter();
        ends.any(|(first, last)| (u64::from(*first), u64::from(*last)) == (begin, end))
    }

    /// Takes a record of a checkpoint at this LSN, or gives `None` if it may not come next.
    pub fn take(&mut self, record: &Record, lsn: u64, chains: &Chains) -> Option<()> {
        if let Step::Begin = record.step {
            return self.begin(lsn);
        }
        let (changed, of_last_page) = (&self.changed, &self.of_last_page);
        let is_of = |page: u32, lsn: u64| match changed[index_of(lsn)] {
            0 => page == u32::from(u16::MAX) && of_last_page.binary_search(&(lsn as u32)).is_ok(),
            number => page + 1 == u32::from(number),
        };
        let open = self
            .open
            .as_mut()
            .filter(|open| open.begin == record.begin)?;
        match &record.step {
            Step::Begin => unreachable!("a BeginChkpt was taken above"),
            Step::Pages(entries) => {
                for (page, rec_lsn) in entries.all() {
                    if !is_of(*page, *rec_lsn) || open.last_page >= Some(*page) {
                        return None;
                    }
                    open.last_page = Some(*page);
                    open.redo = open.redo.min(*rec_lsn);
                }
                open.transactions.is_empty().then_some(())
            }
            Step::Transaction {
                transaction,
                is_rolling,
                last,
                undo_next,
            } => {
                if open.transactions.last() >= Some(transaction) {
                    return None;
                }
                open.transactions.push(*transaction);
                (chains.now(*transaction)? == (*is_rolling, *last, *undo_next)).then_some(())
            }
            Step::End { redo } => {
                let is_complete = chains
                    .began_before(open.begin)
                    .all(|transaction| open.transactions.binary_search(&transaction).is_ok());
                let is_right = *redo == open.redo && is_complete;
                self.complete.push((open.begin as u32, lsn as u32));
                self.open = None;
                is_right.then_some(())
            }
        }
    }

    fn begin(&mut self, lsn: u64) -> Option<()> {
        if self.open.is_some() {
            return None;
        }
        self.open = Some(Open {
            begin: lsn,
            redo: lsn,
            ..Open::default()
        });
        Some(())
    }
}

impl Default for Checkpoints {
    fn default() -> Checkpoints {
        Checkpoints::new()
    }
}

/// The number of the record at this LSN, from 0 on.
#[inline]
fn index_of(lsn: u64) -> usize {
    lsn as usize / RECORD_SIZE - 1
}

fn u32_at(bytes: &[u8], at: usize) -> u32 {
    u32::from_le_bytes(bytes[at..at + 4].try_into().expect("four bytes"))
}

fn u64_at(bytes: &[u8], at: usize) -> u64 {
    u64::from_le_bytes(bytes[at..at + 8].try_into().expect("eight bytes"))
}
