//! The bytes of the records that the engine appends.

use crate::chains::ChangeKind;
use crate::{ADD, RECORD_SIZE, SET};

/// The bytes of one record, but for its own LSN.
pub struct Record([u8; RECORD_SIZE]);

impl Record {
    #[inline]
    pub fn new(kind: u32, transaction: u32, previous: u64) -> Record {
        let mut record = Record([0; RECORD_SIZE]);
        record.put(0, &kind.to_le_bytes());
        record.put(4, &transaction.to_le_bytes());
        record.put(8, &previous.to_le_bytes());
        record
    }

    #[inline]
    pub fn put_undo_next(&mut self, lsn: u64) {
        self.put(16, &lsn.to_le_bytes());
    }

    #[inline]
    pub fn put_change(&mut self, page: u32, slot: u16, kind: ChangeKind, before: u64, number: u64) {
        let kind = match kind {
            ChangeKind::Set => SET,
            ChangeKind::Add => ADD,
        };
        let place = u64::from(page) | u64::from(slot) << 32 | u64::from(kind) << 48;
        self.put(24, &place.to_le_bytes());
        self.put(32, &before.to_le_bytes());
        self.put(40, &number.to_le_bytes());
    }

    #[inline]
    pub fn put(&mut self, at: usize, bytes: &[u8]) {
        self.0[at..at + bytes.len()].copy_from_slice(bytes);
    }

    /// The bytes of the record at this LSN.
    #[inline]
    pub fn at(mut self, lsn: u64) -> [u8; RECORD_SIZE] {
        self.put(56, &lsn.to_le_bytes());
        self.0
    }
}
