//! The format of logs and volumes, and which record may follow which, for the programs of the benchmark.

pub mod chains;
pub mod checkpoints;
pub mod copies;
pub mod engine;
mod frames;
pub mod random;
mod records;
pub mod redo;
pub mod replies;
pub mod script;
pub mod store;
pub mod volume;
pub mod workload;

use std::fmt;
use std::io::{self, ErrorKind, Read};

/// What a log begins with that is written, and one of the first format, which is read too.
pub const MAGIC: &[u8; 8] = b"AIMGLOG2";
pub const FIRST_MAGIC: &[u8; 8] = b"AIMGLOG1";
pub const HEADER_SIZE: usize = 64;
pub const RECORD_SIZE: usize = 64;
pub const MOST_RECORDS: usize = 1 << 20;
pub const LONGEST_LOG: usize = HEADER_SIZE + RECORD_SIZE * MOST_RECORDS;

/// How many transactions may be open at once.
pub const MOST_OPEN: usize = 64;

/// The kinds of records, each with the three zeros behind it.
pub const BEGIN: u32 = 1;
pub const UPDATE: u32 = 2;
pub const COMP: u32 = 3;
pub const COMMIT: u32 = 4;
pub const ABORT: u32 = 5;
pub const END: u32 = 6;
pub const BEGIN_CHKPT: u32 = 7;
pub const CHKPT_PAGES: u32 = 8;
pub const CHKPT_TXNS: u32 = 9;
pub const END_CHKPT: u32 = 10;
pub const EXTEND: u32 = 11;

/// The kinds of changes, each with the zero behind it.
pub const SET: u16 = 1;
pub const ADD: u16 = 2;

pub const PAGE_SIZE: usize = 512;
pub const PAGE_FORMAT: u32 = 1;
pub const FIRST_SLOT: usize = 16;
pub const SLOTS: usize = 62;
pub const MOST_PAGES: u32 = 1 << 16;

pub type Page = [u8; PAGE_SIZE];

/// Why an input is refused.
pub enum Fault {
    LogFull,
    BadHeader,
    BadRecord(usize),
    Torn(usize),
    TooLong,
    BadChain(usize),
    BadArchive(usize),
    ChainBroken(u32),
    CountDiffers,
    RedoBeyondLog,
    PageBeyondLog(u32),
    Unsound(u32, u32),
}

impl Fault {
    pub fn status(&self) -> u8 {
        match self {
            Fault::LogFull
            | Fault::ChainBroken(_)
            | Fault::RedoBeyondLog
            | Fault::PageBeyondLog(_)
            | Fault::Unsound(..) => 1,
            _ => 2,
        }
    }
}

impl fmt::Display for Fault {
    fn fmt(&self, out: &mut fmt::Formatter) -> fmt::Result {
        match self {
            Fault::LogFull => write!(out, "E8 LogFull"),
            Fault::BadHeader => write!(out, "E30 BadHeader"),
            Fault::BadRecord(at) => write!(out, "E31 BadRecord {at}"),
            Fault::Torn(at) => write!(out, "E32 Torn {at}"),
            Fault::TooLong => write!(out, "E34 TooLong"),
            Fault::BadChain(at) => write!(out, "E35 BadChain {at}"),
            Fault::BadArchive(at) => write!(out, "E36 BadArchive {at}"),
            Fault::ChainBroken(copy) => write!(out, "E37 ChainBroken {copy}"),
            Fault::CountDiffers => write!(out, "E38 CountDiffers"),
            Fault::RedoBeyondLog => write!(out, "E39 RedoBeyondLog"),
            Fault::PageBeyondLog(page) => write!(out, "E40 PageBeyondLog {page}"),
            Fault::Unsound(copy, page) => write!(out, "E41 Unsound {copy} {page}"),
        }
    }
}

/// Reads until the buffer is full or the input ends, and says how much was read.
pub fn fill(input: &mut impl Read, buffer: &mut [u8]) -> io::Result<usize> {
    let mut filled = 0;
    while filled < buffer.len() {
        match input.read(&mut buffer[filled..]) {
            Ok(0) => break,
            Ok(count) => filled += count,
            Err(error) if error.kind() == ErrorKind::Interrupted => {}
            Err(error) => return Err(error),
        }
    }
    Ok(filled)
}

/// A page as it is formatted.
pub fn formatted_page(number: u32) -> Page {
    let mut page = [0; PAGE_SIZE];
    page[0..4].copy_from_slice(&number.to_le_bytes());
    page[4..8].copy_from_slice(&PAGE_FORMAT.to_le_bytes());
    page
}

/// The LSN of a page.
#[inline]
pub fn lsn_of(page: &Page) -> u64 {
    word(&page[8..16])
}

/// Whether the first word of a header is one of these texts.
pub fn is_one_of(word: u64, texts: [&[u8; 8]; 2]) -> bool {
    texts.iter().any(|text| word == u64::from_le_bytes(**text))
}

#[inline]
pub fn words(bytes: &[u8; 64]) -> [u64; 8] {
    std::array::from_fn(|index| word(&bytes[8 * index..8 * index + 8]))
}

#[inline]
pub fn word(bytes: &[u8]) -> u64 {
    u64::from_le_bytes(bytes.try_into().expect("a word has eight bytes"))
}

pub fn halves(word: u64) -> (u32, u32) {
    (word as u32, (word >> 32) as u32)
}
