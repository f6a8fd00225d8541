//! What an engine answers to a call, and the line of it.

use std::fmt;

pub enum Reply {
    Began(u32, u64),
    Lsn(u64),
    Value(u64),
    Undid(u64),
    Ended(u64),
    Forced(u64),
    More,
    Done,
    Point(u64, u64, u64),
    Writing(u64),
    Written(u64),
    Copy(u32),
    Taken(u64),
    Kept,
    Sealed(u32),
    Dropped,
}

#[derive(Debug)]
pub enum Refusal {
    NoTxn,
    PageOut,
    SlotOut,
    SlotBusy(u32),
    TxnRolling,
    NotRolling,
    LogFull,
    TooManyTxns,
    NotDirty,
    WriteBegun,
    NoWrite,
    CkptOpen,
    NoCkpt,
    GatherLeft,
    NoMaster,
    NoCopy,
    CopyNotOpen,
    CopyNotComplete,
    PageDecided,
    PagesLeft(u32),
    PoolFull,
    TooManyCopies,
    NotLarger(u32),
}

pub type Answer = Result<Reply, Refusal>;

/// Writes the line of an answer behind the others.
#[inline]
pub fn write_line(answer: &Answer, lines: &mut Vec<u8>) {
    match answer {
        Ok(reply) => reply.write(lines),
        Err(refusal) => refusal.write(lines),
    }
    lines.push(b'\n');
}

impl Reply {
    fn write(&self, line: &mut Vec<u8>) {
        match self {
            Reply::Began(transaction, lsn) => {
                put_word(line, "began ", u64::from(*transaction));
                put_word(line, " at ", *lsn);
            }
            Reply::Lsn(lsn) => put_word(line, "lsn ", *lsn),
            Reply::Value(number) => put_word(line, "value ", *number),
            Reply::Undid(lsn) => put_word(line, "undid ", *lsn),
            Reply::Ended(lsn) => put_word(line, "ended ", *lsn),
            Reply::Forced(end) => put_word(line, "forced ", *end),
            Reply::More => line.extend_from_slice(b"more"),
            Reply::Done => line.extend_from_slice(b"done"),
            Reply::Point(begin, end, redo) => {
                put_word(line, "point ", *begin);
                put_word(line, " ", *end);
                put_word(line, " ", *redo);
            }
            Reply::Writing(lsn) => put_word(line, "writing ", *lsn),
            Reply::Written(lsn) => put_word(line, "written ", *lsn),
            Reply::Copy(copy) => put_word(line, "copy ", u64::from(*copy)),
            Reply::Taken(lsn) => put_word(line, "taken ", *lsn),
            Reply::Kept => line.extend_from_slice(b"kept"),
            Reply::Sealed(count) => put_word(line, "sealed ", u64::from(*count)),
            Reply::Dropped => line.extend_from_slice(b"dropped"),
        }
    }
}

/// The digits of each number below a hundred.
const DIGITS: [[u8; 2]; 100] = {
    let mut digits = [[0; 2]; 100];
    let mut number = 0;
    while number < 100 {
        digits[number] = [b'0' + number as u8 / 10, b'0' + number as u8 % 10];
        number += 1;
    }
    digits
};

const MOST_DIGITS: usize = 20;

/// A word and, behind it, a number. So many digits as there may be are copied, which is faster than as many as there are,
/// and those that are too many are given up.
#[inline]
fn put_word(line: &mut Vec<u8>, word: &str, mut number: u64) {
    let mut digits = [0; 2 * MOST_DIGITS];
    let mut at = MOST_DIGITS;
    while number >= 100 {
        at -= 2;
        digits[at..at + 2].copy_from_slice(&DIGITS[(number % 100) as usize]);
        number /= 100;
    }
    at -= 2;
    digits[at..at + 2].copy_from_slice(&DIGITS[number as usize]);
    let first = at + usize::from(number < 10);
    line.extend_from_slice(word.as_bytes());
    let end = line.len() + MOST_DIGITS - first;
    if let Some(copied) = digits[first..].first_chunk::<MOST_DIGITS>() {
        line.extend_from_slice(copied);
    }
    line.truncate(end);
}

impl Refusal {
    fn write(&self, line: &mut Vec<u8>) {
        let (text, number) = self.text();
        match number {
            Some(number) => put_word(line, text, u64::from(number)),
            None => line.extend_from_slice(text.as_bytes()),
        }
    }

    /// The words of its line, and the number behind them, if there is one.
    fn text(&self) -> (&'static str, Option<u32>) {
        let text = match self {
            Refusal::NoTxn => "E2 NoTxn",
            Refusal::PageOut => "E3 PageOut",
            Refusal::SlotOut => "E4 SlotOut",
            Refusal::SlotBusy(transaction) => return ("E5 SlotBusy ", Some(*transaction)),
            Refusal::TxnRolling => "E6 TxnRolling",
            Refusal::NotRolling => "E7 NotRolling",
            Refusal::LogFull => "E8 LogFull",
            Refusal::TooManyTxns => "E9 TooManyTxns",
            Refusal::NotDirty => "E10 NotDirty",
            Refusal::WriteBegun => "E11 WriteBegun",
            Refusal::NoWrite => "E12 NoWrite",
            Refusal::CkptOpen => "E13 CkptOpen",
            Refusal::NoCkpt => "E14 NoCkpt",
            Refusal::GatherLeft => "E15 GatherLeft",
            Refusal::NoMaster => "E16 NoMaster",
            Refusal::NoCopy => "E17 NoCopy",
            Refusal::CopyNotOpen => "E18 CopyNotOpen",
            Refusal::CopyNotComplete => "E19 CopyNotComplete",
            Refusal::PageDecided => "E20 PageDecided",
            Refusal::PagesLeft(page) => return ("E21 PagesLeft ", Some(*page)),
            Refusal::PoolFull => "E24 PoolFull",
            Refusal::TooManyCopies => "E25 TooManyCopies",
            Refusal::NotLarger(present) => return ("E43 NotLarger ", Some(*present)),
        };
        (text, None)
    }
}

impl fmt::Display for Refusal {
    fn fmt(&self, out: &mut fmt::Formatter) -> fmt::Result {
        let (text, number) = self.text();
        out.write_str(text)?;
        number.map_or(Ok(()), |number| write!(out, "{number}"))
    }
}
