//! Why a call does not do what it is for.

use imgcopy_sys as sys;
use std::fmt;

/// Why a call does not do what it is for. Its text is the line that imgcopy prints.
#[derive(Clone, Copy, Debug, PartialEq, Eq)]
#[non_exhaustive]
pub enum Fault {
    /// Memory was refused.
    OutOfMemory,
    /// The log has no room for the records of undo.
    LogFull,
    /// The first 64 bytes are no header of a log.
    BadHeader,
    /// What stands at this offset of a log is no record that may stand there.
    BadRecord { at: u64 },
    /// The log ends within the record at this offset.
    Torn { at: u64 },
    /// Reading failed. This does not come of bytes in memory.
    ReadFault,
    /// Bytes follow the last record that a log may have.
    TooLong,
    /// The record at this offset may not follow those before it.
    BadChain { at: u64 },
    /// What stands at this offset of an archive is misspelt.
    BadArchive { at: u64 },
    /// This copy does not follow those before it; 0 if no copy is there.
    ChainBroken { copy: u64 },
    /// An archive has more or fewer pages than its header says.
    CountDiffers,
    /// The redo point of an archive is not below the log's end.
    RedoBeyondLog,
    /// This page of an archive has an LSN that is not below the log's end.
    PageBeyondLog { page: u64 },
    /// This page of this copy is not what the log made of it.
    Unsound { copy: u64, page: u64 },
    /// The room for the volume is too short, and so many bytes are needed.
    TooShort { needed: u64 },
    /// The lengths of the archives do not add up to their bytes.
    LengthsDiffer,
    /// A code of a newer library.
    Other { code: u32, first: u64, second: u64 },
}

impl Fault {
    /// The fault of a log at the offset where it is cut, by its number.
    pub(crate) fn at_cut(number: u64, at: u64) -> Option<Fault> {
        let code = u32::try_from(number).ok().filter(|code| *code != 0)?;
        Some(Fault::from(sys::imgcopy_outcome {
            code,
            first: at,
            second: 0,
            third: 0,
        }))
    }
}

impl From<sys::imgcopy_outcome> for Fault {
    fn from(outcome: sys::imgcopy_outcome) -> Fault {
        let (first, second) = (outcome.first, outcome.second);
        match outcome.code {
            1 => Fault::OutOfMemory,
            8 => Fault::LogFull,
            30 => Fault::BadHeader,
            31 => Fault::BadRecord { at: first },
            32 => Fault::Torn { at: first },
            33 => Fault::ReadFault,
            34 => Fault::TooLong,
            35 => Fault::BadChain { at: first },
            36 => Fault::BadArchive { at: first },
            37 => Fault::ChainBroken { copy: first },
            38 => Fault::CountDiffers,
            39 => Fault::RedoBeyondLog,
            40 => Fault::PageBeyondLog { page: first },
            41 => Fault::Unsound {
                copy: first,
                page: second,
            },
            sys::IMGCOPY_TOO_SHORT => Fault::TooShort { needed: first },
            sys::IMGCOPY_LENGTHS_DIFFER => Fault::LengthsDiffer,
            code => Fault::Other {
                code,
                first,
                second,
            },
        }
    }
}

impl fmt::Display for Fault {
    fn fmt(&self, f: &mut fmt::Formatter<'_>) -> fmt::Result {
        match *self {
            Fault::OutOfMemory => write!(f, "E1 OutOfMemory"),
            Fault::LogFull => write!(f, "E8 LogFull"),
            Fault::BadHeader => write!(f, "E30 BadHeader"),
            Fault::BadRecord { at } => write!(f, "E31 BadRecord {at}"),
            Fault::Torn { at } => write!(f, "E32 Torn {at}"),
            Fault::ReadFault => write!(f, "E33 ReadFault"),
            Fault::TooLong => write!(f, "E34 TooLong"),
            Fault::BadChain { at } => write!(f, "E35 BadChain {at}"),
            Fault::BadArchive { at } => write!(f, "E36 BadArchive {at}"),
            Fault::ChainBroken { copy } => write!(f, "E37 ChainBroken {copy}"),
            Fault::CountDiffers => write!(f, "E38 CountDiffers"),
            Fault::RedoBeyondLog => write!(f, "E39 RedoBeyondLog"),
            Fault::PageBeyondLog { page } => write!(f, "E40 PageBeyondLog {page}"),
            Fault::Unsound { copy, page } => write!(f, "E41 Unsound {copy} {page}"),
            Fault::TooShort { needed } => {
                write!(f, "the room is too short: {needed} bytes are needed")
            }
            Fault::LengthsDiffer => write!(f, "the lengths do not add up to the archives' bytes"),
            Fault::Other {
                code,
                first,
                second,
            } => write!(f, "E{code} {first} {second}"),
        }
    }
}

impl std::error::Error for Fault {}
