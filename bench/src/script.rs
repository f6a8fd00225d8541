//! Scripts: the events that their lines name.

use crate::chains::ChangeKind;
use crate::copies::Source;
use crate::engine::Engine;
use crate::replies::Answer;
use std::fmt;

pub const LONGEST_SCRIPT: usize = 1 << 24;
const MOST_DIGITS: usize = 20;

#[derive(Clone, Copy)]
pub enum Event {
    Begin,
    Change(ChangeKind, u32, u32, u16, u64),
    Read(u32, u16),
    Commit(u32),
    Abort(u32),
    Undo(u32),
    Extend(u32),
    Force,
    CheckpointBegin,
    Gather,
    CheckpointEnd,
    WriteBegin(u32),
    WriteEnd(u32),
    Copy(Source),
    Take(u32, u32),
    Seal(u32),
    Drop(u32),
}

impl Event {
    pub fn play(self, engine: &mut Engine) -> Answer {
        match self {
            Event::Begin => engine.begin(),
            Event::Change(kind, transaction, page, slot, number) => {
                engine.change(kind, transaction, page, slot, number)
            }
            Event::Read(page, slot) => engine.read(page, slot),
            Event::Commit(transaction) => engine.commit(transaction),
            Event::Abort(transaction) => engine.abort(transaction),
            Event::Undo(transaction) => engine.undo(transaction),
            Event::Extend(page_count) => engine.extend(page_count),
            Event::Force => engine.force(),
            Event::CheckpointBegin => engine.checkpoint_begin(),
            Event::Gather => engine.gather(),
            Event::CheckpointEnd => engine.checkpoint_end(),
            Event::WriteBegin(page) => engine.write_begin(page),
            Event::WriteEnd(page) => engine.write_end(page),
            Event::Copy(source) => engine.copy(source),
            Event::Take(copy, page) => engine.take(copy, page),
            Event::Seal(copy) => engine.copies.seal(copy),
            Event::Drop(copy) => engine.drop_copy(copy),
        }
    }
}

/// Lines of a script, each of which ends with a line feed, and how far they are read.
pub struct Lines<'a> {
    pub text: &'a [u8],
    pub at: usize,
}

/// What a line names.
pub enum Line {
    Event(Event),
    /// Nothing: it is empty, or a remark.
    Nothing,
    Bad,
}

impl<'a> Lines<'a> {
    /// The next line, if there is one, and its text where it is a remark or bad. There is no `restore` in it.
    #[inline]
    pub fn next_line(&mut self) -> Option<(Line, &'a [u8])> {
        let start = self.at;
        if start >= self.text.len() {
            return None;
        }
        if !self.is_end() && self.text[start] != b'#' {
            if let Some(event) = self.event() {
                self.skip(b' ');
                if self.is_end() {
                    self.at += 1 + usize::from(self.text[self.at] == b'\r');
                    return Some((Line::Event(event), &[]));
                }
            }
        }
        let rest = &self.text[start..];
        let size = rest.iter().position(|byte| *byte == b'\n');
        let line = &rest[..size.unwrap_or(rest.len())];
        self.at = start + line.len() + 1;
        let is_nothing = matches!(line, [] | b"\r" | [b'#', ..]);
        Some((if is_nothing { Line::Nothing } else { Line::Bad }, line))
    }

    fn event(&mut self) -> Option<Event> {
        Some(match self.word() {
            b"set" => self.change(ChangeKind::Set)?,
            b"add" => self.change(ChangeKind::Add)?,
            b"read" => Event::Read(self.count()?, self.short()?),
            b"take" => Event::Take(self.count()?, self.count()?),
            b"wbegin" => Event::WriteBegin(self.count()?),
            b"wend" => Event::WriteEnd(self.count()?),
            b"begin" => Event::Begin,
            b"commit" => Event::Commit(self.count()?),
            b"gather" => Event::Gather,
            b"undo" => Event::Undo(self.count()?),
            b"abort" => Event::Abort(self.count()?),
            b"extend" => Event::Extend(self.count()?),
            b"force" => Event::Force,
            b"ckpt" => Event::CheckpointBegin,
            b"endckpt" => Event::CheckpointEnd,
            b"full" => Event::Copy(Source::All),
            b"inc" => Event::Copy(Source::After(self.count()?)),
            b"seal" => Event::Seal(self.count()?),
            b"drop" => Event::Drop(self.count()?),
            _ => return None,
        })
    }

    fn change(&mut self, kind: ChangeKind) -> Option<Event> {
        let (transaction, page) = (self.count()?, self.count()?);
        let (slot, number) = (self.short()?, self.number()?);
        Some(Event::Change(kind, transaction, page, slot, number))
    }

    /// Whether the line ends here.
    #[inline]
    fn is_end(&self) -> bool {
        match self.text.get(self.at) {
            Some(b'\r') => self.text.get(self.at + 1) == Some(&b'\n'),
            byte => byte == Some(&b'\n'),
        }
    }

    #[inline]
    fn skip(&mut self, skipped: u8) {
        while self.text.get(self.at) == Some(&skipped) {
            self.at += 1;
        }
    }

    #[inline]
    fn word(&mut self) -> &'a [u8] {
        self.skip(b' ');
        let start = self.at;
        while self.text.get(self.at) != Some(&b' ') && !self.is_end() {
            self.at += 1;
        }
        &self.text[start..self.at]
    }

    #[inline]
    fn count(&mut self) -> Option<u32> {
        u32::try_from(self.number()?).ok()
    }

    #[inline]
    fn short(&mut self) -> Option<u16> {
        u16::try_from(self.number()?).ok()
    }

    /// The next word, if it is a number of at most 20 digits that fits its type.
    #[inline]
    fn number(&mut self) -> Option<u64> {
        self.skip(b' ');
        let (start, mut number) = (self.at, 0u64);
        while let Some(digit) = self.text.get(self.at).map(|byte| byte.wrapping_sub(b'0')) {
            if digit > 9 {
                break;
            }
            number = number.wrapping_mul(10).wrapping_add(u64::from(digit));
            self.at += 1;
        }
        let size = self.at - start;
        if size == 0 || (self.text.get(self.at) != Some(&b' ') && !self.is_end()) {
            return None;
        }
        if size < MOST_DIGITS {
            return Some(number);
        }
        // so many digits may be too large a number
        let digits = std::str::from_utf8(&self.text[start..self.at]).ok()?;
        (size == MOST_DIGITS).then(|| digits.parse().ok()).flatten()
    }
}

/// The line of the event.
impl fmt::Display for Event {
    fn fmt(&self, out: &mut fmt::Formatter) -> fmt::Result {
        match self {
            Event::Begin => write!(out, "begin"),
            Event::Change(kind, transaction, page, slot, number) => {
                let word = if *kind == ChangeKind::Set {
                    "set"
                } else {
                    "add"
                };
                write!(out, "{word} {transaction} {page} {slot} {number}")
            }
            Event::Read(page, slot) => write!(out, "read {page} {slot}"),
            Event::Commit(transaction) => write!(out, "commit {transaction}"),
            Event::Abort(transaction) => write!(out, "abort {transaction}"),
            Event::Undo(transaction) => write!(out, "undo {transaction}"),
            Event::Extend(page_count) => write!(out, "extend {page_count}"),
            Event::Force => write!(out, "force"),
            Event::CheckpointBegin => write!(out, "ckpt"),
            Event::Gather => write!(out, "gather"),
            Event::CheckpointEnd => write!(out, "endckpt"),
            Event::WriteBegin(page) => write!(out, "wbegin {page}"),
            Event::WriteEnd(page) => write!(out, "wend {page}"),
            Event::Copy(Source::All) => write!(out, "full"),
            Event::Copy(Source::After(parent)) => write!(out, "inc {parent}"),
            Event::Take(copy, page) => write!(out, "take {copy} {page}"),
            Event::Seal(copy) => write!(out, "seal {copy}"),
            Event::Drop(copy) => write!(out, "drop {copy}"),
        }
    }
}
