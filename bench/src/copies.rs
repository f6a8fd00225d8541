//! Image copies: how they are taken, written as archives, read again, and linked to a chain.

use crate::engine::Master;
use crate::redo::Redo;
use crate::replies::{Answer, Refusal, Reply};
use crate::store::{Store, Version};
use crate::{
    fill, formatted_page, halves, is_one_of, lsn_of, word, Fault, Page, MOST_PAGES, PAGE_FORMAT,
    PAGE_SIZE,
};
use std::fs::File;
use std::io;

pub const ARCHIVE_HEADER_SIZE: usize = 64;
/// What an archive begins with that is written, and one of the first format, which is read too.
const ARCHIVE_MAGIC: &[u8; 8] = b"AIMGARC2";
const FIRST_ARCHIVE_MAGIC: &[u8; 8] = b"AIMGARC1";
const MOST_COPIES: usize = 1024;
const FULL: u8 = 1;
const INCREMENTAL: u8 = 2;

/// What a copy is made of: all pages, or those that changed after another copy.
#[derive(Clone, Copy)]
pub enum Source {
    All,
    After(u32),
}

#[derive(Clone, Copy, PartialEq)]
enum State {
    Reading,
    Complete,
    Dropped,
}

struct Copy {
    /// 0 of a full copy.
    parent: u32,
    /// The redo point of the parent.
    taken_from: u64,
    begin: u64,
    redo: u64,
    state: State,
    page_count: u32,
    /// A bit for each page that is taken or kept.
    decided: Vec<u64>,
    left: u32,
    taken: Vec<(u32, Version)>,
}

#[derive(Default)]
pub struct Copies {
    copies: Vec<Copy>,
}

impl Copies {
    pub fn open(&mut self, source: Source, master: Option<Master>) -> Answer {
        let (parent, taken_from) = match source {
            Source::All => (0, 0),
            Source::After(parent) => (parent, self.complete(parent)?.redo),
        };
        let master = master.ok_or(Refusal::NoMaster)?;
        if self.copies.len() >= MOST_COPIES {
            return Err(Refusal::TooManyCopies);
        }
        self.copies.push(Copy {
            parent,
            taken_from,
            begin: master.begin,
            redo: master.redo,
            state: State::Reading,
            page_count: master.page_count,
            decided: vec![0; (master.page_count as usize).div_ceil(64)],
            left: master.page_count,
            taken: Vec::new(),
        });
        Ok(Reply::Copy(self.copies.len() as u32))
    }

    pub fn take(&mut self, copy: u32, page: u32, store: &mut Store) -> Answer {
        let copy = self.reading(copy)?;
        if page >= copy.page_count {
            return Err(Refusal::PageOut);
        }
        let (bits, bit) = (&mut copy.decided[page as usize / 64], 1 << (page % 64));
        if *bits & bit != 0 {
            return Err(Refusal::PageDecided);
        }
        *bits |= bit;
        copy.left -= 1;
        let lsn = store.lsn(store.current(page));
        if copy.parent != 0 && lsn < copy.taken_from {
            return Ok(Reply::Kept);
        }
        copy.taken.push((page, store.take(page)));
        Ok(Reply::Taken(lsn))
    }

    pub fn seal(&mut self, copy: u32) -> Answer {
        let copy = self.reading(copy)?;
        if copy.left > 0 {
            return Err(Refusal::PagesLeft(copy.first_left()));
        }
        copy.state = State::Complete;
        copy.taken.sort_by_key(|(page, _)| *page);
        Ok(Reply::Sealed(copy.taken.len() as u32))
    }

    pub fn drop_copy(&mut self, copy: u32, store: &mut Store) -> Answer {
        let copy = self.reading(copy)?;
        copy.state = State::Dropped;
        copy.decided = Vec::new();
        for (_, version) in std::mem::take(&mut copy.taken) {
            store.leave(version);
        }
        Ok(Reply::Dropped)
    }

    /// Each complete copy by its id, as the header of its archive, and its pages.
    pub fn archives(
        &self,
    ) -> impl Iterator<Item = (usize, [u8; ARCHIVE_HEADER_SIZE], &[(u32, Version)])> {
        let complete = |(_, copy): &(usize, &Copy)| copy.state == State::Complete;
        let copies = (1..).zip(&self.copies).filter(complete);
        copies.map(|(id, copy)| (id, copy.header(id), copy.taken.as_slice()))
    }

    fn copy(&mut self, id: u32) -> Result<&mut Copy, Refusal> {
        let index = (id as usize).checked_sub(1);
        let copy = index.and_then(|index| self.copies.get_mut(index));
        copy.filter(|copy| copy.state != State::Dropped)
            .ok_or(Refusal::NoCopy)
    }

    fn reading(&mut self, id: u32) -> Result<&mut Copy, Refusal> {
        let copy = self.copy(id)?;
        if copy.state == State::Complete {
            return Err(Refusal::CopyNotOpen);
        }
        Ok(copy)
    }

    fn complete(&mut self, id: u32) -> Result<&mut Copy, Refusal> {
        let copy = self.copy(id)?;
        if copy.state == State::Reading {
            return Err(Refusal::CopyNotComplete);
        }
        Ok(copy)
    }
}

impl Copy {
    /// The first page that is neither taken nor kept.
    fn first_left(&self) -> u32 {
        let words = (0..).zip(&self.decided);
        let mut firsts = words.map(|(index, word)| 64 * index + word.trailing_ones());
        firsts
            .find(|page| page % 64 != 0 || self.decided[*page as usize / 64] & 1 == 0)
            .unwrap_or(0)
    }

    fn header(&self, id: usize) -> [u8; ARCHIVE_HEADER_SIZE] {
        let mut header = [0; ARCHIVE_HEADER_SIZE];
        header[0..8].copy_from_slice(ARCHIVE_MAGIC);
        header[8..12].copy_from_slice(&self.page_count.to_le_bytes());
        header[12..16].copy_from_slice(&(id as u32).to_le_bytes());
        header[16] = if self.parent == 0 { FULL } else { INCREMENTAL };
        header[20..24].copy_from_slice(&self.parent.to_le_bytes());
        header[24..32].copy_from_slice(&self.begin.to_le_bytes());
        header[32..40].copy_from_slice(&self.redo.to_le_bytes());
        header[40..44].copy_from_slice(&(self.taken.len() as u32).to_le_bytes());
        header
    }
}

/// An archive of a chain, whose pages are read one after another.
pub struct Archive {
    pub header: Header,
    file: File,
    /// What was read of it ahead.
    buffer: Vec<u8>,
    start: usize,
    end: usize,
    /// Where the next page begins.
    at: usize,
    left: u32,
    /// No next page has a lower number.
    least: u32,
    /// The LSN of the log's end.
    log_end: u64,
}

/// What an archive is refused for, and when a reader of all of them side by side meets it: with the first pages, or behind
/// the page before it.
pub struct Refused {
    pub when: u32,
    pub fault: Fault,
}

/// The archives of a chain, whose headers are read and checked, each with a buffer of so many pages.
pub fn open_chain(
    names: &[std::ffi::OsString],
    log: &Redo,
    ahead: usize,
) -> Result<Vec<Archive>, crate::redo::Failure> {
    if names.is_empty() {
        return Err(Fault::ChainBroken(0).into());
    }
    let (mut archives, mut last): (Vec<Archive>, u32) = (Vec::new(), 0);
    for name in names {
        let archive = Archive::open(File::open(name)?, log.lsn as u64, ahead)?;
        let header = archive.ok_or(Fault::BadArchive(0))?;
        let page_count = log.page_count_below(header.header.begin);
        if header.header.page_count != page_count || header.header.parent != last {
            return Err(Fault::ChainBroken(header.header.id).into());
        }
        last = header.header.id;
        archives.push(header);
    }
    if archives.iter().any(|it| it.header.redo >= log.lsn as u64) {
        return Err(Fault::RedoBeyondLog.into());
    }
    Ok(archives)
}

impl Archive {
    fn open(mut file: File, log_end: u64, ahead: usize) -> io::Result<Option<Archive>> {
        let mut bytes = [0; ARCHIVE_HEADER_SIZE];
        let count = fill(&mut file, &mut bytes)?;
        let header = read_header(&bytes[..count]);
        Ok(header.map(|header| Archive {
            left: header.taken,
            header,
            file,
            buffer: vec![0; ahead.max(1) * PAGE_SIZE],
            start: 0,
            end: 0,
            at: ARCHIVE_HEADER_SIZE,
            least: 0,
            log_end,
        }))
    }

    /// The next page, if there is one.
    pub fn next(&mut self) -> io::Result<Result<Option<&Page>, Refused>> {
        if self.start == self.end && self.left > 0 {
            self.end = fill(&mut self.file, &mut self.buffer)?;
            self.start = 0;
        }
        let start = self.start;
        let page = self.buffer[start..self.end].first_chunk();
        if self.left == 0 {
            let is_first = self.at == ARCHIVE_HEADER_SIZE;
            let is_over = !is_first || self.is_over()?;
            let refused = Refused {
                when: 0,
                fault: Fault::CountDiffers,
            };
            return Ok(if is_over { Ok(None) } else { Err(refused) });
        }
        let is_at_end = start == self.end;
        let checked = match page {
            None if is_at_end => Err(Fault::CountDiffers),
            None => Err(Fault::BadArchive(self.at)),
            Some(page) => self.check(page),
        };
        let when = self.least;
        match checked {
            Err(fault) => return Ok(Err(Refused { when, fault })),
            Ok(number) => self.least = number + 1,
        }
        self.start += PAGE_SIZE;
        self.at += PAGE_SIZE;
        self.left -= 1;
        if self.left == 0 && !self.is_over()? {
            return Ok(Err(Refused {
                when,
                fault: Fault::CountDiffers,
            }));
        }
        Ok(Ok(self.buffer[start..].first_chunk()))
    }

    /// The number of the next page, if there is one.
    pub fn next_number(&mut self) -> Result<Option<u32>, crate::redo::Failure> {
        match self.next()? {
            Ok(page) => Ok(page.map(number_of)),
            Err(refused) => Err(refused.fault.into()),
        }
    }

    /// The page that came last.
    pub fn page(&self) -> &Page {
        let page = self.buffer[..self.start].last_chunk();
        page.expect("a page was read")
    }

    /// The number of a page that may come next.
    #[inline]
    fn check(&self, page: &Page) -> Result<u32, Fault> {
        let (number, format) = halves(word(&page[0..8]));
        let is_page = format == PAGE_FORMAT && lsn_of(page) % 64 == 0;
        if !is_page || !(self.least..self.header.page_count).contains(&number) {
            return Err(Fault::BadArchive(self.at));
        }
        if lsn_of(page) >= self.log_end {
            return Err(Fault::PageBeyondLog(number));
        }
        Ok(number)
    }

    /// Whether nothing follows.
    fn is_over(&mut self) -> io::Result<bool> {
        Ok(self.start == self.end && fill(&mut self.file, &mut [0])? == 0)
    }

    /// Puts the pages of the archive where they belong. Those of a full copy follow one another, each with the number of
    /// its place, so they are read there at once, by pieces.
    pub fn put_into(mut self, pages: &mut [u8]) -> io::Result<Result<(), Refused>> {
        if self.header.is_full() {
            return self.read_into(pages);
        }
        loop {
            match self.next()? {
                Ok(Some(page)) => {
                    let at = PAGE_SIZE * number_of(page) as usize;
                    pages[at..at + PAGE_SIZE].copy_from_slice(page);
                }
                Ok(None) => return Ok(Ok(())),
                Err(refused) => return Ok(Err(refused)),
            }
        }
    }

    fn read_into(&mut self, pages: &mut [u8]) -> io::Result<Result<(), Refused>> {
        let room = &mut pages[..PAGE_SIZE * self.left as usize];
        for piece in room.chunks_mut(READ_AT_ONCE) {
            let mut left = fill(&mut self.file, piece)?;
            for bytes in piece.chunks_exact(PAGE_SIZE) {
                let checked = match left {
                    0 => Err(Fault::CountDiffers),
                    1..PAGE_SIZE => Err(Fault::BadArchive(self.at)),
                    _ => self.check(bytes.first_chunk().expect("a page has 512 bytes")),
                };
                match checked {
                    Ok(number) => self.least = number + 1,
                    Err(fault) => {
                        let when = self.least;
                        return Ok(Err(Refused { when, fault }));
                    }
                }
                self.at += PAGE_SIZE;
                left -= PAGE_SIZE;
            }
        }
        if fill(&mut self.file, &mut [0])? != 0 {
            let when = self.least - 1;
            return Ok(Err(Refused {
                when,
                fault: Fault::CountDiffers,
            }));
        }
        Ok(Ok(()))
    }
}

/// How much of a full copy is read at once.
const READ_AT_ONCE: usize = 1 << 18;

pub fn number_of(page: &Page) -> u32 {
    u32::from_le_bytes([page[0], page[1], page[2], page[3]])
}

/// The pages of a chain on formatted ones, in this memory.
pub fn pages_of_chain(
    archives: Vec<Archive>,
    page_count: u32,
    memory: Vec<u8>,
) -> Result<Vec<u8>, crate::redo::Failure> {
    let mut pages = memory;
    pages.truncate(PAGE_SIZE * page_count as usize);
    let first = archives
        .first()
        .map_or(0, |archive| archive.header.page_count);
    for number in first..page_count {
        let at = PAGE_SIZE * number as usize;
        pages[at..at + PAGE_SIZE].copy_from_slice(&formatted_page(number));
    }
    let mut refused: Option<Refused> = None;
    for archive in archives {
        if let Err(other) = archive.put_into(&mut pages)? {
            if refused.as_ref().is_none_or(|it| other.when < it.when) {
                refused = Some(other);
            }
        }
    }
    match refused {
        Some(refused) => Err(refused.fault.into()),
        None => Ok(pages),
    }
}

pub struct Header {
    page_count: u32,
    pub id: u32,
    parent: u32,
    begin: u64,
    pub redo: u64,
    taken: u32,
}

impl Header {
    fn is_full(&self) -> bool {
        self.parent == 0
    }
}

/// The redo point that an archive's header has, if it is one.
pub fn redo_point(name: &std::ffi::OsString) -> Option<u64> {
    let mut bytes = [0; ARCHIVE_HEADER_SIZE];
    fill(&mut File::open(name).ok()?, &mut bytes).ok()?;
    read_header(&bytes).map(|header| header.redo)
}

/// The header, if these bytes begin with one.
fn read_header(archive: &[u8]) -> Option<Header> {
    let bytes = archive.first_chunk::<ARCHIVE_HEADER_SIZE>()?;
    let [magic, first, second, begin, redo, taken, rest @ ..] = crate::words(bytes);
    let (page_count, id) = halves(first);
    let (kind, parent) = halves(second);
    let (taken, spare) = halves(taken);
    let is_of_kind = match u8::try_from(kind).ok()? {
        FULL => parent == 0 && taken == page_count,
        INCREMENTAL => parent >= 1 && parent < id && taken <= page_count,
        _ => false,
    };
    let is_header = is_one_of(magic, [ARCHIVE_MAGIC, FIRST_ARCHIVE_MAGIC])
        && (1..=MOST_PAGES).contains(&page_count)
        && (1..=MOST_COPIES as u32).contains(&id)
        && is_of_kind
        && begin % 64 == 0
        && redo % 64 == 0
        && (64..=begin).contains(&redo)
        && spare == 0
        && rest == [0; 2];
    is_header.then_some(Header {
        page_count,
        id,
        parent,
        begin,
        redo,
        taken,
    })
}
