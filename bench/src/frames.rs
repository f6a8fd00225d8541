//! Which pages have a frame in memory, and which of them leaves it for another one.

use crate::replies::Refusal;
use crate::MOST_PAGES;

/// In the place of the fetch of a page that has no frame.
const ABSENT: u32 = 0;

pub struct Frames {
    /// How many pages may be in memory at a time, if they are fewer than there may be.
    limit: Option<usize>,
    resident: usize,
    /// By page: the number of its fetch.
    fetched: Vec<u32>,
    /// The page of each fetch, the first one that of no page.
    pages: Vec<u16>,
    /// The clean pages with a frame, by the number of their fetch.
    clean: Numbers,
}

impl Frames {
    pub fn new(limit: u32) -> Frames {
        let is_limited = limit < MOST_PAGES;
        let count = if is_limited { MOST_PAGES as usize } else { 0 };
        Frames {
            limit: is_limited.then_some(limit as usize),
            resident: 0,
            fetched: vec![ABSENT; count],
            pages: vec![0],
            clean: Numbers::default(),
        }
    }

    /// Sees that a page has a frame. Where none is free, the clean page that was fetched earliest gives up its own.
    #[inline]
    pub fn need(&mut self, page: u32) -> Result<(), Refusal> {
        match self.limit {
            Some(limit) if self.fetched[page as usize] == ABSENT => self.fetch(page, limit),
            _ => Ok(()),
        }
    }

    fn fetch(&mut self, page: u32, limit: usize) -> Result<(), Refusal> {
        if self.resident < limit {
            self.resident += 1;
        } else {
            let given_up = self.clean.take_first().ok_or(Refusal::PoolFull)?;
            self.fetched[usize::from(self.pages[given_up as usize])] = ABSENT;
        }
        let fetch = self.pages.len() as u32;
        self.pages.push(page as u16);
        self.fetched[page as usize] = fetch;
        self.clean.add(fetch);
        Ok(())
    }

    #[inline]
    pub fn note_dirty(&mut self, page: u32) {
        if self.limit.is_some() {
            self.clean.remove(self.fetched[page as usize]);
        }
    }

    #[inline]
    pub fn note_clean(&mut self, page: u32) {
        if self.limit.is_some() {
            self.clean.add(self.fetched[page as usize]);
        }
    }
}

/// A set of numbers. Each has a bit, and each word of bits that is not zero has a bit in the level above.
#[derive(Default)]
struct Numbers {
    levels: [Vec<u64>; LEVELS],
}

const LEVELS: usize = 5;

impl Numbers {
    fn add(&mut self, number: u32) {
        let mut at = number as usize;
        for level in &mut self.levels {
            if at / 64 >= level.len() {
                level.resize(at / 64 + 1, 0);
            }
            level[at / 64] |= 1 << (at % 64);
            at /= 64;
        }
    }

    fn remove(&mut self, number: u32) {
        let mut at = number as usize;
        for level in &mut self.levels {
            level[at / 64] &= !(1 << (at % 64));
            if level[at / 64] != 0 {
                break;
            }
            at /= 64;
        }
    }

    fn take_first(&mut self) -> Option<u32> {
        let mut at = 0;
        for level in self.levels.iter().rev() {
            let word = level.get(at).filter(|word| **word != 0)?;
            at = 64 * at + word.trailing_zeros() as usize;
        }
        self.remove(at as u32);
        Some(at as u32)
    }
}
