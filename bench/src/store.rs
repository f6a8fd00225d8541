//! The stored pages of an engine, and those that image copies have of them.
//!
//! A page that is written is stored behind the others, and those that took it before keep what they took. So a copy takes
//! a page by its number here, and no bytes are moved. A page that was never written has no bytes at all.

use crate::volume::Volume;
use crate::{formatted_page, Page, FIRST_SLOT, MOST_PAGES, PAGE_SIZE};

/// The number of stored bytes of a page. `NONE` are those of the formatted page.
#[derive(Clone, Copy, PartialEq)]
pub struct Version(u32);

impl Version {
    pub const NONE: Version = Version(0);

    fn index(self) -> usize {
        self.0 as usize - 1
    }
}

/// How much memory is asked for at first. The system gives what is written of it.
const ROOM: usize = 1 << 26;

#[derive(Clone, Copy)]
struct Told {
    lsn: u32,
    /// How many there are that have it: the store, and copies.
    holders: u32,
}

pub struct Store {
    bytes: Vec<u8>,
    told: Vec<Told>,
    free: Vec<Version>,
    /// By page.
    current: Vec<Version>,
}

impl Store {
    pub fn new() -> Store {
        Store {
            bytes: Vec::with_capacity(ROOM),
            told: Vec::with_capacity(ROOM / PAGE_SIZE),
            free: Vec::new(),
            current: vec![Version::NONE; MOST_PAGES as usize],
        }
    }

    /// An image of a page as it is now.
    pub fn image(&mut self, volume: &Volume, page: u16) -> Version {
        let lsn = volume.lsn(page) as u32;
        let told = Told { lsn, holders: 1 };
        let (header, slots) = volume.page_parts(page);
        if let Some(version) = self.free.pop() {
            self.told[version.index()] = told;
            let at = PAGE_SIZE * version.index();
            let (into_header, into_slots) = self.bytes[at..at + PAGE_SIZE].split_at_mut(FIRST_SLOT);
            into_header.copy_from_slice(&header);
            into_slots.copy_from_slice(slots);
            return version;
        }
        self.told.push(told);
        self.bytes.extend_from_slice(&header);
        self.bytes.extend_from_slice(slots);
        Version(self.told.len() as u32)
    }

    /// Stores an image in the place of what is stored of the page.
    pub fn put(&mut self, page: u32, image: Version) {
        let before = std::mem::replace(&mut self.current[page as usize], image);
        self.leave(before);
    }

    /// What is stored of a page now, for one more holder.
    pub fn take(&mut self, page: u32) -> Version {
        let version = self.current[page as usize];
        if version != Version::NONE {
            self.told[version.index()].holders += 1;
        }
        version
    }

    pub fn current(&self, page: u32) -> Version {
        self.current[page as usize]
    }

    /// One holder less.
    pub fn leave(&mut self, version: Version) {
        if version == Version::NONE {
            return;
        }
        let told = &mut self.told[version.index()];
        told.holders -= 1;
        if told.holders == 0 {
            self.free.push(version);
        }
    }

    pub fn lsn(&self, version: Version) -> u64 {
        match version {
            Version::NONE => 0,
            _ => u64::from(self.told[version.index()].lsn),
        }
    }

    pub fn page(&self, page: u32, version: Version) -> Page {
        match version {
            Version::NONE => formatted_page(page),
            _ => *self.bytes[PAGE_SIZE * version.index()..]
                .first_chunk()
                .expect("a version has the bytes of a page"),
        }
    }
}

impl Default for Store {
    fn default() -> Store {
        Store::new()
    }
}
