//! The pages of a volume in memory, and by which pending changes their slots are held.
//!
//! The pages lie as they are written, so a volume goes out in one piece. But their LSNs lie side by side until then, in so
//! little memory that the processor keeps it near. So do the bytes that say who holds a slot, an eighth of the volume. All
//! of this is asked for zeroed, for the largest volume: the system gives a piece of it when it is touched first, so what no
//! change touches costs nothing, and a volume that grows is not moved.

use crate::chains::ChangeKind;
use crate::{word, FIRST_SLOT, MOST_PAGES, PAGE_FORMAT, PAGE_SIZE, SLOTS};
use std::thread;

/// What the system gives at a time.
const PIECE_SIZE: usize = 4096;

/// How many threads touch a large volume.
const TOUCHING: usize = 4;
const WORTH_A_THREAD: usize = 1 << 22;

/// The byte of a slot that no pending change is on.
const FREE: u8 = 0;
/// The byte of a slot to which two transactions or more add.
const SHARED: u8 = 0xc0;
/// The bits of a byte that number a seat. The others are the kind of change by which its transaction holds the slot.
const SEAT_BITS: u8 = 0x3f;

/// How a transaction held a slot before a change: not at all, by Adds alone, or also by a Set. A transaction's changes
/// are released from the last one to the first, so the release of a change brings this back.
#[derive(Clone, Copy)]
pub struct Held(u8);

impl Held {
    /// Its two highest bits say it all.
    pub const BITS: u8 = !SEAT_BITS;

    pub fn bits(self) -> u8 {
        self.0
    }

    pub fn from_bits(bits: u8) -> Held {
        Held(bits & Held::BITS)
    }
}

/// The number of a slot among all of the volume, where a page has 64.
#[derive(Clone, Copy, PartialEq)]
pub struct Place(u32);

impl Place {
    /// No place has a higher bit.
    pub const BITS: u32 = 22;

    #[inline]
    pub fn of(page: u16, slot: u8) -> Place {
        Place(u32::from(page) << SLOT_BITS | u32::from(slot))
    }

    #[inline]
    pub fn from_bits(bits: u32) -> Place {
        Place(bits)
    }

    #[inline]
    pub fn bits(self) -> u32 {
        self.0
    }

    pub fn page(self) -> u16 {
        (self.0 >> SLOT_BITS) as u16
    }

    pub fn slot(self) -> u8 {
        (self.0 & ((1 << SLOT_BITS) - 1)) as u8
    }

    /// Where the slot's byte lies among those that say who holds a slot.
    #[inline]
    fn index(self) -> usize {
        self.0 as usize
    }

    /// Where the slot begins.
    #[inline]
    fn at(self) -> usize {
        FIRST_SLOT + 8 * self.0 as usize
    }
}

const SLOT_BITS: u32 = 6;
const _: () = assert!(SLOTS <= 1 << SLOT_BITS && PAGE_SIZE == 8 << SLOT_BITS);
const _: () = assert!(MOST_PAGES << SLOT_BITS <= 1 << Place::BITS);

pub struct Volume {
    bytes: Vec<u8>,
    lsns: Vec<u32>,
    claims: Vec<u8>,
    /// Of a slot that several transactions add to: their seats, each as a bit.
    adders: Vec<u64>,
}

impl Volume {
    /// A volume of so many pages, whose memory is touched.
    pub fn new(page_count: u32) -> Volume {
        let mut volume = Volume::untouched();
        volume.grow(0, page_count);
        volume
    }

    /// A volume each of whose pages is touched when it is changed first.
    pub fn untouched() -> Volume {
        let most = MOST_PAGES as usize;
        Volume {
            bytes: vec![0; most * PAGE_SIZE],
            lsns: vec![0; most],
            claims: vec![0; most << SLOT_BITS],
            adders: vec![0; most << SLOT_BITS],
        }
    }

    /// Before a page of an untouched volume is changed.
    #[inline]
    pub fn begin_page(&mut self, page: u16) {
        if self.lsn(page) == 0 {
            let (page, claims) = (
                usize::from(page) * PAGE_SIZE,
                usize::from(page) << SLOT_BITS,
            );
            self.bytes[page..page + PAGE_SIZE].fill(0);
            self.claims[claims..claims + (1 << SLOT_BITS)].fill(0);
        }
    }

    /// Touches the memory of these pages, one piece after another, which takes less time than at random.
    pub fn grow(&mut self, from: u32, to: u32) {
        let (from, to) = (from as usize, to as usize);
        touch(&mut self.claims[from << SLOT_BITS..to << SLOT_BITS]);
        let bytes = &mut self.bytes[from * PAGE_SIZE..to * PAGE_SIZE];
        if bytes.len() < WORTH_A_THREAD {
            return touch(bytes);
        }
        let part = bytes.len().div_ceil(TOUCHING).next_multiple_of(PIECE_SIZE);
        thread::scope(|scope| {
            for part in bytes.chunks_mut(part) {
                scope.spawn(|| touch(part));
            }
        });
    }

    /// The memory of the pages, to be used for something else.
    pub fn into_bytes(self) -> Vec<u8> {
        self.bytes
    }

    /// Looks at a slot, and at who holds it, if there is one, so that both come from memory.
    #[inline]
    pub fn look(&self, place: Place) -> u8 {
        let number = self.bytes.get(place.at()).unwrap_or(&0);
        number ^ self.claims.get(place.index()).unwrap_or(&0)
    }

    #[inline]
    pub fn lsn(&self, page: u16) -> u64 {
        u64::from(self.lsns[usize::from(page)])
    }

    #[inline]
    pub fn number(&self, place: Place) -> u64 {
        word(&self.bytes[place.at()..place.at() + 8])
    }

    /// A number of a page that may be untouched.
    #[inline]
    pub fn number_on(&self, page: u16, place: Place) -> u64 {
        if self.lsn(page) == 0 {
            0
        } else {
            self.number(place)
        }
    }

    /// Makes a change, and gives the slot's number before it.
    #[inline]
    pub fn put(&mut self, page: u16, place: Place, kind: ChangeKind, number: u64, lsn: u64) -> u64 {
        self.lsns[usize::from(page)] = lsn as u32;
        let slot = &mut self.bytes[place.at()..place.at() + 8];
        let before = word(slot);
        let base = if kind == ChangeKind::Add { before } else { 0 };
        slot.copy_from_slice(&base.wrapping_add(number).to_le_bytes());
        before
    }

    /// Takes the claim of a change, unless another transaction holds the slot against it.
    #[inline]
    pub fn claim(&mut self, place: Place, seat: u8, kind: ChangeKind) -> Option<Held> {
        let byte = &mut self.claims[place.index()];
        if *byte == FREE {
            *byte = kind as u8 | seat;
            return Some(Held(FREE));
        }
        if *byte < SHARED && *byte & SEAT_BITS == seat {
            let held = *byte & !SEAT_BITS;
            *byte = held.max(kind as u8) | seat;
            return Some(Held(held));
        }
        self.share(place, seat, kind)
    }

    /// Takes a claim on a slot that another transaction holds, too.
    fn share(&mut self, place: Place, seat: u8, kind: ChangeKind) -> Option<Held> {
        let byte = &mut self.claims[place.index()];
        if kind == ChangeKind::Set || *byte & !SEAT_BITS == ChangeKind::Set as u8 {
            return None;
        }
        let adders = &mut self.adders[place.index()];
        if *byte != SHARED {
            *adders = bit(*byte & SEAT_BITS);
        }
        let had_it = *adders & bit(seat) != 0;
        *adders |= bit(seat);
        *byte = SHARED;
        Some(Held(if had_it { ChangeKind::Add as u8 } else { FREE }))
    }

    #[inline]
    pub fn release(&mut self, place: Place, seat: u8, before: Held) {
        let byte = &mut self.claims[place.index()];
        if *byte != SHARED {
            *byte = if before.0 == FREE {
                FREE
            } else {
                before.0 | seat
            };
        } else if before.0 == FREE {
            self.leave(place, seat);
        }
    }

    fn leave(&mut self, place: Place, seat: u8) {
        let adders = &mut self.adders[place.index()];
        *adders &= !bit(seat);
        if adders.is_power_of_two() {
            let last = adders.trailing_zeros() as u8;
            self.claims[place.index()] = ChangeKind::Add as u8 | last;
        }
    }

    /// The seats of the transactions that keep out such a change, each as a bit.
    #[inline]
    pub fn against(&self, place: Place, seat: u8, kind: ChangeKind) -> u64 {
        let byte = self.claims[place.index()];
        if byte == FREE {
            return 0;
        }
        if kind == ChangeKind::Add && byte & !SEAT_BITS != ChangeKind::Set as u8 {
            return 0;
        }
        let seats = if byte == SHARED {
            self.adders[place.index()]
        } else {
            bit(byte & SEAT_BITS)
        };
        seats & !bit(seat)
    }

    /// The bytes of a page that was changed: its header, and its slots.
    pub fn page_parts(&self, page: u16) -> ([u8; FIRST_SLOT], &[u8]) {
        let at = usize::from(page) * PAGE_SIZE;
        let slots = &self.bytes[at + FIRST_SLOT..at + PAGE_SIZE];
        (header_of(page, self.lsn(page)), slots)
    }

    /// The bytes of the first pages, so many of them.
    pub fn finish(&mut self, page_count: u32) -> &[u8] {
        let bytes = &mut self.bytes[..PAGE_SIZE * page_count as usize];
        for (number, page) in (0..page_count).zip(bytes.chunks_exact_mut(PAGE_SIZE)) {
            let lsn = u64::from(self.lsns[number as usize]);
            page[..FIRST_SLOT].copy_from_slice(&header_of(number as u16, lsn));
        }
        bytes
    }
}

/// Has the system give this memory. It is written, as what is read first would be given twice.
fn touch(memory: &mut [u8]) {
    for piece in memory.chunks_mut(PIECE_SIZE) {
        piece[0] = std::hint::black_box(0);
    }
}

fn header_of(page: u16, lsn: u64) -> [u8; FIRST_SLOT] {
    let head = u64::from(page) | u64::from(PAGE_FORMAT) << 32;
    let mut header = [0; FIRST_SLOT];
    header[..8].copy_from_slice(&head.to_le_bytes());
    header[8..].copy_from_slice(&lsn.to_le_bytes());
    header
}

fn bit(seat: u8) -> u64 {
    1 << seat
}
