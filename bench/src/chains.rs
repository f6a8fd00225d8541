//! The open transactions and their pending changes, by which it is decided which record may come next.
//!
//! Each function takes a record, and gives `None` if it may not come next. After that no more is to be taken.

use crate::volume::{Held, Place, Volume};
use crate::{HEADER_SIZE, LONGEST_LOG, MOST_OPEN, MOST_RECORDS};

/// In the place of the seat of a transaction that is not open any more.
const NO_SEAT: u8 = MOST_OPEN as u8;

/// A Set keeps out more than an Add does, and is the greater one.
#[derive(Clone, Copy, Debug, PartialEq)]
#[repr(u8)]
pub enum ChangeKind {
    Add = 0x40,
    Set = 0x80,
}

/// A Set to the number, or an Add of it.
#[derive(Clone, Copy, PartialEq)]
pub struct Change {
    pub page: u16,
    pub slot: u8,
    pub kind: ChangeKind,
    pub number: u64,
}

/// The place of a transaction in the list of those that are open.
#[derive(Clone, Copy)]
pub struct Seat(u8);

#[derive(Default)]
pub struct Transaction {
    number: u32,
    first_lsn: u32,
    last_lsn: u32,
    is_rolling: bool,
    pub pending: Vec<Pending>,
    /// The PrevLSNs of those pending changes that do not follow on the pending change before them.
    jumps: Vec<u32>,
}

impl Transaction {
    /// How many records it may still need.
    pub fn owed(&self) -> usize {
        self.pending.len() + if self.is_rolling { 1 } else { 2 }
    }

    /// The LSN of the last pending change, or of the Begin.
    #[inline]
    fn undo_next(&self) -> u32 {
        self.pending
            .last()
            .map_or(self.first_lsn, |pending| pending.lsn)
    }
}

/// A change that no Comp has taken back, in sixteen bytes. Its PrevLSN is that of the pending change before it, or of the
/// Begin, but where records between them were taken back.
#[derive(Clone, Copy)]
pub struct Pending {
    /// That of the change that takes it back.
    number: u64,
    pub lsn: u32,
    /// The place, above it whether the change is a Set, and whether the PrevLSN is another one, and how the slot was held.
    what: u32,
}

const SET_BIT: u32 = 1 << Place::BITS;
const JUMP: u32 = SET_BIT << 1;
const PLACE_BITS: u32 = SET_BIT - 1;
const HELD_SHIFT: u32 = 24;
const _: () = assert!(JUMP < (!Held::BITS as u32 + 1) << HELD_SHIFT);

#[inline]
fn what_of(place: Place, kind: ChangeKind) -> u32 {
    let is_set = kind == ChangeKind::Set;
    place.bits() | u32::from(is_set) << Place::BITS
}

impl Pending {
    #[inline]
    fn place(&self) -> Place {
        Place::from_bits(self.what & PLACE_BITS)
    }

    #[inline]
    fn held(&self) -> Held {
        Held::from_bits((self.what >> HELD_SHIFT) as u8)
    }

    /// The change that takes it back.
    pub fn undo(&self) -> Change {
        Change {
            page: self.place().page(),
            slot: self.place().slot(),
            kind: if self.what & SET_BIT != 0 {
                ChangeKind::Set
            } else {
                ChangeKind::Add
            },
            number: self.number,
        }
    }
}

pub struct Chains {
    /// The seat of each transaction that began, from transaction 1 on.
    seats: Vec<u8>,
    /// The transaction in each seat. One that is over leaves its empty list of changes to the next.
    open: [Transaction; MOST_OPEN],
    /// A bit for each seat that no transaction has.
    free_seats: u64,
}

const _: () = assert!(LONGEST_LOG <= u32::MAX as usize && HEADER_SIZE > 0);

impl Chains {
    pub fn new() -> Chains {
        Chains {
            seats: Vec::with_capacity(MOST_RECORDS),
            open: std::array::from_fn(|_| Transaction::default()),
            free_seats: u64::MAX,
        }
    }

    pub fn begin(&mut self, transaction: u32, lsn: u64) -> Option<()> {
        if transaction as usize != self.seats.len() + 1 || self.free_seats == 0 {
            return None;
        }
        let seat = self.free_seats.trailing_zeros() as u8;
        self.free_seats &= self.free_seats - 1;
        self.seats.push(seat);
        let opened = &mut self.open[usize::from(seat)];
        opened.number = transaction;
        opened.first_lsn = lsn as u32;
        opened.last_lsn = lsn as u32;
        opened.is_rolling = false;
        Some(())
    }

    /// The seat of the open transaction whose chain this record continues.
    #[inline]
    pub fn go_on(&mut self, transaction: u32, previous: u64, lsn: u64) -> Option<Seat> {
        let seat = *self.seats.get(transaction as usize - 1)?;
        let open = self.open.get_mut(usize::from(seat))?;
        if u64::from(open.last_lsn) != previous {
            return None;
        }
        open.last_lsn = lsn as u32;
        Some(Seat(seat))
    }

    /// Takes an Update, and makes its change. A Set has the number `before` that its slot has.
    #[inline]
    pub fn update(
        &mut self,
        seat: Seat,
        previous: u64,
        change: &Change,
        before: u64,
        volume: &mut Volume,
    ) -> Option<()> {
        let Change {
            page,
            slot,
            kind,
            number,
        } = *change;
        let place = Place::of(page, slot);
        let held = volume.claim(place, seat.0, kind)?;
        let open = &mut self.open[usize::from(seat.0)];
        let replaced = volume.put(page, place, kind, number, u64::from(open.last_lsn));
        let (undo, is_right) = match kind {
            ChangeKind::Set => (before, replaced == before),
            ChangeKind::Add => (number.wrapping_neg(), true),
        };
        let is_jump = u64::from(open.undo_next()) != previous;
        if is_jump {
            open.jumps.push(previous as u32);
        }
        open.pending.push(Pending {
            number: undo,
            lsn: open.last_lsn,
            what: what_of(place, kind)
                | u32::from(held.bits()) << HELD_SHIFT
                | if is_jump { JUMP } else { 0 },
        });
        (is_right && !open.is_rolling).then_some(())
    }

    /// Takes a Comp, and makes its change.
    #[inline]
    pub fn compensate(
        &mut self,
        seat: Seat,
        change: &Change,
        undo_next: u64,
        volume: &mut Volume,
    ) -> Option<()> {
        let open = &mut self.open[usize::from(seat.0)];
        let pending = open.pending.pop()?;
        let previous = if pending.what & JUMP != 0 {
            open.jumps.pop()?
        } else {
            open.undo_next()
        };
        let place = Place::of(change.page, change.slot);
        let is_place = what_of(place, change.kind) == pending.what & (PLACE_BITS | SET_BIT);
        let is_undo = is_place && change.number == pending.number;
        if !is_undo || undo_next != u64::from(previous) {
            return None;
        }
        let lsn = u64::from(open.last_lsn);
        volume.put(change.page, place, change.kind, change.number, lsn);
        volume.release(place, seat.0, pending.held());
        Some(())
    }

    pub fn abort(&mut self, seat: Seat) -> Option<()> {
        let open = &mut self.open[usize::from(seat.0)];
        let was_rolling = std::mem::replace(&mut open.is_rolling, true);
        (!was_rolling).then_some(())
    }

    pub fn commit(&mut self, transaction: u32, seat: Seat, volume: &mut Volume) -> Option<()> {
        let open = &mut self.open[usize::from(seat.0)];
        if open.is_rolling {
            return None;
        }
        for pending in open.pending.drain(..).rev() {
            volume.release(pending.place(), seat.0, pending.held());
        }
        open.jumps.clear();
        self.close(transaction, seat);
        Some(())
    }

    pub fn end(&mut self, transaction: u32, seat: Seat) -> Option<()> {
        if !self.open[usize::from(seat.0)].pending.is_empty() {
            return None;
        }
        self.close(transaction, seat);
        Some(())
    }

    /// Whether the open transaction rolls back, the LSN of its last record, and its UndoNxtLSN.
    pub fn now(&self, transaction: u32) -> Option<(bool, u64, u64)> {
        let seat = *self.seats.get(transaction as usize - 1)?;
        let open = self.open.get(usize::from(seat))?;
        Some((
            open.is_rolling,
            u64::from(open.last_lsn),
            u64::from(open.undo_next()),
        ))
    }

    /// The open transactions that began before an LSN.
    pub fn began_before(&self, lsn: u64) -> impl Iterator<Item = u32> + '_ {
        let open = self.open_transactions();
        open.filter(move |open| u64::from(open.first_lsn) < lsn)
            .map(|open| open.number)
    }

    pub fn open_transactions(&self) -> impl Iterator<Item = &Transaction> {
        let seats = (0..MOST_OPEN).filter(|seat| self.free_seats >> seat & 1 == 0);
        seats.map(|seat| &self.open[seat])
    }

    fn close(&mut self, transaction: u32, seat: Seat) {
        self.seats[transaction as usize - 1] = NO_SEAT;
        self.free_seats |= 1 << seat.0;
    }
}

impl Default for Chains {
    fn default() -> Chains {
        Chains::new()
    }
}
