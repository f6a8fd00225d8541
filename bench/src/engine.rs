//! An engine that answers each call of a script as `imgcopy run` does, in plain Rust.
//!
//! The log and the stored pages are in memory, as there. Of the device that the log is forced to, it is known how much it
//! has: nothing reads it.

use crate::chains::ChangeKind;
use crate::copies::{Copies, Source};
use crate::frames::Frames;
use crate::records::Record;
use crate::replies::{Answer, Refusal, Reply};
use crate::store::{Store, Version};
use crate::volume::{Held, Place, Volume};
use crate::{
    ABORT, BEGIN, BEGIN_CHKPT, CHKPT_PAGES, CHKPT_TXNS, COMMIT, COMP, END, END_CHKPT, EXTEND,
    HEADER_SIZE, LONGEST_LOG, MAGIC, MOST_OPEN, MOST_PAGES, MOST_RECORDS, RECORD_SIZE, SLOTS,
    UPDATE,
};

/// In the place of the seat of a transaction that is not open any more.
const NO_SEAT: u8 = MOST_OPEN as u8;

/// In the place of the RecLSN of a clean page, and of the LSN of a change that has not come.
const NONE: u32 = 0;

#[derive(Default)]
struct Transaction {
    number: u32,
    first: u64,
    last: u64,
    is_aborted: bool,
    pending: Vec<Pending>,
}

/// A change that is not taken back, by what takes it back.
struct Pending {
    undo: u64,
    lsn: u32,
    previous: u32,
    place: Place,
    kind: ChangeKind,
    held: Held,
}

/// What is not stored of a page.
#[derive(Clone, Copy)]
struct Dirty {
    /// `NONE` where it is clean.
    rec_lsn: u32,
    /// The first change after the image of its write in progress.
    after_image: u32,
    image: Version,
}

const CLEAN: Dirty = Dirty {
    rec_lsn: NONE,
    after_image: NONE,
    image: Version::NONE,
};

/// What an open checkpoint gathers next.
enum Gather {
    PagesFrom(u32),
    TransactionsPast(u32),
    Nothing,
}

struct Checkpoint {
    begin: u64,
    /// How many pages the volume has at its begin.
    page_count: u32,
    redo: u64,
    gather: Gather,
}

/// The last complete checkpoint.
#[derive(Clone, Copy)]
pub struct Master {
    pub begin: u64,
    pub end: u64,
    pub redo: u64,
    pub page_count: u32,
}

pub struct Engine {
    pub log: Vec<u8>,
    /// How much of the log is on the device.
    forced: u64,
    page_count: u32,
    volume: Volume,
    store: Store,
    /// By page.
    dirty: Vec<Dirty>,
    frames: Frames,
    /// The seat of each transaction that began, from transaction 1 on.
    seats: Vec<u8>,
    open: [Transaction; MOST_OPEN],
    /// A bit for each seat that no transaction has.
    free_seats: u64,
    /// How many records the open transactions may still need.
    owed: usize,
    checkpoint: Option<Checkpoint>,
    pub master: Option<Master>,
    pub copies: Copies,
}

impl Engine {
    /// An engine with memory for so many pages at a time.
    pub fn new(page_count: u32, frames: u32) -> Engine {
        let mut header = [0; HEADER_SIZE];
        header[0..8].copy_from_slice(MAGIC);
        header[8..12].copy_from_slice(&page_count.to_le_bytes());
        let most = MOST_PAGES as usize;
        // asked for at once, as a list that grows is moved; the system gives what is written of it
        let mut log = Vec::with_capacity(LONGEST_LOG);
        log.extend_from_slice(&header);
        Engine {
            log,
            forced: HEADER_SIZE as u64,
            page_count,
            volume: Volume::untouched(),
            store: Store::new(),
            dirty: vec![CLEAN; most],
            frames: Frames::new(frames),
            seats: Vec::with_capacity(MOST_RECORDS),
            open: std::array::from_fn(|_| Transaction::default()),
            free_seats: u64::MAX,
            owed: 0,
            checkpoint: None,
            master: None,
            copies: Copies::default(),
        }
    }

    pub fn begin(&mut self) -> Answer {
        if self.free_seats == 0 {
            return Err(Refusal::TooManyTxns);
        }
        self.need_room(3)?;
        let seat = self.free_seats.trailing_zeros() as u8;
        self.free_seats &= self.free_seats - 1;
        self.seats.push(seat);
        let number = self.seats.len() as u32;
        let lsn = self.append(Record::new(BEGIN, number, 0));
        self.owed += 2;
        let opened = &mut self.open[usize::from(seat)];
        opened.number = number;
        opened.first = lsn;
        opened.last = lsn;
        opened.is_aborted = false;
        Ok(Reply::Began(number, lsn))
    }

    pub fn change(
        &mut self,
        kind: ChangeKind,
        transaction: u32,
        page: u32,
        slot: u16,
        number: u64,
    ) -> Answer {
        let seat = self.active(transaction)?;
        let place = self.place(page, slot)?;
        let held = self.claim(seat, page, place, kind)?;
        let previous = self.open[usize::from(seat)].last;
        let lsn = self.log.len() as u64;
        let before = self.put(page, place, kind, number, lsn);
        let (shown, undo) = match kind {
            ChangeKind::Set => (before, before),
            ChangeKind::Add => (0, number.wrapping_neg()),
        };
        let mut record = Record::new(UPDATE, transaction, previous);
        record.put_change(page, slot, kind, shown, number);
        self.append(record);
        self.owed += 1;
        let open = &mut self.open[usize::from(seat)];
        open.last = lsn;
        open.pending.push(Pending {
            undo,
            lsn: lsn as u32,
            previous: previous as u32,
            place,
            kind,
            held,
        });
        Ok(Reply::Lsn(lsn))
    }

    pub fn read(&mut self, page: u32, slot: u16) -> Answer {
        let place = self.place(page, slot)?;
        self.frames.need(page)?;
        Ok(Reply::Value(self.volume.number_on(page as u16, place)))
    }

    /// Looks at a slot, so that it comes from memory.
    pub fn look(&self, page: u32, slot: u16) -> u8 {
        match self.place(page, slot) {
            Ok(place) if self.volume.lsn(page as u16) != 0 => self.volume.look(place),
            _ => 0,
        }
    }

    pub fn commit(&mut self, transaction: u32) -> Answer {
        let seat = self.active(transaction)?;
        let lsn = self.append(self.chained(COMMIT, seat));
        let mut pending = std::mem::take(&mut self.open[usize::from(seat)].pending);
        self.owed -= pending.len() + 2;
        for change in pending.drain(..).rev() {
            self.volume.release(change.place, seat, change.held);
        }
        self.close(seat, pending);
        self.force_to(lsn);
        Ok(Reply::Lsn(lsn))
    }

    pub fn abort(&mut self, transaction: u32) -> Answer {
        let seat = self.active(transaction)?;
        let lsn = self.append(self.chained(ABORT, seat));
        self.owed -= 1;
        let open = &mut self.open[usize::from(seat)];
        open.last = lsn;
        open.is_aborted = true;
        Ok(Reply::Lsn(lsn))
    }

    pub fn undo(&mut self, transaction: u32) -> Answer {
        let seat = self.seat(transaction)?;
        let open = &mut self.open[usize::from(seat)];
        if !open.is_aborted {
            return Err(Refusal::NotRolling);
        }
        if let Some(change) = open.pending.last() {
            self.frames.need(u32::from(change.place.page()))?;
        }
        self.owed -= 1;
        let Some(change) = open.pending.pop() else {
            let lsn = self.append(self.chained(END, seat));
            self.close(seat, Vec::new());
            return Ok(Reply::Ended(lsn));
        };
        let (page, slot) = (u32::from(change.place.page()), change.place.slot());
        let mut record = self.chained(COMP, seat);
        record.put_undo_next(u64::from(change.previous));
        record.put_change(page, u16::from(slot), change.kind, 0, change.undo);
        let lsn = self.append(record);
        self.open[usize::from(seat)].last = lsn;
        self.put(page, change.place, change.kind, change.undo, lsn);
        self.volume.release(change.place, seat, change.held);
        Ok(Reply::Undid(lsn))
    }

    /// The volume grows.
    pub fn extend(&mut self, page_count: u32) -> Answer {
        let present = self.page_count;
        if page_count <= present || page_count > MOST_PAGES {
            return Err(Refusal::NotLarger(present));
        }
        self.need_room(1)?;
        self.page_count = page_count;
        let mut record = Record::new(EXTEND, 0, 0);
        record.put(24, &page_count.to_le_bytes());
        Ok(Reply::Lsn(self.append(record)))
    }

    pub fn force(&mut self) -> Answer {
        self.force_to(self.log.len() as u64 - RECORD_SIZE as u64);
        Ok(Reply::Forced(self.log.len() as u64))
    }

    pub fn write_begin(&mut self, page: u32) -> Answer {
        self.need_page(page)?;
        let dirty = &mut self.dirty[page as usize];
        if dirty.image != Version::NONE {
            return Err(Refusal::WriteBegun);
        }
        if dirty.rec_lsn == NONE {
            return Err(Refusal::NotDirty);
        }
        dirty.after_image = NONE;
        dirty.image = self.store.image(&self.volume, page as u16);
        let lsn = self.volume.lsn(page as u16);
        self.force_to(lsn);
        Ok(Reply::Writing(lsn))
    }

    pub fn write_end(&mut self, page: u32) -> Answer {
        self.need_page(page)?;
        let dirty = &mut self.dirty[page as usize];
        let image = std::mem::replace(&mut dirty.image, Version::NONE);
        if image == Version::NONE {
            return Err(Refusal::NoWrite);
        }
        self.store.put(page, image);
        dirty.rec_lsn = dirty.after_image;
        if dirty.rec_lsn == NONE {
            self.frames.note_clean(page);
        }
        Ok(Reply::Written(self.store.lsn(image)))
    }

    pub fn checkpoint_begin(&mut self) -> Answer {
        if self.checkpoint.is_some() {
            return Err(Refusal::CkptOpen);
        }
        self.need_room(1)?;
        let begin = self.append(Record::new(BEGIN_CHKPT, 0, 0));
        self.checkpoint = Some(Checkpoint {
            begin,
            page_count: self.page_count,
            redo: begin,
            gather: Gather::PagesFrom(0),
        });
        Ok(Reply::Lsn(begin))
    }

    pub fn gather(&mut self) -> Answer {
        let mut checkpoint = self.checkpoint.take().ok_or(Refusal::NoCkpt)?;
        let answer = self.gather_into(&mut checkpoint);
        self.checkpoint = Some(checkpoint);
        answer
    }

    fn gather_into(&mut self, checkpoint: &mut Checkpoint) -> Answer {
        match checkpoint.gather {
            Gather::PagesFrom(cursor) => self.gather_pages(checkpoint, cursor),
            Gather::TransactionsPast(cursor) => self.gather_transaction(checkpoint, cursor),
            Gather::Nothing => Ok(Reply::Done),
        }
    }

    fn gather_pages(&mut self, checkpoint: &mut Checkpoint, cursor: u32) -> Answer {
        let pages = (cursor..self.page_count).zip(&self.dirty[cursor as usize..]);
        let rec_lsns = pages.map(|(page, dirty)| (page, dirty.rec_lsn));
        let entries = rec_lsns.filter(|(_, rec_lsn)| *rec_lsn != NONE).take(3);
        let mut record = Record::new(CHKPT_PAGES, 0, checkpoint.begin);
        let (mut count, mut last, mut redo) = (0, cursor, checkpoint.redo);
        for (page, rec_lsn) in entries {
            record.put(20 + 12 * count, &page.to_le_bytes());
            record.put(24 + 12 * count, &u64::from(rec_lsn).to_le_bytes());
            redo = redo.min(u64::from(rec_lsn));
            (count, last) = (count + 1, page);
        }
        if count == 0 {
            checkpoint.gather = Gather::TransactionsPast(0);
            return Ok(Reply::More);
        }
        self.need_room(1)?;
        checkpoint.redo = redo;
        record.put(16, &(count as u32).to_le_bytes());
        self.append(record);
        checkpoint.gather = Gather::PagesFrom(last + 1);
        Ok(Reply::More)
    }

    fn gather_transaction(&mut self, checkpoint: &mut Checkpoint, cursor: u32) -> Answer {
        let past = self.taken_seats().filter(|open| open.number > cursor);
        let Some(open) = past.min_by_key(|open| open.number) else {
            checkpoint.gather = Gather::Nothing;
            return Ok(Reply::Done);
        };
        self.need_room(1)?;
        let pending = open.pending.last();
        let undo_next = pending.map_or(open.first, |change| u64::from(change.lsn));
        let mut record = Record::new(CHKPT_TXNS, 0, checkpoint.begin);
        record.put(20, &open.number.to_le_bytes());
        record.put(24, &(1 + u32::from(open.is_aborted)).to_le_bytes());
        record.put(28, &open.last.to_le_bytes());
        record.put(36, &undo_next.to_le_bytes());
        checkpoint.gather = Gather::TransactionsPast(open.number);
        self.append(record);
        Ok(Reply::More)
    }

    pub fn checkpoint_end(&mut self) -> Answer {
        let checkpoint = self.checkpoint.as_ref().ok_or(Refusal::NoCkpt)?;
        if !matches!(checkpoint.gather, Gather::Nothing) {
            return Err(Refusal::GatherLeft);
        }
        self.need_room(1)?;
        let (begin, redo) = (checkpoint.begin, checkpoint.redo);
        let page_count = checkpoint.page_count;
        let mut record = Record::new(END_CHKPT, 0, begin);
        record.put(24, &redo.to_le_bytes());
        let end = self.append(record);
        self.force_to(end);
        self.checkpoint = None;
        self.master = Some(Master {
            begin,
            end,
            redo,
            page_count,
        });
        Ok(Reply::Point(begin, end, redo))
    }

    pub fn copy(&mut self, source: Source) -> Answer {
        self.copies.open(source, self.master)
    }

    pub fn take(&mut self, copy: u32, page: u32) -> Answer {
        self.copies.take(copy, page, &mut self.store)
    }

    pub fn drop_copy(&mut self, copy: u32) -> Answer {
        self.copies.drop_copy(copy, &mut self.store)
    }

    /// The bytes of a page that a copy has.
    pub fn stored_page(&self, page: u32, version: Version) -> crate::Page {
        self.store.page(page, version)
    }

    fn claim(
        &mut self,
        seat: u8,
        page: u32,
        place: Place,
        kind: ChangeKind,
    ) -> Result<Held, Refusal> {
        self.volume.begin_page(page as u16);
        let against = self.volume.against(place, seat, kind);
        if against != 0 {
            let others = (0..MOST_OPEN).filter(|other| against >> other & 1 != 0);
            let least = others.map(|other| self.open[other].number).min();
            return Err(Refusal::SlotBusy(least.expect("a seat keeps it out")));
        }
        self.need_room(2)?;
        self.frames.need(page)?;
        let held = self.volume.claim(place, seat, kind);
        Ok(held.expect("no seat keeps it out"))
    }

    /// Makes a change of a page in memory, and gives the slot's number before it.
    fn put(&mut self, page: u32, place: Place, kind: ChangeKind, number: u64, lsn: u64) -> u64 {
        let before = self.volume.put(page as u16, place, kind, number, lsn);
        let dirty = &mut self.dirty[page as usize];
        if dirty.after_image == NONE {
            dirty.after_image = lsn as u32;
        }
        if dirty.rec_lsn == NONE {
            dirty.rec_lsn = lsn as u32;
            self.frames.note_dirty(page);
        }
        before
    }

    /// A record of the transaction in this seat, behind its last one.
    fn chained(&self, kind: u32, seat: u8) -> Record {
        let open = &self.open[usize::from(seat)];
        Record::new(kind, open.number, open.last)
    }

    fn append(&mut self, record: Record) -> u64 {
        let lsn = self.log.len() as u64;
        self.log.extend_from_slice(&record.at(lsn));
        lsn
    }

    /// Forces the records up to and with this one.
    fn force_to(&mut self, lsn: u64) {
        self.forced = self.forced.max(lsn + RECORD_SIZE as u64);
    }

    fn close(&mut self, seat: u8, pending: Vec<Pending>) {
        let open = &mut self.open[usize::from(seat)];
        open.pending = pending;
        self.seats[open.number as usize - 1] = NO_SEAT;
        self.free_seats |= 1 << seat;
    }

    fn taken_seats(&self) -> impl Iterator<Item = &Transaction> {
        let seats = (0..MOST_OPEN).filter(|seat| self.free_seats >> seat & 1 == 0);
        seats.map(|seat| &self.open[seat])
    }

    fn seat(&self, transaction: u32) -> Result<u8, Refusal> {
        let index = (transaction as usize).checked_sub(1);
        let seat = index.and_then(|index| self.seats.get(index));
        seat.copied()
            .filter(|seat| *seat != NO_SEAT)
            .ok_or(Refusal::NoTxn)
    }

    fn active(&self, transaction: u32) -> Result<u8, Refusal> {
        let seat = self.seat(transaction)?;
        if self.open[usize::from(seat)].is_aborted {
            return Err(Refusal::TxnRolling);
        }
        Ok(seat)
    }

    fn need_page(&self, page: u32) -> Result<(), Refusal> {
        if page >= self.page_count {
            return Err(Refusal::PageOut);
        }
        Ok(())
    }

    fn place(&self, page: u32, slot: u16) -> Result<Place, Refusal> {
        self.need_page(page)?;
        if usize::from(slot) >= SLOTS {
            return Err(Refusal::SlotOut);
        }
        Ok(Place::of(page as u16, slot as u8))
    }

    fn need_room(&self, records: usize) -> Result<(), Refusal> {
        let present = self.log.len() / RECORD_SIZE - 1;
        if present + self.owed + records > MOST_RECORDS {
            return Err(Refusal::LogFull);
        }
        Ok(())
    }
}
