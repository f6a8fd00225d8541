//! `generate --records N --pages P --shape SHAPE --seed S > log` writes a log to standard output, in which each record
//! may follow those before it. The same arguments always give the same bytes. README.md says what the shapes are.

use bench::random::Random;
use bench::{
    ABORT, ADD, BEGIN, BEGIN_CHKPT, CHKPT_PAGES, CHKPT_TXNS, COMMIT, COMP, END, END_CHKPT,
    HEADER_SIZE, MAGIC, MOST_OPEN, MOST_PAGES, MOST_RECORDS, RECORD_SIZE, SET, SLOTS, UPDATE,
};
use std::collections::BTreeMap;
use std::io::{self, BufWriter, Write};
use std::process::ExitCode;

const DRAWS: u32 = 8;

/// How many changes the long transaction of the shape `rollback` makes, if the log has room to take them back.
const LONG_TRANSACTION: u64 = 500_000;

#[derive(Clone, Copy, PartialEq)]
enum Shape {
    Uniform,
    Hot,
    Short,
    Interleaved,
    Rollback,
    Mixed,
    Checkpoints,
}

const SHAPES: [(&str, Shape); 7] = [
    ("uniform", Shape::Uniform),
    ("hot", Shape::Hot),
    ("short", Shape::Short),
    ("interleaved", Shape::Interleaved),
    ("rollback", Shape::Rollback),
    ("mixed", Shape::Mixed),
    ("checkpoints", Shape::Checkpoints),
];

impl Shape {
    fn from_name(name: &str) -> Result<Shape, String> {
        let found = SHAPES.iter().find(|(other, _)| *other == name);
        found.map(|(_, shape)| *shape).ok_or_else(|| {
            let names = SHAPES.map(|(name, _)| name).join(", ");
            format!("unknown shape {name:?}: one of {names} is wanted")
        })
    }

    fn open_transactions(self) -> usize {
        match self {
            Shape::Short | Shape::Rollback => 8,
            _ => MOST_OPEN,
        }
    }

    fn most_changes(self) -> u64 {
        match self {
            Shape::Short | Shape::Rollback => 2,
            _ => 16,
        }
    }
}

struct Options {
    records: u64,
    pages: u64,
    shape: Shape,
    seed: u64,
}

impl Options {
    fn parse(arguments: impl IntoIterator<Item = String>) -> Result<Options, String> {
        let (mut records, mut pages, mut shape, mut seed) = (None, None, None, None);
        let mut arguments = arguments.into_iter();
        while let Some(name) = arguments.next() {
            let value = arguments
                .next()
                .ok_or_else(|| format!("{name} has no value"));
            match name.as_str() {
                "--records" => records = Some(number(&name, &value?, 0, MOST_RECORDS as u64)?),
                "--pages" => pages = Some(number(&name, &value?, 1, u64::from(MOST_PAGES))?),
                "--shape" => shape = Some(Shape::from_name(&value?)?),
                "--seed" => seed = Some(number(&name, &value?, 0, u64::MAX)?),
                _ => return Err(format!("unknown argument {name:?}")),
            }
        }
        Ok(Options {
            records: records.ok_or("--records is missing")?,
            pages: pages.ok_or("--pages is missing")?,
            shape: shape.ok_or("--shape is missing")?,
            seed: seed.ok_or("--seed is missing")?,
        })
    }
}

fn number(name: &str, text: &str, least: u64, most: u64) -> Result<u64, String> {
    match text.parse() {
        Ok(value) if (least..=most).contains(&value) => Ok(value),
        _ => Err(format!(
            "{name} is {text:?}: a number from {least} to {most} is wanted"
        )),
    }
}

#[derive(Clone, Copy, PartialEq)]
#[repr(u16)]
enum ChangeKind {
    Set = SET,
    Add = ADD,
}

#[derive(Clone, Copy)]
struct Change {
    page: u64,
    slot: u64,
    kind: ChangeKind,
}

/// A change that is not taken back: the number that its undo has, its record's LSN, and its PrevLSN.
struct Pending {
    change: Change,
    undo: u64,
    lsn: u64,
    previous: u64,
}

impl Change {
    fn place(&self) -> usize {
        (self.page * SLOTS as u64 + self.slot) as usize
    }
}

struct Transaction {
    number: u32,
    first_lsn: u64,
    last_lsn: u64,
    pending: Vec<Pending>,
    wanted_changes: u64,
    is_rolling: bool,
}

/// A checkpoint that is open, as an engine makes one.
struct Checkpoint {
    begin: u64,
    redo: u64,
    /// The pages that are not in it yet, each with its RecLSN.
    pages: BTreeMap<u32, u64>,
    last_transaction: u32,
}

/// The bytes of one record, all zero at first.
struct Record([u8; RECORD_SIZE]);

impl Record {
    fn new(kind: u32, transaction: u32, previous: u64, lsn: u64) -> Record {
        let mut record = Record([0; RECORD_SIZE]);
        record.put(0, &kind.to_le_bytes());
        record.put(4, &transaction.to_le_bytes());
        record.put(8, &previous.to_le_bytes());
        record.put(56, &lsn.to_le_bytes());
        record
    }

    fn put_change(&mut self, change: &Change, before: u64, number: u64) {
        self.put(24, &(change.page as u32).to_le_bytes());
        self.put(28, &(change.slot as u16).to_le_bytes());
        self.put(30, &(change.kind as u16).to_le_bytes());
        self.put(32, &before.to_le_bytes());
        self.put(40, &number.to_le_bytes());
    }

    fn put(&mut self, at: usize, bytes: &[u8]) {
        self.0[at..at + bytes.len()].copy_from_slice(bytes);
    }
}

impl Checkpoint {
    fn pages_record(&mut self, lsn: u64) -> Record {
        let mut record = Record::new(CHKPT_PAGES, 0, self.begin, lsn);
        let mut count = 0u32;
        while let Some((page, rec_lsn)) = (count < 3).then(|| self.pages.pop_first()).flatten() {
            let at = 20 + 12 * count as usize;
            record.put(at, &page.to_le_bytes());
            record.put(at + 4, &rec_lsn.to_le_bytes());
            self.redo = self.redo.min(rec_lsn);
            count += 1;
        }
        record.put(16, &count.to_le_bytes());
        record
    }

    fn transaction_record(&mut self, open: &Transaction, lsn: u64) -> Record {
        let mut record = Record::new(CHKPT_TXNS, 0, self.begin, lsn);
        let state: u32 = if open.is_rolling { 2 } else { 1 };
        let undo_next = open
            .pending
            .last()
            .map_or(open.first_lsn, |pending| pending.lsn);
        record.put(20, &open.number.to_le_bytes());
        record.put(24, &state.to_le_bytes());
        record.put(28, &open.last_lsn.to_le_bytes());
        record.put(36, &undo_next.to_le_bytes());
        self.last_transaction = open.number;
        record
    }

    fn end_record(&self, lsn: u64) -> Record {
        let mut record = Record::new(END_CHKPT, 0, self.begin, lsn);
        record.put(24, &self.redo.to_le_bytes());
        record
    }
}

struct Generator {
    random: Random,
    shape: Shape,
    records: u64,
    pages: u64,
    hot_page: u64,
    slots: Vec<u64>,
    open: Vec<Transaction>,
    last_transaction: u32,
    /// The transaction whose turn it is, where they take turns.
    turn: usize,
    /// The pages that were changed since the last checkpoint began, each with the LSN of the first change.
    changed: BTreeMap<u32, u64>,
    checkpoint: Option<Checkpoint>,
}

impl Generator {
    fn new(options: &Options) -> Generator {
        Generator {
            random: Random::new(options.seed),
            shape: options.shape,
            records: options.records,
            pages: options.pages,
            hot_page: options.pages / 2,
            slots: vec![0; options.pages as usize * SLOTS],
            open: Vec::new(),
            last_transaction: 0,
            turn: 0,
            changed: BTreeMap::new(),
            checkpoint: None,
        }
    }

    fn next_record(&mut self, lsn: u64) -> Record {
        let is_turn_of_checkpoint = lsn / RECORD_SIZE as u64 % 2 == 0;
        if self.shape == Shape::Checkpoints && is_turn_of_checkpoint {
            return self.go_on_with_checkpoint(lsn);
        }
        if self.open.len() < self.open_transactions() {
            return self.begin(lsn);
        }
        let chosen = self.choose();
        let transaction = &self.open[chosen];
        if transaction.is_rolling {
            return self.roll_back(chosen, lsn);
        }
        if transaction.pending.len() as u64 == transaction.wanted_changes {
            return self.finish(chosen, lsn);
        }
        match self.draw_change(chosen) {
            Some(change) => self.update(chosen, change, lsn),
            None => self.commit(chosen, lsn),
        }
    }

    /// The next record of the open checkpoint: up to three pages, or else a transaction, or else its end. Where none is
    /// open, the next one begins.
    fn go_on_with_checkpoint(&mut self, lsn: u64) -> Record {
        let Some(mut checkpoint) = self.checkpoint.take() else {
            self.checkpoint = Some(Checkpoint {
                begin: lsn,
                redo: lsn,
                pages: std::mem::take(&mut self.changed),
                last_transaction: 0,
            });
            return Record::new(BEGIN_CHKPT, 0, 0, lsn);
        };
        let past = checkpoint.last_transaction;
        let open = self.open.iter().filter(|open| open.number > past);
        let record = match open.min_by_key(|open| open.number) {
            _ if !checkpoint.pages.is_empty() => checkpoint.pages_record(lsn),
            Some(next) => checkpoint.transaction_record(next, lsn),
            None => return checkpoint.end_record(lsn),
        };
        self.checkpoint = Some(checkpoint);
        record
    }

    /// The long transaction of the shape `rollback` is the first one, and alone.
    fn open_transactions(&self) -> usize {
        match (self.shape, self.last_transaction, self.open.len()) {
            (Shape::Rollback, 0, _) | (Shape::Rollback, 1, 1) => 1,
            _ => self.shape.open_transactions(),
        }
    }

    fn choose(&mut self) -> usize {
        if self.shape == Shape::Interleaved {
            self.turn = (self.turn + 1) % self.open.len();
            return self.turn;
        }
        self.random.below(self.open.len() as u64) as usize
    }

    fn begin(&mut self, lsn: u64) -> Record {
        self.last_transaction += 1;
        let number = self.last_transaction;
        let wanted_changes = match (self.shape, number) {
            (Shape::Rollback, 1) => LONG_TRANSACTION.min(self.records.saturating_sub(3) / 2),
            _ => 1 + self.random.below(self.shape.most_changes()),
        };
        let opened = Transaction {
            number,
            first_lsn: lsn,
            last_lsn: lsn,
            pending: Vec::new(),
            wanted_changes,
            is_rolling: false,
        };
        let turn = self.turn.min(self.open.len());
        match self.shape {
            Shape::Interleaved => self.open.insert(turn, opened),
            _ => self.open.push(opened),
        }
        Record::new(BEGIN, number, 0, lsn)
    }

    /// The record behind the last change: some transactions of the shape `mixed` abort, and the long one does.
    fn finish(&mut self, chosen: usize, lsn: u64) -> Record {
        let aborts = match self.shape {
            Shape::Rollback => self.open[chosen].number == 1,
            Shape::Mixed | Shape::Checkpoints => self.random.below(4) == 0,
            _ => false,
        };
        if aborts {
            self.open[chosen].is_rolling = true;
            self.chained(ABORT, chosen, lsn)
        } else {
            self.commit(chosen, lsn)
        }
    }

    fn commit(&mut self, chosen: usize, lsn: u64) -> Record {
        let record = self.chained(COMMIT, chosen, lsn);
        self.close(chosen);
        record
    }

    fn close(&mut self, chosen: usize) {
        match self.shape {
            Shape::Interleaved => drop(self.open.remove(chosen)),
            _ => drop(self.open.swap_remove(chosen)),
        }
    }

    /// A record of an open transaction, without a change.
    fn chained(&mut self, kind: u32, chosen: usize, lsn: u64) -> Record {
        let transaction = &mut self.open[chosen];
        let previous = std::mem::replace(&mut transaction.last_lsn, lsn);
        Record::new(kind, transaction.number, previous, lsn)
    }

    fn update(&mut self, chosen: usize, change: Change, lsn: u64) -> Record {
        let number = self.random.number();
        let old = self.make(&change, number);
        let (before, undo) = match change.kind {
            ChangeKind::Set => (old, old),
            ChangeKind::Add => (0, number.wrapping_neg()),
        };
        let previous = self.open[chosen].last_lsn;
        let mut record = self.chained(UPDATE, chosen, lsn);
        record.put_change(&change, before, number);
        self.open[chosen].pending.push(Pending {
            change,
            undo,
            lsn,
            previous,
        });
        self.changed.entry(change.page as u32).or_insert(lsn);
        record
    }

    /// The Comp of the last pending change, or the End.
    fn roll_back(&mut self, chosen: usize, lsn: u64) -> Record {
        let Some(pending) = self.open[chosen].pending.pop() else {
            let record = self.chained(END, chosen, lsn);
            self.close(chosen);
            return record;
        };
        self.make(&pending.change, pending.undo);
        self.changed
            .entry(pending.change.page as u32)
            .or_insert(lsn);
        let mut record = self.chained(COMP, chosen, lsn);
        record.put(16, &pending.previous.to_le_bytes());
        record.put_change(&pending.change, 0, pending.undo);
        record
    }

    /// Changes the slot, and gives what it had before.
    fn make(&mut self, change: &Change, number: u64) -> u64 {
        let slot = &mut self.slots[change.place()];
        let old = *slot;
        *slot = match change.kind {
            ChangeKind::Set => number,
            ChangeKind::Add => old.wrapping_add(number),
        };
        old
    }

    /// A change that conflicts with no other open transaction, if a few draws give one.
    fn draw_change(&mut self, chosen: usize) -> Option<Change> {
        for _ in 0..DRAWS {
            let kind = if self.random.below(2) == 0 {
                ChangeKind::Set
            } else {
                ChangeKind::Add
            };
            let change = Change {
                page: self.draw_page(),
                slot: self.random.below(SLOTS as u64),
                kind,
            };
            if !self.conflicts(chosen, &change) {
                return Some(change);
            }
        }
        None
    }

    fn draw_page(&mut self) -> u64 {
        match self.shape {
            Shape::Hot if self.random.below(16) != 0 => self.hot_page,
            _ => self.random.below(self.pages),
        }
    }

    /// Two open transactions may share a slot only by adding to it: then either can be undone without the other.
    fn conflicts(&self, chosen: usize, change: &Change) -> bool {
        let others = self
            .open
            .iter()
            .enumerate()
            .filter(|(index, _)| *index != chosen);
        others
            .flat_map(|(_, other)| &other.pending)
            .any(|Pending { change: claim, .. }| {
                let both_add = change.kind == ChangeKind::Add && claim.kind == ChangeKind::Add;
                claim.place() == change.place() && !both_add
            })
    }
}

fn main() -> ExitCode {
    let result = Options::parse(arguments()).and_then(|options| {
        write_log(&options).map_err(|error| format!("the log cannot be written: {error}"))
    });
    match result {
        Ok(()) => ExitCode::SUCCESS,
        Err(message) => {
            eprintln!("generate: {message}");
            ExitCode::from(1)
        }
    }
}

fn arguments() -> impl Iterator<Item = String> {
    std::env::args_os()
        .skip(1)
        .map(|argument| argument.to_string_lossy().into_owned())
}

fn write_log(options: &Options) -> io::Result<()> {
    let mut out = BufWriter::with_capacity(1 << 20, io::stdout().lock());
    out.write_all(&header(options.pages as u32))?;
    let mut generator = Generator::new(options);
    for index in 0..options.records {
        let record = generator.next_record(HEADER_SIZE as u64 + RECORD_SIZE as u64 * index);
        out.write_all(&record.0)?;
    }
    out.flush()
}

fn header(pages: u32) -> [u8; HEADER_SIZE] {
    let mut header = [0; HEADER_SIZE];
    header[0..8].copy_from_slice(MAGIC);
    header[8..12].copy_from_slice(&pages.to_le_bytes());
    header
}
