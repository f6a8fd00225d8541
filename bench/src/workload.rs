//! Events as they come to an engine that is in use: transactions, and beside them checkpoints, copies and writes of
//! pages, one after the other.

use crate::chains::ChangeKind;
use crate::copies::Source;
use crate::engine::Engine;
use crate::random::Random;
use crate::replies::{Answer, Refusal, Reply};
use crate::script::Event;
use crate::SLOTS;

const OPEN_TRANSACTIONS: usize = 32;
const MOST_CHANGES: u64 = 24;

struct Transaction {
    number: u32,
    left: u64,
    is_aborted: bool,
}

/// What goes on beside the transactions.
enum Background {
    Checkpoint,
    Gather,
    CheckpointEnd,
    Copy,
    Take(u32, u32),
    Seal(u32),
    WriteBegin(u32),
    WriteEnd(u32),
}

pub struct Workload {
    pub engine: Engine,
    random: Random,
    pages: u32,
    open: Vec<Transaction>,
    background: Background,
    /// How many copies are to be made, each of those after the first one incremental.
    copies: u32,
    pub complete: u32,
}

impl Workload {
    pub fn new(pages: u32, frames: u32, copies: u32, seed: u64) -> Workload {
        Workload {
            engine: Engine::new(pages, frames),
            random: Random::new(seed),
            pages,
            open: Vec::new(),
            background: Background::Checkpoint,
            copies,
            complete: 0,
        }
    }

    /// Plays the next event. Gives what the engine answers, too.
    pub fn next_event(&mut self) -> (Event, Answer) {
        if self.random.below(2) == 0 {
            let event = self.background_event();
            let answer = event.play(&mut self.engine);
            self.go_on(&answer);
            return (event, answer);
        }
        if self.open.len() < OPEN_TRANSACTIONS {
            let answer = Event::Begin.play(&mut self.engine);
            if let Ok(Reply::Began(number, _)) = answer {
                self.open.push(Transaction {
                    number,
                    left: self.random.below(MOST_CHANGES),
                    is_aborted: false,
                });
            }
            return (Event::Begin, answer);
        }
        let chosen = self.random.below(OPEN_TRANSACTIONS as u64) as usize;
        let event = self.event_of(chosen);
        let answer = event.play(&mut self.engine);
        match (event, &answer) {
            (Event::Commit(_), Ok(_)) | (_, Ok(Reply::Ended(_))) => {
                self.open.swap_remove(chosen);
            }
            (Event::Abort(_), Ok(_)) => self.open[chosen].is_aborted = true,
            _ => self.open[chosen].left = self.open[chosen].left.saturating_sub(1),
        }
        (event, answer)
    }

    fn event_of(&mut self, chosen: usize) -> Event {
        let Transaction {
            number,
            left,
            is_aborted,
        } = self.open[chosen];
        if is_aborted {
            return Event::Undo(number);
        }
        if left == 0 {
            return match self.random.below(8) {
                0 => Event::Abort(number),
                _ => Event::Commit(number),
            };
        }
        let page = self.random.below(u64::from(self.pages)) as u32;
        let slot = self.random.below(SLOTS as u64) as u16;
        match self.random.below(10) {
            0 => Event::Read(page, slot),
            1..=5 => Event::Change(ChangeKind::Set, number, page, slot, self.random.below(1000)),
            _ => Event::Change(ChangeKind::Add, number, page, slot, self.random.below(1000)),
        }
    }

    fn background_event(&self) -> Event {
        match self.background {
            Background::Checkpoint => Event::CheckpointBegin,
            Background::Gather => Event::Gather,
            Background::CheckpointEnd => Event::CheckpointEnd,
            Background::Copy if self.complete == 0 => Event::Copy(Source::All),
            Background::Copy => Event::Copy(Source::After(self.complete)),
            Background::Take(copy, page) => Event::Take(copy, page),
            Background::Seal(copy) => Event::Seal(copy),
            Background::WriteBegin(page) => Event::WriteBegin(page),
            Background::WriteEnd(page) => Event::WriteEnd(page),
        }
    }

    fn go_on(&mut self, answer: &Answer) {
        self.background = match (&self.background, answer) {
            (_, Err(Refusal::LogFull)) => return,
            (Background::Checkpoint, _) => Background::Gather,
            (Background::Gather, Ok(Reply::Done)) => Background::CheckpointEnd,
            (Background::Gather, _) => Background::Gather,
            (Background::CheckpointEnd, _) if self.complete < self.copies => Background::Copy,
            (Background::Copy, Ok(Reply::Copy(copy))) => Background::Take(*copy, 0),
            (Background::Take(copy, page), _) if page + 1 < self.pages => {
                Background::Take(*copy, page + 1)
            }
            (Background::Take(copy, _), _) => Background::Seal(*copy),
            (Background::Seal(copy), _) => {
                self.complete = *copy;
                Background::WriteBegin(0)
            }
            (Background::CheckpointEnd | Background::Copy, _) => Background::WriteBegin(0),
            (Background::WriteBegin(page), Ok(_)) => Background::WriteEnd(*page),
            (Background::WriteBegin(page) | Background::WriteEnd(page), _) => {
                self.after_write(page + 1)
            }
        };
    }

    fn after_write(&self, page: u32) -> Background {
        if page < self.pages {
            Background::WriteBegin(page)
        } else {
            Background::Checkpoint
        }
    }
}
