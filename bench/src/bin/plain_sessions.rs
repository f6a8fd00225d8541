//! `plain_sessions PAGES WORKERS SESSIONS CHANGES READS` does what the program `bench_copies` does, with the plain engine
//! behind a plain mutex: sessions make transactions, and so many workers make a copy meanwhile.

use bench::chains::ChangeKind;
use bench::copies::Source;
use bench::engine::Engine;
use bench::replies::{Refusal, Reply};
use bench::MOST_PAGES;
use std::process::ExitCode;
use std::sync::atomic::{AtomicBool, AtomicU32, Ordering};
use std::sync::Mutex;
use std::thread;
use std::time::{Duration, Instant};

/// For how long the sessions are measured where there is no copy.
const ALONE: Duration = Duration::from_millis(40);

struct Case {
    pages: u32,
    workers: u32,
    sessions: u32,
    changes: u16,
    reads: u16,
}

impl Case {
    fn of(words: &[String]) -> Option<Case> {
        let [pages, workers, sessions, changes, reads] = words else {
            return None;
        };
        let case = Case {
            pages: pages.parse().ok()?,
            workers: workers.parse().ok()?,
            sessions: sessions.parse().ok()?,
            changes: changes.parse().ok()?,
            reads: reads.parse().ok()?,
        };
        let is_possible =
            (1..=MOST_PAGES).contains(&case.pages) && (1..=64).contains(&case.sessions);
        is_possible.then_some(case)
    }
}

/// Makes transactions on a page of its own until `stop` is set, and says how many calls it made.
fn work(engine: &Mutex<Engine>, case: &Case, page: u32, stop: &AtomicBool) -> Result<u64, Refusal> {
    let mut calls = 0;
    while !stop.load(Ordering::SeqCst) {
        let Reply::Began(transaction, _) = engine.lock().unwrap().begin()? else {
            unreachable!("a begin answers no other reply");
        };
        for slot in 0..case.changes {
            let mut engine = engine.lock().unwrap();
            engine.change(ChangeKind::Add, transaction, page, slot, 1)?;
        }
        for _ in 0..case.reads {
            engine.lock().unwrap().read(page, 0)?;
        }
        engine.lock().unwrap().commit(transaction)?;
        calls += u64::from(case.changes) + u64::from(case.reads) + 2;
    }
    Ok(calls)
}

fn checkpoint(engine: &mut Engine) -> Result<(), Refusal> {
    engine.checkpoint_begin()?;
    while !matches!(engine.gather()?, Reply::Done) {}
    engine.checkpoint_end()?;
    Ok(())
}

/// Makes a full copy by so many workers, each of which claims its next page without the lock.
fn copy(engine: &Mutex<Engine>, case: &Case) -> Result<(), Refusal> {
    let Reply::Copy(id) = engine.lock().unwrap().copy(Source::All)? else {
        unreachable!("a copy answers no other reply");
    };
    let next = AtomicU32::new(0);
    let take = || loop {
        let page = next.fetch_add(1, Ordering::SeqCst);
        if page >= case.pages {
            return Ok(());
        }
        engine.lock().unwrap().take(id, page)?;
    };
    thread::scope(|scope| {
        let workers: Vec<_> = (0..case.workers).map(|_| scope.spawn(take)).collect();
        workers
            .into_iter()
            .try_for_each(|worker| worker.join().unwrap())
    })?;
    engine.lock().unwrap().copies.seal(id)?;
    Ok(())
}

/// The nanoseconds that the copy took, and the calls of the sessions meanwhile.
fn measure(case: &Case) -> Result<(u128, u64), Refusal> {
    let mut engine = Engine::new(case.pages, MOST_PAGES);
    checkpoint(&mut engine)?;
    let (engine, stop) = (Mutex::new(engine), AtomicBool::new(false));
    thread::scope(|scope| {
        let (engine, stop) = (&engine, &stop);
        let sessions: Vec<_> = (0..case.sessions)
            .map(|number| scope.spawn(move || work(engine, case, number.min(case.pages - 1), stop)))
            .collect();
        let begin = Instant::now();
        let copied = if case.workers == 0 {
            thread::sleep(ALONE);
            Ok(())
        } else {
            copy(engine, case)
        };
        let nanoseconds = begin.elapsed().as_nanos();
        stop.store(true, Ordering::SeqCst);
        let mut calls = 0;
        for session in sessions {
            calls += session.join().unwrap()?;
        }
        copied?;
        Ok((nanoseconds, calls))
    })
}

fn main() -> ExitCode {
    let words: Vec<String> = std::env::args().skip(1).collect();
    let Some(case) = Case::of(&words) else {
        eprintln!("usage: plain_sessions PAGES WORKERS SESSIONS CHANGES READS");
        return ExitCode::from(2);
    };
    match measure(&case) {
        Ok((nanoseconds, calls)) => {
            eprintln!("{nanoseconds} {calls}");
            ExitCode::SUCCESS
        }
        Err(_) => {
            eprintln!("plain_sessions: a call was refused");
            ExitCode::FAILURE
        }
    }
}
