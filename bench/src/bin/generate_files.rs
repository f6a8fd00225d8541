//! `generate_files PAGES COPIES SEED FOLDER` makes a log that has no room left but for what its open transactions are
//! owed, and as many copies of a volume of so many pages, all but the first one incremental. It saves them as
//! `imgcopy run` does: as log, master and copy-1 and following. It says the names, in one line.
//!
//! `generate_files PAGES turns SEED FOLDER` makes such a log of 64 transactions that take turns, none of which ends, behind
//! one full copy. So nearly half of the longest log is pending.

use bench::chains::ChangeKind;
use bench::copies::Source;
use bench::engine::Engine;
use bench::random::Random;
use bench::replies::{Answer, Refusal, Reply};
use bench::script::Event;
use bench::workload::Workload;
use bench::{MOST_OPEN, MOST_PAGES, SLOTS};
use std::fs::{self, File};
use std::io::{self, BufWriter, Write};
use std::path::Path;
use std::process::ExitCode;

fn main() -> ExitCode {
    let words: Vec<String> = std::env::args().skip(1).collect();
    let Some((pages, copies, seed, folder)) = arguments_of(&words) else {
        eprintln!(
            "usage: generate_files PAGES COPIES SEED FOLDER, with `turns` in place of COPIES"
        );
        return ExitCode::from(1);
    };
    let made = match copies {
        Some(copies) => at_work(pages, copies, seed),
        None => in_turns(pages, seed).map_err(|refusal| refusal.to_string()),
    };
    let saved = made.and_then(|engine| {
        let saved = save(&engine, Path::new(folder));
        saved.map_err(|error| error.to_string())
    });
    match saved {
        Ok(names) => println!("{}", names.join(" ")),
        Err(error) => {
            eprintln!("generate_files: {error}");
            return ExitCode::from(1);
        }
    }
    ExitCode::SUCCESS
}

/// How many copies are wanted, or none where transactions take turns.
fn arguments_of(words: &[String]) -> Option<(u32, Option<u32>, u64, &str)> {
    let [pages, copies, seed, folder] = words else {
        return None;
    };
    let pages = pages
        .parse()
        .ok()
        .filter(|count| (1..=MOST_PAGES).contains(count))?;
    let copies = match copies.as_str() {
        "turns" => None,
        count => Some(count.parse().ok()?),
    };
    Some((pages, copies, seed.parse().ok()?, folder))
}

/// An engine that is in use until its log is full, with so many copies.
fn at_work(pages: u32, copies: u32, seed: u64) -> Result<Engine, String> {
    let mut workload = Workload::new(pages, pages, copies, seed);
    while !matches!(workload.next_event().1, Err(Refusal::LogFull)) {}
    let complete = workload.complete;
    if complete < copies {
        return Err(format!("the log is full after {complete} copies"));
    }
    Ok(workload.engine)
}

/// An engine with one copy, and then 64 transactions that add by turns, any slot at a time, until its log is full.
fn in_turns(pages: u32, seed: u64) -> Result<Engine, Refusal> {
    let (mut engine, mut random) = (Engine::new(pages, pages), Random::new(seed));
    Event::CheckpointBegin.play(&mut engine)?;
    while !matches!(Event::Gather.play(&mut engine)?, Reply::Done) {}
    Event::CheckpointEnd.play(&mut engine)?;
    Event::Copy(Source::All).play(&mut engine)?;
    for page in 0..pages {
        Event::Take(1, page).play(&mut engine)?;
    }
    Event::Seal(1).play(&mut engine)?;
    for _ in 0..MOST_OPEN {
        Event::Begin.play(&mut engine)?;
    }
    for transaction in (1..=MOST_OPEN as u32).cycle() {
        let page = random.below(u64::from(pages)) as u32;
        let slot = random.below(SLOTS as u64) as u16;
        let add = Event::Change(ChangeKind::Add, transaction, page, slot, 1);
        if is_full(add.play(&mut engine))? {
            break;
        }
    }
    Ok(engine)
}

fn is_full(answer: Answer) -> Result<bool, Refusal> {
    match answer {
        Ok(_) => Ok(false),
        Err(Refusal::LogFull) => Ok(true),
        Err(refusal) => Err(refusal),
    }
}

/// Gives the names of the files.
fn save(engine: &Engine, folder: &Path) -> io::Result<Vec<String>> {
    let mut names = vec!["log".to_string(), "master".to_string()];
    fs::write(folder.join("log"), &engine.log)?;
    let mut master = [0; 64];
    if let Some(point) = engine.master {
        master[0..8].copy_from_slice(b"AIMGMST1");
        master[8..16].copy_from_slice(&point.begin.to_le_bytes());
        master[16..24].copy_from_slice(&point.end.to_le_bytes());
    }
    fs::write(folder.join("master"), master)?;
    for (id, header, pages) in engine.copies.archives() {
        let name = format!("copy-{id}");
        let mut out = BufWriter::new(File::create(folder.join(&name))?);
        out.write_all(&header)?;
        for (page, version) in pages {
            out.write_all(&engine.stored_page(*page, *version))?;
        }
        out.flush()?;
        names.push(name);
    }
    Ok(names)
}
