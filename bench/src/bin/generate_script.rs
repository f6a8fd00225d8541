//! `generate_script --pages P --frames B --bytes N --shape SHAPE --seed S > script` writes a script of nearly N bytes for
//! a volume of P pages, of which B may be in memory at a time. In the shape `accepted` nearly all of its events are
//! accepted, and in the shape `refused` all but the first hundred are refused. The shape `scan` reads each page in turn,
//! again and again. The shape `alternate` changes a page for each frame but one, and then reads two others in turn. In the
//! shape `growth` the volume grows page by page to the most that there may be, and each page is changed as it comes.

use bench::random::Random;
use bench::script::{Event, LONGEST_SCRIPT};
use bench::workload::Workload;
use bench::{MOST_PAGES, SLOTS};
use std::io::{self, BufWriter, Write};
use std::process::ExitCode;

/// No line of a script is longer.
const LONGEST_LINE: usize = 64;

/// How many transactions hold the slots that others are refused.
const HOLDERS: u32 = 60;

const COPIES: u32 = 100;

#[derive(Clone, Copy, PartialEq)]
enum Shape {
    Accepted,
    Refused,
    Scan,
    Alternate,
    Growth,
}

struct Options {
    pages: u32,
    frames: u32,
    bytes: usize,
    shape: Shape,
    seed: u64,
}

fn main() -> ExitCode {
    let words: Vec<String> = std::env::args().skip(1).collect();
    let Some(options) = options_of(&words) else {
        eprintln!(
            "usage: generate_script --pages P --frames B --bytes N --shape SHAPE --seed S > script\n\
             SHAPE is accepted, refused, scan, alternate or growth"
        );
        return ExitCode::from(1);
    };
    match write_script(&options) {
        Ok(()) => ExitCode::SUCCESS,
        Err(error) => {
            eprintln!("generate_script: {error}");
            ExitCode::from(1)
        }
    }
}

fn options_of(words: &[String]) -> Option<Options> {
    let (names, values): (Vec<&str>, Vec<&str>) = words
        .chunks_exact(2)
        .map(|pair| (pair[0].as_str(), pair[1].as_str()))
        .unzip();
    if words.len() % 2 != 0 || names != ["--pages", "--frames", "--bytes", "--shape", "--seed"] {
        return None;
    }
    let [pages, frames, bytes, shape, seed] = values.try_into().ok()?;
    let count_of = |word: &str| {
        let count = word.parse().ok();
        count.filter(|count| (1..=MOST_PAGES).contains(count))
    };
    let pages = count_of(pages)?;
    let frames = count_of(frames)?;
    let bytes = bytes
        .parse()
        .ok()
        .filter(|count| *count <= LONGEST_SCRIPT)?;
    let shape = match shape {
        "accepted" => Shape::Accepted,
        "refused" => Shape::Refused,
        "scan" => Shape::Scan,
        "alternate" if frames < pages => Shape::Alternate,
        "growth" => Shape::Growth,
        _ => return None,
    };
    Some(Options {
        pages,
        frames,
        bytes,
        shape,
        seed: seed.parse().ok()?,
    })
}

fn write_script(options: &Options) -> io::Result<()> {
    let mut out = BufWriter::with_capacity(1 << 20, io::stdout().lock());
    let mut workload = Workload::new(options.pages, options.frames, COPIES, options.seed);
    let mut random = Random::new(options.seed);
    let mut written = match options.shape {
        Shape::Refused => write_holders(&mut out)?,
        Shape::Alternate => write_changes(&mut out, options.frames - 1)?,
        Shape::Accepted | Shape::Scan | Shape::Growth => 0,
    };
    for turn in 0.. {
        if written + LONGEST_LINE > options.bytes {
            break;
        }
        let line = match options.shape {
            Shape::Refused => refused_line(&mut random, options.pages),
            Shape::Accepted => format!("{}\n", workload.next_event().0),
            Shape::Scan => format!("read {} 0\n", turn % options.pages),
            Shape::Alternate => format!("read {} 0\n", options.frames - 1 + turn % 2),
            Shape::Growth => growth_line(turn, options.pages),
        };
        out.write_all(line.as_bytes())?;
        written += line.len();
    }
    out.flush()
}

/// A transaction that changes so many pages, the first ones, and stays open.
fn write_changes(out: &mut impl Write, pages: u32) -> io::Result<usize> {
    let mut lines = format!("{}\n", Event::Begin);
    lines.extend((0..pages).map(|page| format!("set 1 {page} 0 1\n")));
    out.write_all(lines.as_bytes())?;
    Ok(lines.len())
}

/// Transactions that hold slots of page 0: the first one by Sets, and the others by Adds to one more.
fn write_holders(out: &mut impl Write) -> io::Result<usize> {
    let mut lines = String::new();
    for transaction in 1..=HOLDERS {
        lines += &format!("{}\n", Event::Begin);
        match transaction {
            1 => lines.extend((0..SLOTS - 1).map(|slot| format!("set 1 0 {slot} 1\n"))),
            _ => lines += &format!("add {transaction} 0 {} 1\n", SLOTS - 1),
        }
    }
    out.write_all(lines.as_bytes())?;
    Ok(lines.len())
}

/// A transaction changes each page that is added, one after another. Once there are no more, the pages are read.
fn growth_line(turn: u32, pages: u32) -> String {
    let last = pages + turn.div_ceil(2);
    match turn {
        0 => format!("{}\n", Event::Begin),
        _ if last > MOST_PAGES => format!("read {} 0\n", turn % MOST_PAGES),
        _ if turn % 2 == 1 => format!("{}\n", Event::Extend(last)),
        _ => format!("set 1 {} 0 1\n", last - 1),
    }
}

fn refused_line(random: &mut Random, pages: u32) -> String {
    let transaction = 2 + random.below(u64::from(HOLDERS) - 1);
    let slot = random.below(SLOTS as u64 - 1);
    let page = random.below(u64::from(pages));
    let last_slot = SLOTS - 1;
    match random.below(12) {
        0 => format!("set {transaction} 0 {slot} 5\n"),
        1 => format!("add {transaction} 0 {slot} 5\n"),
        2 | 3 => format!("set {transaction} 0 {last_slot} 5\n"),
        4 => format!("set {transaction} {} 0 5\n", pages),
        5 => format!("read {page} {SLOTS}\n"),
        6 => format!("undo {transaction}\n"),
        7 => format!("commit {}\n", transaction + 100),
        8 => format!("wend {page}\n"),
        9 => "endckpt\n".to_string(),
        10 => format!("take 1 {page}\n"),
        _ => "full\n".to_string(),
    }
}
