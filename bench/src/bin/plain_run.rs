//! `plain_run run --pages N [--frames B] < script > replies` does what `imgcopy run` does, but for files and a last
//! `restore`, in plain Rust.

use bench::engine::Engine;
use bench::replies::write_line;
use bench::script::{Event, Line, Lines, LONGEST_SCRIPT};
use bench::{fill, MOST_PAGES};
use std::fs::File;
use std::io::{self, Write};
use std::os::fd::AsFd;
use std::process::ExitCode;

/// How much of the script is read at a time.
const PIECE: usize = 1 << 17;

/// How many events are read before they are played.
const AHEAD: usize = 32;

fn main() -> ExitCode {
    let words: Vec<String> = std::env::args().skip(1).collect();
    let Some((page_count, frames)) = counts_of(&words) else {
        eprintln!("usage: plain_run run --pages N [--frames B] < script > replies");
        return ExitCode::from(1);
    };
    match run(page_count, frames) {
        Ok(None) => ExitCode::SUCCESS,
        Ok(Some(fault)) => {
            eprintln!("imgcopy: {fault}");
            ExitCode::from(2)
        }
        Err(error) => {
            eprintln!("plain_run: {error}");
            ExitCode::from(1)
        }
    }
}

/// How many pages the volume has, and how many of them may be in memory at a time.
fn counts_of(words: &[String]) -> Option<(u32, u32)> {
    let words: Vec<&str> = words.iter().map(String::as_str).collect();
    match words.as_slice() {
        ["run", "--pages", pages] => Some((count_of(pages)?, MOST_PAGES)),
        ["run", "--pages", pages, "--frames", frames] => {
            Some((count_of(pages)?, count_of(frames)?))
        }
        _ => None,
    }
}

fn count_of(word: &str) -> Option<u32> {
    let count = word.parse().ok()?;
    (1..=MOST_PAGES).contains(&count).then_some(count)
}

/// Gives what is wrong with the script, if anything is. Each event is played as it is read. The replies go out at the end,
/// as there are none of a script with a bad line.
fn run(page_count: u32, frames: u32) -> io::Result<Option<String>> {
    let mut script = File::from(io::stdin().as_fd().try_clone_to_owned()?);
    let mut player = Player::new(page_count, frames);
    let (mut text, mut kept, mut size) = (Vec::new(), 0, 0);
    loop {
        // What is left of a line stays in front; a line that fills it all has it grow.
        text.resize(kept + PIECE, 0);
        let count = fill(&mut script, &mut text[kept..])?;
        size += count;
        if size > LONGEST_SCRIPT {
            return Ok(Some("input".to_string()));
        }
        let mut end = kept + count;
        let is_last = count < PIECE;
        if is_last {
            text.truncate(end);
            text.push(b'\n');
            end += 1;
        }
        let last = text[..end].iter().rposition(|byte| *byte == b'\n');
        let whole = last.map_or(0, |last| last + 1);
        if !player.play_lines(&text[..whole]) {
            return Ok(Some("input".to_string()));
        }
        if is_last {
            break;
        }
        text.copy_within(whole..end, 0);
        kept = end - whole;
    }
    if let Some(line) = player.bad_line {
        return Ok(Some(format!("line {line}")));
    }
    let mut out = File::from(io::stdout().as_fd().try_clone_to_owned()?);
    out.write_all(&player.replies)?;
    Ok(None)
}

struct Player {
    engine: Engine,
    replies: Vec<u8>,
    line: usize,
    bad_line: Option<usize>,
}

impl Player {
    fn new(page_count: u32, frames: u32) -> Player {
        Player {
            engine: Engine::new(page_count, frames),
            // as much as any replies may be; the system gives what is written of it
            replies: Vec::with_capacity(8 * LONGEST_SCRIPT),
            line: 0,
            bad_line: None,
        }
    }

    /// Plays these lines, but none behind a bad one. Gives false if they are no text.
    fn play_lines(&mut self, text: &[u8]) -> bool {
        let mut lines = Lines { text, at: 0 };
        let mut events = [Event::Force; AHEAD];
        loop {
            let mut count = 0;
            while count < AHEAD {
                let Some((line, bytes)) = lines.next_line() else {
                    break;
                };
                self.line += 1;
                match line {
                    Line::Event(event) => {
                        events[count] = event;
                        count += 1;
                    }
                    _ if std::str::from_utf8(bytes).is_err() => return false,
                    Line::Bad => self.bad_line = self.bad_line.or(Some(self.line)),
                    Line::Nothing => {}
                }
            }
            if count == 0 {
                return true;
            }
            if self.bad_line.is_none() {
                self.play(&events[..count]);
            }
        }
    }

    fn play(&mut self, events: &[Event]) {
        let looks = events.iter().map(|event| match event {
            Event::Change(_, _, page, slot, _) | Event::Read(page, slot) => {
                self.engine.look(*page, *slot)
            }
            _ => 0,
        });
        std::hint::black_box(looks.fold(0, |all, byte| all ^ byte));
        for event in events {
            write_line(&event.play(&mut self.engine), &mut self.replies);
        }
    }
}
