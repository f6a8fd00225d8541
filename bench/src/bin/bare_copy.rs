//! `bare_copy < input > output` copies its input by large reads and writes: the least that any program here takes.

use std::io::{self, ErrorKind, Read, Write};
use std::process::ExitCode;

const CHUNK_SIZE: usize = 1 << 20;

fn main() -> ExitCode {
    match copy(io::stdin().lock(), io::stdout().lock()) {
        Ok(()) => ExitCode::SUCCESS,
        Err(error) => {
            eprintln!("bare_copy: {error}");
            ExitCode::from(1)
        }
    }
}

fn copy(mut input: impl Read, mut output: impl Write) -> io::Result<()> {
    let mut chunk = vec![0; CHUNK_SIZE];
    loop {
        match input.read(&mut chunk) {
            Ok(0) => return output.flush(),
            Ok(count) => output.write_all(&chunk[..count])?,
            Err(error) if error.kind() == ErrorKind::Interrupted => {}
            Err(error) => return Err(error),
        }
    }
}
