//! Reads a job text from standard input and writes its answer lines to
//! standard output.

use std::io::{self, Read, Write};
use std::process::ExitCode;

use reference::{answer, SLOTPLAN_PLACES, TEXT_LIMIT};

fn run() -> io::Result<()> {
    // One byte over the limit is enough to know that the text is too long.
    let mut text = Vec::new();
    io::stdin()
        .lock()
        .take(TEXT_LIMIT as u64 + 1)
        .read_to_end(&mut text)?;

    let mut out = io::stdout().lock();
    out.write_all(&answer(&text, SLOTPLAN_PLACES))?;
    out.flush()
}

fn main() -> ExitCode {
    match run() {
        Ok(()) => ExitCode::SUCCESS,
        Err(error) => {
            eprintln!("reference: {error}");
            ExitCode::FAILURE
        }
    }
}
