//! Plays a script from standard input, as tcrun does.

use std::io::{self, Read, Write};
use std::process::ExitCode;

use tcmodel::{INPUT_MAX, Letters, play};

fn run() -> io::Result<()> {
    let mut input = Vec::with_capacity(INPUT_MAX + 1);
    io::stdin().lock().take(INPUT_MAX as u64).read_to_end(&mut input)?;
    let mut out = Vec::with_capacity(4 * input.len());
    play(&input, Letters::ALL, &mut out);
    io::stdout().lock().write_all(&out)
}

fn main() -> ExitCode {
    match run() {
        Ok(()) => ExitCode::SUCCESS,
        Err(e) => {
            eprintln!("tcmodel: {e}");
            ExitCode::FAILURE
        }
    }
}
