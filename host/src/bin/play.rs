//! Document 01's program over one of the implementations here: records from
//! standard input, a line for each. `play plain` or `play lean`.

use host::lean::Lean;
use host::plain::Plain;
use host::records;
use std::io::{Read, Write};
use std::process::ExitCode;

fn main() -> ExitCode {
    let program: fn(&[u8]) -> Vec<u8> = match std::env::args().nth(1).as_deref() {
        Some("plain") => records::program::<Plain>,
        Some("lean") => records::program::<Lean>,
        _ => {
            eprintln!("play plain, or play lean");
            return ExitCode::FAILURE;
        }
    };
    let mut input = Vec::new();
    let outcome = std::io::stdin()
        .read_to_end(&mut input)
        .and_then(|_| std::io::stdout().write_all(&program(&input)));
    match outcome {
        Ok(()) => ExitCode::SUCCESS,
        Err(error) => {
            eprintln!("{error}");
            ExitCode::FAILURE
        }
    }
}
