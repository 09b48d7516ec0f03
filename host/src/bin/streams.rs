//! Writes a stream of records to standard output, with its parameters given as
//! arguments: `streams --records 1000000 --seed 7 --databases 4 --jobs 40`.

use host::arguments::{self, Arguments};
use host::lean::Lean;
use std::io::Write;
use std::process::ExitCode;

fn main() -> ExitCode {
    let outcome = Arguments::read(&arguments::STREAM)
        .and_then(|given| arguments::stream(&given))
        .map(|parameters| host::streams::bytes::<Lean>(&parameters))
        .and_then(|bytes| std::io::stdout().write_all(&bytes).map_err(|error| error.to_string()));
    match outcome {
        Ok(()) => ExitCode::SUCCESS,
        Err(message) => {
            eprintln!("{message}");
            ExitCode::FAILURE
        }
    }
}
