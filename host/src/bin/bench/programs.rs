//! Whole programs over the same stream: records from standard input, a line for
//! each to standard output.

use crate::measure;
use crate::report::Report;
use host::compare::Record;
use std::fs::File;
use std::path::Path;
use std::process::{Command, Stdio};

pub fn all(report: &mut Report, programs: &[&str], stream: &[Record]) -> Result<(), String> {
    if programs.is_empty() {
        return Ok(());
    }
    let named = |program: &&str| {
        program.split_once('=').map(|(name, path)| (name.to_string(), path.to_string()))
    };
    let programs: Vec<(String, String)> =
        programs.iter().map(named).collect::<Option<_>>().ok_or("--program takes NAME=PATH")?;
    let input = std::env::temp_dir().join(format!("host-bench-{}", std::process::id()));
    std::fs::write(&input, stream.as_flattened()).map_err(|error| error.to_string())?;
    let mut failed: Result<(), String> = Ok(());
    let mut least = vec![f64::INFINITY; programs.len()];
    for _ in 0..15 {
        for ((_, path), least) in programs.iter().zip(&mut least) {
            let taken = measure::seconds(|| failed = failed.clone().and(run(path, &input)));
            *least = least.min(taken);
        }
    }
    std::fs::remove_file(&input).map_err(|error| error.to_string())?;
    failed?;
    println!("\nWhole programs over the same {} records", stream.len());
    for ((name, _), seconds) in programs.iter().zip(least) {
        report.single("program", "whole", name, seconds * 1e3, "ms");
    }
    Ok(())
}

fn run(path: &str, input: &Path) -> Result<(), String> {
    let input = File::open(input).map_err(|error| error.to_string())?;
    let status = Command::new(path).stdin(input).stdout(Stdio::null()).status();
    match status {
        Ok(status) if status.success() => Ok(()),
        Ok(status) => Err(format!("{path}: {status}")),
        Err(error) => Err(format!("{path}: {error}")),
    }
}
