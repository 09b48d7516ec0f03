//! How fast the implementations are, in one run: a table on standard output and,
//! with `--csv FILE`, the same numbers for `plot.py`.
//!
//! `--records N` sets the length of the mixed stream and `--seed N` its seed.
//! `--program NAME=PATH`, as often as you like, times whole programs that read
//! the stream's records and print its lines.

mod measure;
mod programs;
mod report;
mod work;

use host::arguments::Arguments;
use host::compare::Record;
use measure::Implementation;
use report::Report;
use std::process::ExitCode;
use work::Work;

fn main() -> ExitCode {
    match run() {
        Ok(()) => ExitCode::SUCCESS,
        Err(message) => {
            eprintln!("{message}");
            ExitCode::FAILURE
        }
    }
}

fn run() -> Result<(), String> {
    let given = Arguments::read(&["records", "seed", "csv", "program"])?;
    let (mut records, mut seed) = (1_000_000, 1);
    given.set("records", &mut records)?;
    given.set("seed", &mut seed)?;
    let implementations = measure::implementations();
    let names = implementations.iter().map(|one| one.name).collect();
    let mut report = Report::new(names);
    let stream = work::mixed(records.max(1000), seed);
    long_stream(&mut report, &implementations, &stream);
    kinds(&mut report, &implementations, seed);
    openings(&mut report, &implementations, seed);
    jobs(&mut report, &implementations);
    programs::all(&mut report, &given.all("program"), &stream)?;
    if let Some(file) = given.last("csv") {
        std::fs::write(file, report.csv()).map_err(|error| format!("{file}: {error}"))?;
    }
    Ok(())
}

/// Calls per second, their ratios, and the cost of a call as the history grows.
fn long_stream(report: &mut Report, implementations: &[Implementation], stream: &[Record]) {
    let pieces = 10;
    let costs = measure::stream(implementations, stream, pieces);
    let mean = |place: usize| costs.iter().map(|costs| costs[place]).sum::<f64>() / pieces as f64;
    let means: Vec<f64> = (0..implementations.len()).map(mean).collect();
    report.title(&format!("A stream of {} mixed records", stream.len()));
    let calls: Vec<f64> = means.iter().map(|nanoseconds| 1e9 / nanoseconds).collect();
    report.row("stream", "calls", &calls, "per second");
    report.row("stream", "a call", &means, "ns");
    for (place, one) in implementations.iter().enumerate() {
        let ratios: Vec<f64> = means.iter().map(|mean| mean / means[place]).collect();
        report.row("stream", &format!("time against {}", one.name), &ratios, "times");
    }
    report.title("A call after so many records (plain: a fiftieth of them)");
    for (number, costs) in costs.iter().enumerate() {
        let after = stream.len() / pieces * number;
        report.row("history", &after.to_string(), costs, "ns");
    }
}

fn kinds(report: &mut Report, implementations: &[Implementation], seed: u64) {
    report.title("Each kind of call, up to 16 jobs at 8 databases");
    let works = work::kinds(seed);
    for (work, costs) in works.iter().zip(measure::each(implementations, &works)) {
        report.row("kind", &work.name, &costs, "ns");
    }
}

fn openings(report: &mut Report, implementations: &[Implementation], seed: u64) {
    let (openings, moves) = work::openings(seed);
    let refused: Vec<Work> = openings.iter().map(work::refused).collect();
    let whole = measure::once(implementations, &openings);
    let refused = measure::once(implementations, &refused);
    for (at, opening) in openings.iter().enumerate() {
        report.title(&format!("An opening beside {}, {} moves", opening.name, moves[at]));
        let microseconds: Vec<f64> = whole[at].iter().map(|seconds| seconds * 1e6).collect();
        report.row("opening", &opening.name, &microseconds, "us");
        let search = whole[at].iter().zip(&refused[at]).map(|(whole, refused)| whole - refused);
        let each: Vec<f64> = search.map(|seconds| seconds * 1e9 / f64::from(moves[at])).collect();
        let speed: Vec<f64> = each.iter().map(|nanoseconds| 1e3 / nanoseconds).collect();
        report.row("move", &opening.name, &each, "ns a move");
        report.row("moves", &opening.name, &speed, "million moves per second");
    }
}

fn jobs(report: &mut Report, implementations: &[Implementation]) {
    report.title("A call with so many jobs open");
    let works: Vec<Work> = [1, 8, 16, 32].into_iter().map(work::rounds).collect();
    for (work, costs) in works.iter().zip(measure::each(implementations, &works)) {
        report.row("jobs", &work.name, &costs, "ns");
    }
}
