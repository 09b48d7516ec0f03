//! Sets implementations against each other over as many records as you like:
//! `differential --records 10000000 --states 100000 --seed 1`. The library, if
//! it is linked, against the plain implementation; otherwise lean against plain.
//! Ends with status 1 at the first difference and prints how to meet it again.

use host::arguments::Arguments;
use host::compare::{self, Player};
use host::plain::Plain;
use host::random::Random;
use host::streams::Parameters;
use std::process::ExitCode;

struct Amounts {
    seed: u64,
    records: usize,
    states: usize,
}

fn main() -> ExitCode {
    match amounts().and_then(|amounts| all(&amounts)) {
        Ok(()) => ExitCode::SUCCESS,
        Err(message) => {
            println!("{message}");
            ExitCode::FAILURE
        }
    }
}

fn amounts() -> Result<Amounts, String> {
    let mut amounts = Amounts { seed: 1, records: 1_000_000, states: 10_000 };
    let given = Arguments::read(&["seed", "records", "states"])?;
    given.set("seed", &mut amounts.seed)?;
    given.set("records", &mut amounts.records)?;
    given.set("states", &mut amounts.states)?;
    Ok(amounts)
}

#[cfg(library_linked)]
fn all(amounts: &Amounts) -> Result<(), String> {
    use host::library::{self, Library};
    library::refuses_wrong_lengths()?;
    pair::<Library, Plain>(amounts)
}

#[cfg(not(library_linked))]
fn all(amounts: &Amounts) -> Result<(), String> {
    use host::lean::Lean;
    println!("the library is not linked (HOST_LIB names its folder)");
    pair::<Lean, Plain>(amounts)
}

fn pair<A: Player, B: Player>(amounts: &Amounts) -> Result<(), String> {
    let mut random = Random::new(amounts.seed);
    let mut records = 0;
    let mut streams = 0;
    // One stream is long enough to wrap its tickets, if there is room for it.
    let long = wrapping(amounts);
    if long.records > 300_000 {
        compare::stream::<A, B>(&long)?;
        (records, streams) = (long.records, 1);
    }
    while records < amounts.records {
        let parameters = compare::draw(&mut random, amounts.records - records);
        compare::stream::<A, B>(&parameters)?;
        records += parameters.records;
        streams += 1;
    }
    println!("{} and {}: {records} records in {streams} streams, 0 differences", A::NAME, B::NAME);
    let (unsound, accepted) = compare::damaged::<A, B>(random.number(), amounts.states)?;
    println!(
        "{} and {}: {} calls on {} damaged or unusual states ({unsound} refused with 10, \
         {accepted} accepted), 0 differences",
        A::NAME,
        B::NAME,
        8 * amounts.states,
        amounts.states
    );
    Ok(())
}

fn wrapping(amounts: &Amounts) -> Parameters {
    Parameters {
        seed: amounts.seed,
        records: (amounts.records / 2).min(500_000),
        databases: 3,
        greatest_width: 1,
        jobs: 3,
        kept: 2,
        bad: 10,
        ..Parameters::default()
    }
}
