//! How long something takes: the least of several rounds, as what disturbs a
//! measurement only ever adds to it.

use crate::work::Work;
use host::compare::{Player, Record, Row};
use host::layout::Bytes;
use host::lean::Lean;
use host::plain::Plain;
use std::hint::black_box;
use std::time::Instant;

pub struct Implementation {
    pub name: &'static str,
    pub play: fn(&mut Bytes, &[Record]) -> Vec<Row>,
    /// How many times fewer repetitions it gets, for being slow.
    pub slow: usize,
}

fn implementation<P: Player>(slow: usize) -> Implementation {
    Implementation { name: P::NAME, play: P::play, slow }
}

/// What is compared, the slowest first and the library, if it is linked, last: by
/// stretches of records, for which it tests the state once, and one by one.
pub fn implementations() -> Vec<Implementation> {
    let all = vec![implementation::<Plain>(50), implementation::<Lean>(1)];
    #[cfg(library_linked)]
    let all = {
        let mut all = all;
        all.push(implementation::<host::library::Library>(1));
        all.push(implementation::<host::library::OneByOne>(1));
        all
    };
    all
}

/// Rounds of short measurements; a slow implementation takes part in every
/// tenth of them.
const ROUNDS: usize = 60;

pub fn seconds(run: impl FnOnce()) -> f64 {
    let begun = Instant::now();
    run();
    begun.elapsed().as_secs_f64()
}

fn takes_part(implementation: &Implementation, round: usize) -> bool {
    round.is_multiple_of(10) || implementation.slow == 1
}

/// Seconds that each implementation takes to play each piece of work once,
/// without what handing the state over takes. All of them take turns, so that
/// they meet the same disturbances.
pub fn once(implementations: &[Implementation], works: &[Work]) -> Vec<Vec<f64>> {
    let endless = || vec![vec![f64::INFINITY; implementations.len()]; works.len()];
    let (mut handing_over, mut whole) = (endless(), endless());
    for round in 0..ROUNDS {
        for (at, work) in works.iter().enumerate() {
            for (place, one) in implementations.iter().enumerate() {
                if takes_part(one, round) {
                    let least =
                        |known: &mut f64, records| *known = known.min(taken(one, work, records));
                    least(&mut handing_over[at][place], &[]);
                    least(&mut whole[at][place], &work.records);
                }
            }
        }
    }
    let difference = |(whole, handing): (&f64, &f64)| (whole - handing).max(0.0);
    let rows = whole.iter().zip(&handing_over);
    rows.map(|(whole, handing)| whole.iter().zip(handing).map(difference).collect()).collect()
}

/// Seconds for one play of the records from the work's state, over so many that
/// the clock is fine enough and so few that it is seldom disturbed.
fn taken(implementation: &Implementation, work: &Work, records: &[Record]) -> f64 {
    let times = (2000 / work.records.len() / implementation.slow).clamp(1, 100);
    let all = seconds(|| {
        for _ in 0..times {
            let mut state = work.state;
            black_box((implementation.play)(black_box(&mut state), black_box(records)));
            black_box(&state);
        }
    });
    all / times as f64
}

/// Nanoseconds that each implementation takes for a record of each work.
pub fn each(implementations: &[Implementation], works: &[Work]) -> Vec<Vec<f64>> {
    let mut all = once(implementations, works);
    for (row, work) in all.iter_mut().zip(works) {
        row.iter_mut().for_each(|cost| *cost *= 1e9 / work.records.len() as f64);
    }
    all
}

/// Nanoseconds for each record of a long stream, for every piece of it and each
/// implementation; the state goes on through the whole stream.
pub fn stream(
    implementations: &[Implementation],
    records: &[Record],
    pieces: usize,
) -> Vec<Vec<f64>> {
    let mut all = vec![Vec::new(); pieces];
    for (number, all) in all.iter_mut().enumerate() {
        for one in implementations {
            let length = records.len() / one.slow / pieces;
            all.push(parts_of(number * length, length));
        }
    }
    for _ in 0..ROUNDS / 5 {
        for (place, one) in implementations.iter().enumerate() {
            let mut state = [0; host::layout::SIZE];
            let parts = all.iter_mut().flat_map(|costs| &mut costs[place]);
            parts.for_each(|part| part.measure(one, &mut state, records));
        }
    }
    let mean = |parts: &Vec<Part>| {
        let count: usize = parts.iter().map(|part| part.length).sum();
        parts.iter().map(|part| part.least).sum::<f64>() * 1e9 / count as f64
    };
    all.iter().map(|costs| costs.iter().map(mean).collect()).collect()
}

/// A few records of a stream, with the least time that they have taken.
#[derive(Clone)]
struct Part {
    start: usize,
    length: usize,
    least: f64,
}

impl Part {
    fn measure(&mut self, one: &Implementation, state: &mut Bytes, records: &[Record]) {
        let part = &records[self.start..][..self.length];
        let taken = seconds(|| drop(black_box((one.play)(state, part))));
        self.least = self.least.min(taken);
    }
}

fn parts_of(start: usize, length: usize) -> Vec<Part> {
    let starts = (start..start + length).step_by(2000);
    let part =
        |at: usize| Part { start: at, length: 2000.min(start + length - at), least: f64::INFINITY };
    starts.map(part).collect()
}
