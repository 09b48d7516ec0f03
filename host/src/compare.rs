//! Sets one implementation against another: the same records from the same
//! state must give the same answers and leave the same state.

use crate::call::{Answer, Coordinator};
use crate::damage;
use crate::layout::Bytes;
use crate::lean::Lean;
use crate::random::Random;
use crate::records;
use crate::streams::{Parameters, Stream};

pub type Record = [u8; 4];

/// One answer as bytes, zeros where a call has nothing to say there: refusal u8,
/// released u8, closed u16, ticket u16, added u16, moves u16, six zeros, and the
/// tickets closed in order, 32 × u16.
pub type Row = [u8; 80];

pub fn row(answer: &Answer) -> Row {
    let mut refusal = 0;
    let (mut released, mut ticket, mut added, mut moves) = (0, 0, 0, 0);
    let mut closed = &[][..];
    match answer {
        Answer::Refused(number) => refusal = *number,
        Answer::Opened { ticket: given, added: some, moves: made } => {
            (ticket, added, moves) = (*given, *some, *made)
        }
        Answer::Asked { released: at_once } => released = u8::from(*at_once),
        Answer::Confirmed { released: Some(next) } => (released, ticket) = (1, *next),
        Answer::Confirmed { released: None } => {}
        Answer::Closed(tickets) => closed = tickets.as_slice(),
    }
    let mut row = [0; 80];
    row[0] = refusal;
    row[1] = released;
    let mut put = |at: usize, value: u16| row[at..at + 2].copy_from_slice(&value.to_le_bytes());
    put(2, closed.len() as u16);
    put(4, ticket);
    put(6, added);
    put(8, moves);
    closed.iter().enumerate().for_each(|(place, &value)| put(16 + 2 * place, value));
    row
}

/// Something that plays records from a state and leaves the next one there.
pub trait Player {
    const NAME: &'static str;

    fn play(state: &mut Bytes, records: &[Record]) -> Vec<Row>;
}

impl<C: Coordinator> Player for C {
    const NAME: &'static str = C::NAME;

    fn play(state: &mut Bytes, records: &[Record]) -> Vec<Row> {
        let mut inside = C::from_bytes(state);
        let play = |&record| row(&records::play(&mut inside, record));
        let rows = records.iter().map(play).collect();
        *state = inside.to_bytes();
        rows
    }
}

/// Play the records on both; the state left is left in `state`.
pub fn batch<A: Player, B: Player>(
    state: &mut Bytes,
    records: &[Record],
) -> Result<Vec<Row>, String> {
    let mut other = *state;
    let ours = A::play(state, records);
    let theirs = B::play(&mut other, records);
    if ours.len() != theirs.len() {
        return Err(format!("{}: {} answers, {}: {}", A::NAME, ours.len(), B::NAME, theirs.len()));
    }
    for (index, (one, two)) in ours.iter().zip(&theirs).enumerate() {
        if one != two {
            let record = records[index];
            let names = (A::NAME, B::NAME);
            return Err(format!(
                "record {index} {record:?}: {} {one:?}, {} {two:?}",
                names.0, names.1
            ));
        }
    }
    match state.iter().zip(&other).position(|(one, two)| one != two) {
        Some(byte) => Err(format!("{} and {} leave byte {byte} different", A::NAME, B::NAME)),
        None => Ok(ours),
    }
}

/// A stream, in pieces of any length, each from the state that the last left.
pub fn stream<A: Player, B: Player>(parameters: &Parameters) -> Result<(), String> {
    let mut random = Random::new(parameters.seed);
    let mut stream = Stream::<Lean>::new(parameters);
    let mut state = Lean::fresh(parameters.candidate).to_bytes();
    loop {
        let length = random.between(1, 1000);
        let records: Vec<Record> = stream.by_ref().take(length).map(|(record, _)| record).collect();
        if records.is_empty() {
            return Ok(());
        }
        batch::<A, B>(&mut state, &records).map_err(|error| format!("{error}\n{parameters:?}"))?;
    }
}

/// From each of `states` states, damaged or only unusual, eight calls one by one;
/// a refusal must leave every byte. Gives how many of the calls were refused
/// with 10 and how many were accepted.
pub fn damaged<A: Player, B: Player>(seed: u64, states: usize) -> Result<(usize, usize), String> {
    let mut random = Random::new(seed);
    let mut unsound = 0;
    let mut accepted = 0;
    for _ in 0..states {
        let mut state = unusual_state(&mut random);
        for _ in 0..8 {
            let record = likely_record(&mut random, &state);
            let given = state;
            let rows = batch::<A, B>(&mut state, &[record])
                .map_err(|error| format!("{error}\nseed {seed}, from the state {given:?}"))?;
            let refusal = rows[0][0];
            unsound += usize::from(refusal == 10);
            accepted += usize::from(refusal == 0);
            if refusal != 0 && state != given {
                return Err(format!("refusal {refusal} changed the state {given:?}"));
            }
        }
    }
    Ok((unsound, accepted))
}

/// A state from the middle of a stream or a sound one drawn at random; then
/// damaged, nudged, or left as it is.
fn unusual_state(random: &mut Random) -> Bytes {
    let mut state = if random.one_in(3) {
        let parameters = draw(random, 300);
        let mut stream = Stream::<Lean>::new(&parameters);
        stream.by_ref().for_each(drop);
        stream.state().to_bytes()
    } else {
        let (jobs, width) = (random.between(0, 32), *random.pick(&[1, 2, 4, 16]));
        damage::sound_state(random, jobs, width)
    };
    match random.under(4) {
        0 => damage::flip(random, &mut state),
        1 => damage::nudge(random, &mut state),
        2 => (0..random.between(1, 6)).for_each(|_| damage::nudge(random, &mut state)),
        _ => {}
    }
    state
}

/// A record whose ticket is mostly one that stands in the state.
fn likely_record(random: &mut Random, state: &Bytes) -> Record {
    let kind = if random.one_in(20) { random.byte() } else { random.between(1, 4) as u8 };
    let database = if random.one_in(20) { random.byte() } else { random.under(16) as u8 };
    let word = if kind == 1 || random.one_in(10) {
        random.word() & random.word()
    } else {
        crate::layout::get_u16(state, crate::layout::TICKETS + 2 * random.under(32))
    };
    let [low, high] = word.to_le_bytes();
    [kind, database, low, high]
}

/// Parameters of a stream of any kind, with at most `most` records: fewer where
/// the plain implementation takes long for each.
pub fn draw(random: &mut Random, most: usize) -> Parameters {
    let databases = random.between(1, 16);
    let greatest_width =
        if random.one_in(4) { databases } else { random.between(1, databases.min(4)) };
    let jobs = *random.pick(&[1, 2, 4, 8, 12, 20, 31, 33, 40]);
    let steps = jobs * greatest_width;
    Parameters {
        seed: random.number(),
        records: (40_000_000 / (steps * steps + 1)).clamp(200, 8_000).min(most),
        candidate: if random.one_in(2) { 0 } else { 65_535 - random.under(200) as u16 },
        databases,
        least_width: random.between(1, greatest_width),
        greatest_width,
        jobs,
        bad: *random.pick(&[0, 20, 100, 400]),
        noise: *random.pick(&[0, 5, 50]),
        kept: random.under(3),
        oldest: *random.pick(&[0, 200, 800]),
        left_over: 0,
    }
}
