//! The proved library behind its C boundary, as `unkenlaterne.h` declares it.

use crate::compare::{Player, Record, Row};
use crate::layout::{Bytes, SIZE};

extern "C" {
    /// Plays whole records from the state and writes eighty bytes for each to the
    /// answers, and the state left over the one given. Gives 0, or a refusal of
    /// wrong lengths after which nothing is written.
    fn play_records(
        state: *mut u8,
        state_len: usize,
        records: *const u8,
        records_len: usize,
        answers: *mut u8,
        answers_len: usize,
    ) -> u8;

    fn fresh_state(state: *mut u8, state_len: usize, first: u16) -> u8;

    fn open_job(state: *mut u8, state_len: usize, mask: u16, answer: *mut u8, len: usize) -> u8;

    fn ask_step(
        state: *mut u8,
        state_len: usize,
        ticket: u16,
        database: u8,
        answer: *mut u8,
        answer_len: usize,
    ) -> u8;

    fn confirm_step(
        state: *mut u8,
        state_len: usize,
        ticket: u16,
        database: u8,
        answer: *mut u8,
        answer_len: usize,
    ) -> u8;

    fn close_job(state: *mut u8, state_len: usize, ticket: u16, answer: *mut u8, len: usize) -> u8;

    fn most_moves(state: *const u8, state_len: usize) -> u32;
}

/// The library, by many records in one call, by records in a call each, and by the
/// function for each kind of call.
pub struct Library;
pub struct OneByOne;
pub struct SingleCalls;

/// The call itself, with any lengths. Gives what the library gives.
pub fn play(state: &mut [u8], records: &[u8], answers: &mut [u8]) -> u8 {
    // The three slices are valid for their lengths and do not overlap, as two of
    // them are lent for change.
    unsafe {
        play_records(
            state.as_mut_ptr(),
            state.len(),
            records.as_ptr(),
            records.len(),
            answers.as_mut_ptr(),
            answers.len(),
        )
    }
}

/// One call by the library's function for it; None where no function has that kind.
fn call(state: &mut [u8], record: Record, answer: &mut [u8]) -> Option<u8> {
    let [kind, database, low, high] = record;
    let (from, from_len, word) = (state.as_mut_ptr(), state.len(), u16::from_le_bytes([low, high]));
    let (to, to_len) = (answer.as_mut_ptr(), answer.len());
    // As in `play`.
    unsafe {
        match kind {
            1 => Some(open_job(from, from_len, word, to, to_len)),
            2 => Some(ask_step(from, from_len, word, database, to, to_len)),
            3 => Some(confirm_step(from, from_len, word, database, to, to_len)),
            4 => Some(close_job(from, from_len, word, to, to_len)),
            _ => None,
        }
    }
}

/// A fresh start; what the library gives.
pub fn fresh(state: &mut [u8], first: u16) -> u8 {
    unsafe { fresh_state(state.as_mut_ptr(), state.len(), first) }
}

/// How many moves the next opening can make at most.
pub fn moves_at_most(state: &[u8]) -> u32 {
    unsafe { most_moves(state.as_ptr(), state.len()) }
}

impl Player for Library {
    const NAME: &'static str = "library";

    fn play(state: &mut Bytes, records: &[Record]) -> Vec<Row> {
        let mut rows = vec![[0; 80]; records.len()];
        let refused = play(state, records.as_flattened(), rows.as_flattened_mut());
        assert_eq!(refused, 0, "the lengths are right");
        rows
    }
}

/// Every record decodes the state, tests it, and encodes it again.
impl Player for OneByOne {
    const NAME: &'static str = "one by one";

    fn play(state: &mut Bytes, records: &[Record]) -> Vec<Row> {
        records.iter().map(|&record| Library::play(state, &[record])[0]).collect()
    }
}

impl Player for SingleCalls {
    const NAME: &'static str = "library, call by call";

    fn play(state: &mut Bytes, records: &[Record]) -> Vec<Row> {
        let one = |&record: &Record| {
            let mut row = [0xa5; 80];
            let most = moves_at_most(state);
            match call(state, record, &mut row) {
                Some(refused) => assert_eq!(refused, 0, "the lengths are right"),
                None => row = Library::play(state, &[record])[0],
            }
            let moves = u16::from_le_bytes([row[8], row[9]]);
            assert!(u32::from(moves) <= most, "{moves} moves where {most} are the most");
            row
        };
        records.iter().map(one).collect()
    }
}

/// Wrong lengths must be refused with 10, and nothing written.
pub fn refuses_wrong_lengths() -> Result<(), String> {
    let lengths = [0, 1, SIZE - 1, SIZE, SIZE + 1];
    for state in lengths {
        for records in 0..=9 {
            for answers in [0, 1, 79, 80, 81, 159, 160, 161, 240] {
                let right = state == SIZE && records % 4 == 0 && answers == records / 4 * 80;
                refuses((state, records, answers), right)?;
            }
        }
    }
    Ok(())
}

/// All functions, with slices of these lengths.
fn refuses(lengths: (usize, usize, usize), right: bool) -> Result<(), String> {
    let records: Vec<u8> = [1, 0, 3, 0].into_iter().cycle().take(lengths.1).collect();
    let one = lengths.0 == SIZE && lengths.2 == 80;
    let mut all: Vec<(bool, Box<dyn Fn(&mut [u8], &mut [u8]) -> u8>)> =
        vec![(right, Box::new(|state, answers| play(state, &records, answers)))];
    for kind in 1..=4 {
        let record = [kind, 1, 2, 0];
        let call = move |state: &mut [u8], answers: &mut [u8]| call(state, record, answers);
        all.push((one, Box::new(move |state, answers| call(state, answers).expect("a kind"))));
    }
    all.push((lengths.0 == SIZE, Box::new(|state, _| fresh(state, 7))));
    for (place, (right, function)) in all.iter().enumerate() {
        let (mut state, mut answers) = (vec![0; lengths.0], vec![0xa5; lengths.2]);
        let code = function(&mut state, &mut answers);
        let untouched =
            state.iter().all(|&byte| byte == 0) && answers.iter().all(|&byte| byte == 0xa5);
        if code != if *right { 0 } else { 10 } || !right && !untouched {
            return Err(format!("function {place}, lengths {lengths:?}: {code}, {untouched}"));
        }
    }
    let bound = moves_at_most(&vec![0; lengths.0]);
    if bound != if lengths.0 == SIZE { 0 } else { u32::MAX } {
        return Err(format!("most moves of {} bytes: {bound}", lengths.0));
    }
    Ok(())
}
