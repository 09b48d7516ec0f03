//! Document 01's program: 4-byte records in, a line of four numbers for each.

use crate::call::{Answer, Call, Coordinator};
use std::io::Write;

pub const UNKNOWN_KIND: u8 = 11;
pub const LEFT_OVER: u8 = 12;

/// "kind (1 open, 2 ask, 3 confirm, 4 close), database (not read for 1 and 4),
/// then two bytes, low first: mask for open, ticket otherwise". None is an
/// unknown kind.
#[inline]
pub fn read(record: [u8; 4]) -> Option<Call> {
    let [kind, database, low, high] = record;
    let word = u16::from_le_bytes([low, high]);
    match kind {
        1 => Some(Call::Open { mask: word }),
        2 => Some(Call::Ask { ticket: word, database }),
        3 => Some(Call::Confirm { ticket: word, database }),
        4 => Some(Call::Close { ticket: word }),
        _ => None,
    }
}

pub fn write(call: Call) -> [u8; 4] {
    let (kind, database, word) = match call {
        Call::Open { mask } => (1, 0, mask),
        Call::Ask { ticket, database } => (2, database, ticket),
        Call::Confirm { ticket, database } => (3, database, ticket),
        Call::Close { ticket } => (4, 0, ticket),
    };
    let [low, high] = word.to_le_bytes();
    [kind, database, low, high]
}

/// A record that is no call is refused without a look at the state: 11 is the
/// program's number and not a call's.
#[inline]
pub fn play<C: Coordinator>(state: &mut C, record: [u8; 4]) -> Answer {
    match read(record) {
        Some(call) => state.play(call),
        None => Answer::Refused(UNKNOWN_KIND),
    }
}

/// Refusal number or 0, first, second.
#[inline]
pub fn numbers(answer: &Answer) -> (u8, u16, u16) {
    match answer {
        Answer::Refused(number) => (*number, 0, 0),
        // "Open: ticket, moves."
        Answer::Opened { ticket, moves, .. } => (0, *ticket, *moves),
        // "Ask: 1 released or 0 held, then 0."
        Answer::Asked { released } => (0, u16::from(*released), 0),
        // "Confirm: 1 or 0 for whether one was released, then its ticket or 0."
        Answer::Confirmed { released: Some(ticket) } => (0, 1, *ticket),
        Answer::Confirmed { released: None } => (0, 0, 0),
        // "Close: how many jobs were closed (0 if held), then 0."
        Answer::Closed(tickets) => (0, tickets.as_slice().len() as u16, 0),
    }
}

/// The whole program: the text it prints for this input, from a plain fresh
/// start. "After any refusal the program goes on with the next record."
pub fn program<C: Coordinator>(input: &[u8]) -> Vec<u8> {
    let mut state = C::fresh(0);
    let mut text = Vec::with_capacity(input.len() * 4);
    let records = input.chunks_exact(4);
    let left_over = records.remainder();
    let mut index = 0usize;
    for record in records {
        let answer = play(&mut state, [record[0], record[1], record[2], record[3]]);
        line(&mut text, index, numbers(&answer));
        index += 1;
    }
    // "one to three bytes left at the end print 12 under the next index"
    if !left_over.is_empty() {
        line(&mut text, index, (LEFT_OVER, 0, 0));
    }
    text
}

fn line(text: &mut Vec<u8>, index: usize, (refusal, first, second): (u8, u16, u16)) {
    writeln!(text, "{index} {refusal} {first} {second}").expect("a vector takes every byte");
}
