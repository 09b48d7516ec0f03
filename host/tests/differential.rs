//! Plain against lean: many streams, long ones with wrapped tickets, damaged
//! and unusual states.

use host::call::{Answer, Coordinator};
use host::compare;
use host::lean::Lean;
use host::plain::Plain;
use host::random::Random;
use host::records;
use host::streams::{Parameters, Stream};

#[test]
fn plain_and_lean_agree_on_streams() {
    let mut random = Random::new(2026);
    let mut records = 0;
    while records < 300_000 {
        let parameters = compare::draw(&mut random, usize::MAX);
        records += parameters.records;
        compare::stream::<Plain, Lean>(&parameters).unwrap();
    }
}

/// Tickets wrap past those of jobs that stay open all the while.
#[test]
fn plain_and_lean_agree_past_the_wrap() {
    let parameters = Parameters {
        records: 400_000,
        greatest_width: 1,
        databases: 3,
        jobs: 3,
        kept: 2,
        bad: 10,
        ..Parameters::default()
    };
    let mut plain = Plain::fresh(0);
    let mut given = 0u64;
    for (record, answer) in Stream::<Lean>::new(&parameters) {
        assert_eq!(records::play(&mut plain, record), answer);
        given += u64::from(matches!(answer, Answer::Opened { .. }));
    }
    assert!(given > 70_000, "only {given} tickets were given out");
}

/// The tickets closed, which the rows of the other tests only count.
#[test]
fn plain_and_lean_close_in_the_same_order() {
    let mut random = Random::new(7);
    let mut longest = 0;
    for _ in 0..40 {
        let parameters = compare::draw(&mut random, 3_000);
        let mut plain = Plain::fresh(parameters.candidate);
        for (record, answer) in Stream::<Lean>::new(&parameters) {
            assert_eq!(records::play(&mut plain, record), answer, "{parameters:?}");
            if let Answer::Closed(tickets) = answer {
                longest = longest.max(tickets.as_slice().len());
            }
        }
    }
    assert!(longest > 8, "the longest cascade closed {longest}");
}

#[test]
fn plain_and_lean_agree_on_damaged_states() {
    let (unsound, accepted) = compare::damaged::<Plain, Lean>(99, 6_000).unwrap();
    assert!(unsound > 5_000 && accepted > 5_000, "{unsound} unsound, {accepted} accepted");
}

/// Every refusal of the table and every call's answers occur in a stream.
#[test]
fn streams_meet_every_row() {
    let parameters = Parameters { jobs: 33, databases: 4, ..Parameters::default() };
    let mut refusals = [0; 12];
    let mut held = 0;
    let mut cascades = 0;
    for (_, answer) in Stream::<Lean>::new(&parameters) {
        match answer {
            Answer::Refused(number) => refusals[usize::from(number)] += 1,
            Answer::Asked { released: false } => held += 1,
            Answer::Closed(tickets) => cascades += usize::from(tickets.as_slice().len() > 1),
            _ => {}
        }
    }
    let met = [1, 2, 3, 4, 5, 6, 7, 8, 9, 11].iter().all(|&number| refusals[number] > 50);
    assert!(met && refusals[10] == 0, "{refusals:?}");
    assert!(held > 1000 && cascades > 1000, "{held} held, {cascades} cascades");
}
