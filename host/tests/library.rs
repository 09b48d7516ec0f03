//! The proved library against the plain implementation, where it is linked.
#![cfg(library_linked)]

use host::call::Coordinator;
use host::compare;
use host::layout::SIZE;
use host::library::{self, Library, SingleCalls};
use host::plain::Plain;
use host::random::Random;

#[test]
fn library_and_plain_agree_on_streams() {
    let mut random = Random::new(2027);
    let mut records = 0;
    while records < 300_000 {
        let parameters = compare::draw(&mut random, usize::MAX);
        records += parameters.records;
        compare::stream::<Library, Plain>(&parameters).unwrap();
    }
}

#[test]
fn library_and_plain_agree_on_damaged_states() {
    compare::damaged::<Library, Plain>(100, 6_000).unwrap();
}

#[test]
fn library_refuses_wrong_lengths() {
    library::refuses_wrong_lengths().unwrap();
}

#[test]
fn library_is_the_same_call_by_call() {
    let mut random = Random::new(2028);
    let mut records = 0;
    while records < 100_000 {
        let parameters = compare::draw(&mut random, usize::MAX);
        records += parameters.records;
        compare::stream::<SingleCalls, Library>(&parameters).unwrap();
    }
    compare::damaged::<SingleCalls, Library>(101, 2_000).unwrap();
}

#[test]
fn library_starts_fresh_over_anything() {
    for first in [0, 1, 255, 256, 65_535] {
        let mut state = [0x5a; SIZE];
        assert_eq!(library::fresh(&mut state, first), 0);
        assert_eq!(state, Plain::fresh(first).to_bytes());
    }
}
