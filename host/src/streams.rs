//! Streams of records that keep a coordinator busy. The generator is a client:
//! it plays what it writes through a coordinator and remembers the answers, so
//! that it knows which tickets are open and what each call would be good for.

mod bad;
mod client;

use crate::call::{Answer, Call, Coordinator};
use crate::random::Random;
use crate::records;
use client::Client;

/// What a stream is like. Shares are of a thousand.
#[derive(Clone, Debug)]
pub struct Parameters {
    pub seed: u64,
    /// Whole records in the stream.
    pub records: usize,
    /// The first candidate of the fresh start; document 01's program takes 0.
    pub candidate: u16,
    /// How many databases are used: fewer is more contention.
    pub databases: usize,
    /// How many databases a job names, at least and at most.
    pub least_width: usize,
    pub greatest_width: usize,
    /// How many open jobs the client keeps up; over 32 it meets full tables.
    pub jobs: usize,
    /// Share of calls that are to be refused.
    pub bad: usize,
    /// Share of records that are bytes without meaning.
    pub noise: usize,
    /// Jobs on one database each that are opened first and left alone as long as
    /// there is other work, so that tickets wrap past theirs.
    pub kept: usize,
    /// Share of accepted calls that go to the oldest work first and not to any.
    pub oldest: usize,
    /// Bytes after the last whole record, 0 to 3.
    pub left_over: usize,
}

impl Default for Parameters {
    fn default() -> Parameters {
        Parameters {
            seed: 1,
            records: 100_000,
            candidate: 0,
            databases: 16,
            least_width: 1,
            greatest_width: 4,
            jobs: 12,
            bad: 50,
            noise: 5,
            kept: 0,
            oldest: 300,
            left_over: 0,
        }
    }
}

/// A stream under way: each item is a record with the answer that the
/// coordinator inside gave to it.
pub struct Stream<C> {
    parameters: Parameters,
    random: Random,
    /// The databases used, any of the sixteen.
    databases: Vec<u8>,
    client: Client<C>,
    left: usize,
}

impl<C: Coordinator> Stream<C> {
    pub fn new(parameters: &Parameters) -> Stream<C> {
        let mut random = Random::new(parameters.seed);
        let mut databases: Vec<u8> = (0..16).collect();
        for place in (1..databases.len()).rev() {
            databases.swap(place, random.under(place + 1));
        }
        databases.truncate(parameters.databases.clamp(1, 16));
        Stream {
            parameters: parameters.clone(),
            random,
            databases,
            client: Client::new(C::fresh(parameters.candidate)),
            left: parameters.records,
        }
    }

    pub fn state(&self) -> &C {
        &self.client.state
    }

    fn record(&mut self) -> [u8; 4] {
        if self.random.per_mille(self.parameters.noise) {
            return self.noise();
        }
        let call = if self.random.per_mille(self.parameters.bad) {
            bad::call(&mut self.random, &self.client, &self.databases)
        } else {
            self.good()
        };
        self.with_any_unread_byte(records::write(call))
    }

    /// Kinds 0 to 5, so that most of these are calls, at any ticket or mask.
    fn noise(&mut self) -> [u8; 4] {
        let kind =
            if self.random.one_in(4) { self.random.byte() } else { self.random.under(6) as u8 };
        [kind, self.random.byte(), self.random.byte(), self.random.byte()]
    }

    /// "database (not read for 1 and 4)": any byte may stand there.
    fn with_any_unread_byte(&mut self, record: [u8; 4]) -> [u8; 4] {
        let [kind, database, low, high] = record;
        let unread = matches!(kind, 1 | 4) && self.random.one_in(4);
        [kind, if unread { self.random.byte() } else { database }, low, high]
    }

    /// A call that is accepted, if there is one to make.
    fn good(&mut self) -> Call {
        let open = self.client.jobs.len();
        let wanted = self.parameters.jobs + self.parameters.kept;
        if open < wanted && (open == 0 || self.random.one_in(4)) {
            return self.opening();
        }
        let oldest = self.random.per_mille(self.parameters.oldest);
        let kept = self.parameters.kept;
        match self.client.work(&mut self.random, oldest, kept) {
            Some(call) => call,
            None if open < wanted.min(32) => self.opening(),
            None => self.client.work(&mut self.random, true, 0).unwrap_or(Call::Open { mask: 1 }),
        }
    }

    fn opening(&mut self) -> Call {
        let most = self.databases.len();
        let least = self.parameters.least_width.clamp(1, most);
        let greatest = self.parameters.greatest_width.clamp(least, most);
        let keeping = self.client.opened < self.parameters.kept as u64;
        let width = if keeping { 1 } else { self.random.between(least, greatest) };
        let mut mask = 0u16;
        while (mask.count_ones() as usize) < width {
            mask |= 1 << self.random.pick(&self.databases);
        }
        Call::Open { mask }
    }
}

impl<C: Coordinator> Iterator for Stream<C> {
    type Item = ([u8; 4], Answer);

    fn next(&mut self) -> Option<Self::Item> {
        self.left = self.left.checked_sub(1)?;
        let record = self.record();
        let answer = self.client.play(record);
        Some((record, answer))
    }
}

/// A whole stream as bytes, its left-over bytes included.
pub fn bytes<C: Coordinator>(parameters: &Parameters) -> Vec<u8> {
    let mut stream = Stream::<C>::new(parameters);
    let mut bytes: Vec<u8> = stream.by_ref().flat_map(|(record, _)| record).collect();
    bytes.extend((0..parameters.left_over % 4).map(|_| stream.random.byte()));
    bytes
}
