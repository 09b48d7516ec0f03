//! What a client knows from its calls and their answers alone.

use crate::call::{Answer, Call, Coordinator};
use crate::random::Random;
use crate::records;

/// An open job as its client sees it; the four sets are masks of databases.
#[derive(Clone, Debug)]
pub(super) struct Job {
    pub ticket: u16,
    pub named: u16,
    pub asked: u16,
    pub released: u16,
    pub confirmed: u16,
    pub close_held: bool,
    /// The number of its opening, from 0.
    pub opening: u64,
}

pub(super) struct Client<C> {
    pub state: C,
    /// Oldest first.
    pub jobs: Vec<Job>,
    pub opened: u64,
}

impl<C: Coordinator> Client<C> {
    pub fn new(state: C) -> Client<C> {
        Client { state, jobs: Vec::new(), opened: 0 }
    }

    pub fn play(&mut self, record: [u8; 4]) -> Answer {
        let answer = records::play(&mut self.state, record);
        if let Some(call) = records::read(record) {
            self.remember(call, &answer);
        }
        answer
    }

    fn remember(&mut self, call: Call, answer: &Answer) {
        match (call, answer) {
            (Call::Open { mask }, Answer::Opened { ticket, .. }) => {
                self.jobs.push(Job {
                    ticket: *ticket,
                    named: mask,
                    asked: 0,
                    released: 0,
                    confirmed: 0,
                    close_held: false,
                    opening: self.opened,
                });
                self.opened += 1;
            }
            (Call::Ask { ticket, database }, Answer::Asked { released }) => {
                let job = self.job(ticket);
                job.asked |= 1 << database;
                job.released |= u16::from(*released) << database;
            }
            (Call::Confirm { ticket, database }, Answer::Confirmed { released }) => {
                self.job(ticket).confirmed |= 1 << database;
                if let Some(next) = released {
                    self.job(*next).released |= 1 << database;
                }
            }
            (Call::Close { ticket }, Answer::Closed(closed)) => {
                self.job(ticket).close_held = true;
                self.jobs.retain(|job| !closed.as_slice().contains(&job.ticket));
            }
            _ => {}
        }
    }

    fn job(&mut self, ticket: u16) -> &mut Job {
        self.jobs.iter_mut().find(|job| job.ticket == ticket).expect("the answer names an open job")
    }

    /// A call that will be accepted, to a job past the first `kept` opened: of
    /// the oldest job that has something to do, or of any.
    pub fn work(&self, random: &mut Random, oldest: bool, kept: usize) -> Option<Call> {
        let free = || self.jobs.iter().filter(|job| job.opening >= kept as u64);
        if oldest {
            return free().find_map(|job| job.something_to_do(random));
        }
        let ready: Vec<&Job> = free().filter(|job| job.has_something_to_do()).collect();
        if ready.is_empty() {
            return None;
        }
        random.pick(&ready).something_to_do(random)
    }
}

impl Job {
    fn may_close(&self) -> bool {
        self.confirmed == self.named && !self.close_held
    }

    fn has_something_to_do(&self) -> bool {
        self.may_close() || self.asked != self.named || self.confirmed != self.released
    }

    fn something_to_do(&self, random: &mut Random) -> Option<Call> {
        let ticket = self.ticket;
        if self.may_close() {
            return Some(Call::Close { ticket });
        }
        let unasked = databases(self.named & !self.asked);
        let under_way = databases(self.released & !self.confirmed);
        let count = unasked.len() + under_way.len();
        if count == 0 {
            return None;
        }
        let place = random.under(count);
        Some(match unasked.get(place) {
            Some(&database) => Call::Ask { ticket, database },
            None => Call::Confirm { ticket, database: under_way[place - unasked.len()] },
        })
    }
}

pub(super) fn databases(mask: u16) -> Vec<u8> {
    (0..16).filter(|database| mask >> database & 1 == 1).collect()
}
