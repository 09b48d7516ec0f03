//! Document 01 in the plainest way: jobs in slots, sets of steps and a set of
//! dependencies, every sentence done as it is written. Nothing here is fast.
//! The sentences quoted are document 01's.

mod bytes;
mod close;
mod search;
mod sound;

use crate::call::{Answer, Call, Coordinator};
use std::collections::BTreeSet;

/// "At most 32 open jobs, in slots 0 to 31." "16 databases, 0 to 15."
pub const SLOTS: u8 = 32;
pub const DATABASES: u8 = 16;

#[derive(Clone, Copy, Debug, PartialEq, Eq, PartialOrd, Ord)]
struct Slot(u8);

#[derive(Clone, Copy, Debug, PartialEq, Eq, PartialOrd, Ord)]
struct Database(u8);

/// "For each open job: ticket, mask, which steps are asked, released, confirmed,
/// and whether its close is held." A step is told by its database.
#[derive(Clone, Debug, Default, PartialEq, Eq)]
struct Job {
    ticket: u16,
    named: BTreeSet<Database>,
    asked: BTreeSet<Database>,
    released: BTreeSet<Database>,
    confirmed: BTreeSet<Database>,
    close_held: bool,
}

/// "A dependency says: at database k, job A goes before job B."
#[derive(Clone, Copy, Debug, PartialEq, Eq, PartialOrd, Ord)]
struct Dependency {
    at: Database,
    goes_before: Slot,
    job: Slot,
}

/// "Besides: the order in which the open jobs were opened, and the
/// dependencies." "The state keeps a candidate."
#[derive(Clone, Debug, PartialEq, Eq)]
pub struct Plain {
    slots: Vec<Job>,
    order: Vec<u8>,
    dependencies: BTreeSet<Dependency>,
    candidate: u16,
}

fn all_slots() -> impl Iterator<Item = Slot> {
    (0..SLOTS).map(Slot)
}

fn all_databases() -> impl Iterator<Item = Database> {
    (0..DATABASES).map(Database)
}

impl Plain {
    fn job(&self, slot: Slot) -> &Job {
        &self.slots[usize::from(slot.0)]
    }

    fn job_mut(&mut self, slot: Slot) -> &mut Job {
        &mut self.slots[usize::from(slot.0)]
    }

    /// A slot is open where its job names some database.
    fn is_open(&self, slot: Slot) -> bool {
        !self.job(slot).named.is_empty()
    }

    fn open_slots(&self) -> impl Iterator<Item = Slot> + '_ {
        all_slots().filter(|&slot| self.is_open(slot))
    }

    fn names(&self, slot: Slot, database: Database) -> bool {
        self.job(slot).named.contains(&database)
    }

    fn is_released(&self, slot: Slot, database: Database) -> bool {
        self.job(slot).released.contains(&database)
    }

    fn goes_before(&self, at: Database, goes_before: Slot, job: Slot) -> bool {
        self.dependencies.contains(&Dependency { at, goes_before, job })
    }

    fn with_ticket(&self, ticket: u16) -> Option<Slot> {
        self.open_slots().find(|&slot| self.job(slot).ticket == ticket)
    }

    /// Open. Rows 10, 1, 2 of the table, in this order.
    fn open(&mut self, mask: u16) -> Answer {
        if !self.is_sound() {
            return Answer::Refused(10);
        }
        let named = databases_of(mask);
        if named.is_empty() {
            return Answer::Refused(1);
        }
        // "A new job takes the lowest free slot."
        let Some(new) = all_slots().find(|&slot| !self.is_open(slot)) else {
            return Answer::Refused(2);
        };
        let ticket = self.give_out_ticket();
        *self.job_mut(new) = Job { ticket, named: named.clone(), ..Job::default() };
        let opened_before = self.open_slots().count() - 1;
        self.order[opened_before] = new.0;
        // "At each named database add a dependency from every job whose step
        // there is released, confirmed or not, to the new job."
        for &at in &named {
            let released: Vec<Slot> =
                self.open_slots().filter(|&slot| self.is_released(slot, at)).collect();
            for goes_before in released {
                self.dependencies.insert(Dependency { at, goes_before, job: new });
            }
        }
        // "Then run the search and add what it finds."
        let (found, moves) = self.search(new);
        let added = found.len() as u16;
        self.dependencies.extend(found);
        Answer::Opened { ticket, added, moves }
    }

    /// "Opening gives out the first number, from the candidate upwards, that no
    /// open job holds; after 65,535 the next is 0. The candidate becomes the
    /// number after the one given out."
    fn give_out_ticket(&mut self) -> u16 {
        let after = |number: u16| if number == 65_535 { 0 } else { number + 1 };
        let mut number = self.candidate;
        while self.with_ticket(number).is_some() {
            number = after(number);
        }
        self.candidate = after(number);
        number
    }

    /// The rows that ask and confirm share: 10, 3, 4, 5, in this order.
    fn step(&self, ticket: u16, database: u8) -> Result<(Slot, Database), u8> {
        if !self.is_sound() {
            return Err(10);
        }
        let slot = self.with_ticket(ticket).ok_or(3)?;
        if database > 15 {
            return Err(4);
        }
        if !self.names(slot, Database(database)) {
            return Err(5);
        }
        Ok((slot, Database(database)))
    }

    /// Ask. "Mark the step asked. .. If so, release it."
    fn ask(&mut self, ticket: u16, database: u8) -> Answer {
        let (slot, at) = match self.step(ticket, database) {
            Ok(step) => step,
            Err(number) => return Answer::Refused(number),
        };
        if self.job(slot).asked.contains(&at) {
            return Answer::Refused(6);
        }
        self.job_mut(slot).asked.insert(at);
        let released = self.may_go(slot, at);
        if released {
            self.release(slot, at);
        }
        Answer::Asked { released }
    }

    /// "It may go when every dependency into it at that database comes from a
    /// confirmed step."
    fn may_go(&self, slot: Slot, at: Database) -> bool {
        self.dependencies
            .iter()
            .filter(|dependency| dependency.at == at && dependency.job == slot)
            .all(|dependency| self.job(dependency.goes_before).confirmed.contains(&at))
    }

    /// Release. "mark it, and add at that database a dependency from this job to
    /// each open job that names it and whose step there isn't released."
    fn release(&mut self, slot: Slot, at: Database) {
        self.job_mut(slot).released.insert(at);
        let waiting: Vec<Slot> = self
            .open_slots()
            .filter(|&other| self.names(other, at) && !self.is_released(other, at))
            .collect();
        for job in waiting {
            self.dependencies.insert(Dependency { at, goes_before: slot, job });
        }
    }

    /// Confirm. "Mark the step confirmed. Then, among asked and unreleased steps
    /// at that database that may go, release the one in the lowest slot."
    fn confirm(&mut self, ticket: u16, database: u8) -> Answer {
        let (slot, at) = match self.step(ticket, database) {
            Ok(step) => step,
            Err(number) => return Answer::Refused(number),
        };
        let job = self.job_mut(slot);
        if !job.released.contains(&at) || job.confirmed.contains(&at) {
            return Answer::Refused(7);
        }
        job.confirmed.insert(at);
        let next = self.open_slots().find(|&other| {
            self.job(other).asked.contains(&at)
                && !self.is_released(other, at)
                && self.may_go(other, at)
        });
        if let Some(other) = next {
            self.release(other, at);
        }
        Answer::Confirmed { released: next.map(|other| self.job(other).ticket) }
    }
}

/// "A job names its databases by a 16-bit mask, bit k for database k."
fn databases_of(mask: u16) -> BTreeSet<Database> {
    let bit = |database: &Database| mask / 2u16.pow(u32::from(database.0)) % 2 == 1;
    all_databases().filter(bit).collect()
}

impl Coordinator for Plain {
    const NAME: &'static str = "plain";

    fn fresh(candidate: u16) -> Plain {
        Plain {
            slots: vec![Job::default(); usize::from(SLOTS)],
            order: vec![0; usize::from(SLOTS)],
            dependencies: BTreeSet::new(),
            candidate,
        }
    }

    fn from_bytes(bytes: &crate::layout::Bytes) -> Plain {
        bytes::read(bytes)
    }

    fn to_bytes(&self) -> crate::layout::Bytes {
        bytes::write(self)
    }

    fn play(&mut self, call: Call) -> Answer {
        match call {
            Call::Open { mask } => self.open(mask),
            Call::Ask { ticket, database } => self.ask(ticket, database),
            Call::Confirm { ticket, database } => self.confirm(ticket, database),
            Call::Close { ticket } => self.close(ticket),
        }
    }
}
