//! Document 01 for speed: sets of slots in words, kept by database, changed in
//! place. It makes the same test of soundness before every call. The proved
//! library is measured against it.

mod search;
mod sound;

use crate::call::{Answer, Call, Coordinator, Tickets};
use crate::layout::{self, Bytes};

/// The parts of the layout, a field each. Bit s of a set stands for slot s.
#[repr(C)]
#[derive(Clone, Debug, PartialEq, Eq)]
pub struct Lean {
    before: [[u32; 32]; 16],
    named: [u32; 16],
    asked: [u32; 16],
    released: [u32; 16],
    confirmed: [u32; 16],
    tickets: [u16; 32],
    order: [u8; 32],
    held: u32,
    candidate: u16,
}

/// The members of a set, ascending.
#[derive(Clone, Copy)]
struct Members(u32);

impl Iterator for Members {
    type Item = usize;

    #[inline(always)]
    fn next(&mut self) -> Option<usize> {
        if self.0 == 0 {
            return None;
        }
        let lowest = self.0.trailing_zeros() as usize;
        self.0 &= self.0 - 1;
        Some(lowest)
    }
}

impl Lean {
    #[inline]
    fn slot_of(&self, open: u32, ticket: u16) -> Option<usize> {
        Members(open).find(|&slot| self.tickets[slot] == ticket)
    }

    fn open(&mut self, mask: u16) -> Result<Answer, u8> {
        let open = self.open_if_sound().ok_or(10)?;
        if mask == 0 {
            return Err(1);
        }
        if open == u32::MAX {
            return Err(2);
        }
        let new = open.trailing_ones() as usize;
        let ticket = self.give_out_ticket(open);
        self.tickets[new] = ticket;
        self.order[open.count_ones() as usize] = new as u8;
        for k in Members(u32::from(mask)) {
            self.before[k][new] = self.released[k];
            self.named[k] |= 1 << new;
        }
        let (added, moves) = self.search(open, new, mask);
        Ok(Answer::Opened { ticket, added, moves })
    }

    fn give_out_ticket(&mut self, open: u32) -> u16 {
        let mut ticket = self.candidate;
        while self.slot_of(open, ticket).is_some() {
            ticket = ticket.wrapping_add(1);
        }
        self.candidate = ticket.wrapping_add(1);
        ticket
    }

    #[inline]
    fn step(&self, ticket: u16, database: u8) -> Result<(usize, usize), u8> {
        let open = self.open_if_sound().ok_or(10)?;
        let slot = self.slot_of(open, ticket).ok_or(3)?;
        if database > 15 {
            return Err(4);
        }
        let k = usize::from(database);
        if self.named[k] & 1 << slot == 0 {
            return Err(5);
        }
        Ok((slot, k))
    }

    #[inline]
    fn may_go(&self, slot: usize, k: usize) -> bool {
        self.before[k][slot] & !self.confirmed[k] == 0
    }

    fn release(&mut self, slot: usize, k: usize) {
        let bit = 1 << slot;
        self.released[k] |= bit;
        for waiting in Members(self.named[k] & !self.released[k]) {
            self.before[k][waiting] |= bit;
        }
    }

    fn ask(&mut self, ticket: u16, database: u8) -> Result<Answer, u8> {
        let (slot, k) = self.step(ticket, database)?;
        if self.asked[k] & 1 << slot != 0 {
            return Err(6);
        }
        self.asked[k] |= 1 << slot;
        let released = self.may_go(slot, k);
        if released {
            self.release(slot, k);
        }
        Ok(Answer::Asked { released })
    }

    fn confirm(&mut self, ticket: u16, database: u8) -> Result<Answer, u8> {
        let (slot, k) = self.step(ticket, database)?;
        if self.released[k] & !self.confirmed[k] & 1 << slot == 0 {
            return Err(7);
        }
        self.confirmed[k] |= 1 << slot;
        let next =
            Members(self.asked[k] & !self.released[k]).find(|&waiting| self.may_go(waiting, k));
        if let Some(waiting) = next {
            self.release(waiting, k);
        }
        Ok(Answer::Confirmed { released: next.map(|waiting| self.tickets[waiting]) })
    }

    fn close(&mut self, ticket: u16) -> Result<Answer, u8> {
        let mut open = self.open_if_sound().ok_or(10)?;
        let slot = self.slot_of(open, ticket).ok_or(3)?;
        let bit = 1 << slot;
        if (0..16).any(|k| self.named[k] & !self.confirmed[k] & bit != 0) {
            return Err(8);
        }
        if self.held & bit != 0 {
            return Err(9);
        }
        let mut closed = Tickets::NONE;
        if !self.may_close(slot) {
            self.held |= bit;
            return Ok(Answer::Closed(closed));
        }
        let mut next = Some(slot);
        while let Some(slot) = next {
            closed.push(self.tickets[slot]);
            self.remove(slot, open);
            open &= !(1 << slot);
            next = Members(self.held).find(|&held| self.may_close(held));
        }
        Ok(Answer::Closed(closed))
    }

    #[inline]
    fn may_close(&self, slot: usize) -> bool {
        (0..16).all(|k| self.before[k][slot] == 0)
    }

    fn remove(&mut self, slot: usize, open: u32) {
        let bit = 1 << slot;
        for k in 0..16 {
            if self.named[k] & bit == 0 {
                continue;
            }
            self.named[k] &= !bit;
            self.asked[k] &= !bit;
            self.released[k] &= !bit;
            self.confirmed[k] &= !bit;
            self.before[k][slot] = 0;
            for other in Members(self.named[k]) {
                self.before[k][other] &= !bit;
            }
        }
        self.tickets[slot] = 0;
        self.held &= !bit;
        let count = open.count_ones() as usize;
        let place = self.order.iter().position(|&entry| usize::from(entry) == slot).unwrap_or(0);
        self.order.copy_within(place + 1..count, place);
        self.order[count - 1] = 0;
    }
}

fn sets_of<const N: usize>(bytes: &Bytes, part: usize) -> [u32; N] {
    std::array::from_fn(|k| layout::get_u32(bytes, part + 4 * k))
}

impl Coordinator for Lean {
    const NAME: &'static str = "lean";

    fn fresh(candidate: u16) -> Lean {
        Lean {
            before: [[0; 32]; 16],
            named: [0; 16],
            asked: [0; 16],
            released: [0; 16],
            confirmed: [0; 16],
            tickets: [0; 32],
            order: [0; 32],
            held: 0,
            candidate,
        }
    }

    fn from_bytes(bytes: &Bytes) -> Lean {
        Lean {
            before: std::array::from_fn(|k| sets_of(bytes, layout::BEFORE + 128 * k)),
            named: sets_of(bytes, layout::NAMED),
            asked: sets_of(bytes, layout::ASKED),
            released: sets_of(bytes, layout::RELEASED),
            confirmed: sets_of(bytes, layout::CONFIRMED),
            tickets: std::array::from_fn(|slot| layout::get_u16(bytes, layout::TICKETS + 2 * slot)),
            order: std::array::from_fn(|place| bytes[layout::ORDER + place]),
            held: layout::get_u32(bytes, layout::HELD),
            candidate: layout::get_u16(bytes, layout::CANDIDATE),
        }
    }

    fn to_bytes(&self) -> Bytes {
        let mut bytes = [0; layout::SIZE];
        for slot in 0..32 {
            layout::put_u16(&mut bytes, layout::TICKETS + 2 * slot, self.tickets[slot]);
            bytes[layout::ORDER + slot] = self.order[slot];
        }
        layout::put_u32(&mut bytes, layout::HELD, self.held);
        for k in 0..16 {
            layout::put_u32(&mut bytes, layout::NAMED + 4 * k, self.named[k]);
            layout::put_u32(&mut bytes, layout::ASKED + 4 * k, self.asked[k]);
            layout::put_u32(&mut bytes, layout::RELEASED + 4 * k, self.released[k]);
            layout::put_u32(&mut bytes, layout::CONFIRMED + 4 * k, self.confirmed[k]);
            for slot in 0..32 {
                let at = layout::BEFORE + 4 * (32 * k + slot);
                layout::put_u32(&mut bytes, at, self.before[k][slot]);
            }
        }
        layout::put_u16(&mut bytes, layout::CANDIDATE, self.candidate);
        bytes
    }

    #[inline]
    fn play(&mut self, call: Call) -> Answer {
        let answer = match call {
            Call::Open { mask } => self.open(mask),
            Call::Ask { ticket, database } => self.ask(ticket, database),
            Call::Confirm { ticket, database } => self.confirm(ticket, database),
            Call::Close { ticket } => self.close(ticket),
        };
        answer.unwrap_or_else(Answer::Refused)
    }
}
