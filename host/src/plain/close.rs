//! Close, and the held closes that it frees.

use super::{Job, Plain, Slot, SLOTS};
use crate::call::{Answer, Tickets};

impl Plain {
    /// Close. Rows 10, 3, 8, 9 of the table, in this order.
    pub(super) fn close(&mut self, ticket: u16) -> Answer {
        if !self.is_sound() {
            return Answer::Refused(10);
        }
        let Some(slot) = self.with_ticket(ticket) else {
            return Answer::Refused(3);
        };
        let job = self.job(slot);
        if !job.named.is_subset(&job.confirmed) {
            return Answer::Refused(8);
        }
        if job.close_held {
            return Answer::Refused(9);
        }
        let mut closed = Tickets::NONE;
        // "If it may not, its close is held."
        if !self.may_close(slot) {
            self.job_mut(slot).close_held = true;
            return Answer::Closed(closed);
        }
        closed.push(self.remove(slot));
        // "then, as long as some held close may go, close the one in the lowest
        // slot."
        while let Some(next) = self.held_close_that_may_go() {
            closed.push(self.remove(next));
        }
        Answer::Closed(closed)
    }

    fn held_close_that_may_go(&self) -> Option<Slot> {
        self.open_slots().find(|&slot| self.job(slot).close_held && self.may_close(slot))
    }

    /// "The job may close when no dependency goes into it at any database."
    fn may_close(&self, slot: Slot) -> bool {
        self.dependencies.iter().all(|dependency| dependency.job != slot)
    }

    /// "remove it with all its dependencies": those into it and those from it.
    /// The slot then "holds only zeros", and the order's "unused end zeros".
    fn remove(&mut self, slot: Slot) -> u16 {
        let ticket = self.job(slot).ticket;
        let open = self.open_slots().count();
        let mut order: Vec<u8> = self.order[..open].to_vec();
        order.retain(|&entry| entry != slot.0);
        order.resize(usize::from(SLOTS), 0);
        self.order = order;
        self.dependencies
            .retain(|dependency| dependency.job != slot && dependency.goes_before != slot);
        *self.job_mut(slot) = Job::default();
        ticket
    }
}
