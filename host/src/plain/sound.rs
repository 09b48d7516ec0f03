//! "It is sound when", clause by clause in document 01's order.

use super::{all_databases, all_slots, Database, Job, Plain, Slot};

impl Plain {
    pub fn is_sound(&self) -> bool {
        self.tickets_differ()
            && self.masks_are_nonzero()
            && self.steps_go_in_order()
            && self.order_lists_open_slots()
            && self.dependencies_join_jobs()
            && self.steps_under_way_go_before()
            && self.held_closes_are_confirmed()
            && self.free_slots_are_zero()
    }

    /// "tickets of open jobs differ"
    fn tickets_differ(&self) -> bool {
        self.open_slots().all(|one| {
            self.open_slots()
                .all(|other| one == other || self.job(one).ticket != self.job(other).ticket)
        })
    }

    /// "every mask is nonzero": of open jobs, which are those with such a mask.
    fn masks_are_nonzero(&self) -> bool {
        self.open_slots().all(|slot| !self.job(slot).named.is_empty())
    }

    /// "confirmed steps are released, released ones are asked, asked ones are
    /// named"
    fn steps_go_in_order(&self) -> bool {
        self.open_slots().map(|slot| self.job(slot)).all(|job| {
            job.confirmed.is_subset(&job.released)
                && job.released.is_subset(&job.asked)
                && job.asked.is_subset(&job.named)
        })
    }

    /// "the opening order lists each open slot once and nothing else, its unused
    /// end zeros"
    fn order_lists_open_slots(&self) -> bool {
        let (listed, unused) = self.order.split_at(self.open_slots().count());
        let times = |slot: Slot| listed.iter().filter(|&&entry| entry == slot.0).count();
        self.open_slots().all(|slot| times(slot) == 1)
            && listed.iter().all(|&entry| self.open_slots().any(|slot| slot.0 == entry))
            && unused.iter().all(|&entry| entry == 0)
    }

    /// "dependencies join two different open jobs that both name that database"
    fn dependencies_join_jobs(&self) -> bool {
        self.dependencies.iter().all(|dependency| {
            dependency.goes_before != dependency.job
                && self.names(dependency.goes_before, dependency.at)
                && self.names(dependency.job, dependency.at)
        })
    }

    /// "a released and unconfirmed step has a dependency to each other open job
    /// that names its database and whose step there isn't released"
    fn steps_under_way_go_before(&self) -> bool {
        let under_way = |slot: Slot, at: Database| {
            self.is_released(slot, at) && !self.job(slot).confirmed.contains(&at)
        };
        let waits = |slot: Slot, at: Database| self.names(slot, at) && !self.is_released(slot, at);
        all_databases().all(|at| {
            self.open_slots().filter(|&first| under_way(first, at)).all(|first| {
                self.open_slots()
                    .filter(|&other| other != first && waits(other, at))
                    .all(|other| self.goes_before(at, first, other))
            })
        })
    }

    /// "a held close has all its steps confirmed"
    fn held_closes_are_confirmed(&self) -> bool {
        self.open_slots()
            .map(|slot| self.job(slot))
            .filter(|job| job.close_held)
            .all(|job| job.named.is_subset(&job.confirmed))
    }

    /// "a free slot holds only zeros"
    fn free_slots_are_zero(&self) -> bool {
        all_slots()
            .filter(|&slot| !self.is_open(slot))
            .all(|slot| *self.job(slot) == Job::default())
    }
}
