//! The opening search by depth first visits. What stood before a pair in the
//! order of choice cannot be chosen later, as marks and found dependencies only
//! grow, so each visit goes on where it was instead of looking anew. What is
//! reached and found, and so the moves, does not depend on who comes first.

use super::{Lean, Members};

struct Search<'a> {
    before: &'a [[u32; 32]; 16],
    named: &'a [u32; 16],
    /// The databases that each open job names.
    masks: [u16; 32],
    /// Those of them that some visit of the job looks through: once is enough,
    /// whoever of several visits does it.
    looked: [u16; 32],
    new: usize,
    /// At each database, the jobs reached through it.
    reached: [u32; 16],
    /// At each database, the jobs found to go before the new one.
    found: [u32; 16],
    moves: u16,
}

impl Lean {
    /// Runs the search for the new job, adds what it finds, and gives the number
    /// of dependencies added and the moves.
    pub(super) fn search(&mut self, open: u32, new: usize, mask: u16) -> (u16, u16) {
        let met = Members(u32::from(mask)).fold(0, |jobs, k| jobs | self.named[k]);
        if met & open == 0 {
            return (0, 0);
        }
        let mut search = Search {
            before: &self.before,
            named: &self.named,
            masks: self.masks(),
            looked: [0; 32],
            new,
            reached: [0; 16],
            found: [0; 16],
            moves: 0,
        };
        search.visit(new, 0);
        let Search { found, moves, .. } = search;
        let mut added = 0;
        for k in Members(u32::from(mask)) {
            self.before[k][new] |= found[k];
            added += found[k].count_ones() as u16;
        }
        (added, moves)
    }

    fn masks(&self) -> [u16; 32] {
        let mut masks = [0; 32];
        for k in 0..16 {
            Members(self.named[k]).for_each(|slot| masks[slot] |= 1 << k);
        }
        masks
    }
}

impl Search<'_> {
    /// Stand at a job reached through the one database in `through`, or through
    /// none, until nothing is left to choose.
    fn visit(&mut self, job: usize, through: u16) {
        let bit = 1 << job;
        let databases = self.masks[job] & !self.looked[job] & !through;
        self.looked[job] |= databases;
        for u in Members(u32::from(databases)) {
            let mut left = self.named[u] & !self.reached[u] & !bit;
            while left != 0 {
                let other = left.trailing_zeros() as usize;
                left &= left - 1;
                if self.before[u][other] & bit != 0 {
                    continue;
                }
                if other == self.new {
                    self.moves += 1;
                    self.found[u] |= bit;
                } else {
                    // The forward move and the return move that will follow it.
                    self.moves += 2;
                    self.reached[u] |= 1 << other;
                    self.visit(other, 1 << u);
                    left &= !self.reached[u];
                }
            }
        }
    }
}
