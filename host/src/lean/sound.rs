//! The test of soundness, made before every call: a few hundred word operations
//! over the whole state. The cheap clauses come first, as any order of clauses
//! says the same.

use super::{Lean, Members};

/// Bit b at place b, so that the scan of a row needs no shift for each word.
const BIT: [u32; 32] = {
    let mut bits = [0; 32];
    let mut slot = 0;
    while slot < 32 {
        bits[slot] = 1 << slot;
        slot += 1;
    }
    bits
};

impl Lean {
    /// The set of open slots, if the state is sound.
    #[inline]
    pub(super) fn open_if_sound(&self) -> Option<u32> {
        let open = self.named.iter().fold(0, |all, set| all | set);
        let sound = self.steps_are_sound(open)
            && self.slots_are_sound(open)
            && self.dependencies_are_sound();
        sound.then_some(open)
    }

    /// Confirmed steps are released, released ones asked, asked ones named; a
    /// held close has all its steps confirmed and is an open job's.
    #[inline]
    fn steps_are_sound(&self, open: u32) -> bool {
        let mut stray = self.held & !open;
        for k in 0..16 {
            stray |= self.confirmed[k] & !self.released[k];
            stray |= self.released[k] & !self.asked[k];
            stray |= self.asked[k] & !self.named[k];
            stray |= self.held & self.named[k] & !self.confirmed[k];
        }
        stray == 0
    }

    /// Tickets of open jobs differ, those of free slots are zero, and the order
    /// lists the open slots once each with zeros after them.
    #[inline]
    fn slots_are_sound(&self, open: u32) -> bool {
        let count = open.count_ones() as usize;
        let (listed, unused) = self.order.split_at(count);
        let mut seen = 0;
        for &entry in listed {
            // The set of open slots has as many members as there are entries, so
            // equal sets leave no room for a repeated one.
            seen |= if entry < 32 { BIT[usize::from(entry)] } else { 0 };
        }
        seen == open
            && unused.iter().all(|&entry| entry == 0)
            && Members(!open).all(|slot| self.tickets[slot] == 0)
            && self.tickets_differ(open)
    }

    /// Tickets with different low bytes differ, which is how they mostly stand;
    /// only if two share one are all pairs looked at.
    #[inline]
    fn tickets_differ(&self, open: u32) -> bool {
        let mut low = [0u64; 4];
        let mut shared = 0;
        for slot in Members(open) {
            let ticket = usize::from(self.tickets[slot]);
            let (word, bit) = (ticket / 64 % 4, ticket % 64);
            shared |= low[word] >> bit & 1;
            low[word] |= 1 << bit;
        }
        shared == 0 || self.all_pairs_differ(open)
    }

    #[cold]
    fn all_pairs_differ(&self, open: u32) -> bool {
        Members(open).all(|slot| {
            let later = open & (!1 << slot);
            Members(later).all(|other| self.tickets[other] != self.tickets[slot])
        })
    }

    /// Dependencies join two different jobs that name the database, and a step
    /// under way goes before every step there that is not released.
    #[inline]
    fn dependencies_are_sound(&self) -> bool {
        (0..16).all(|k| {
            let named = self.named[k];
            let row = &self.before[k];
            let mut stray = 0;
            for slot in 0..32 {
                let allowed = if named & BIT[slot] != 0 { named & !BIT[slot] } else { 0 };
                stray |= row[slot] & !allowed;
            }
            let under_way = self.released[k] & !self.confirmed[k];
            stray == 0
                && (under_way == 0
                    || Members(named & !self.released[k])
                        .all(|waiting| under_way & !row[waiting] == 0))
        })
    }
}
