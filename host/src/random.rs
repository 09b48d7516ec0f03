//! A small generator of numbers that look random and follow from a seed
//! (splitmix64), so that every stream can be made again.

#[derive(Clone, Debug)]
pub struct Random(u64);

impl Random {
    pub fn new(seed: u64) -> Random {
        Random(seed)
    }

    pub fn number(&mut self) -> u64 {
        self.0 = self.0.wrapping_add(0x9e37_79b9_7f4a_7c15);
        let mut mixed = self.0;
        mixed = (mixed ^ (mixed >> 30)).wrapping_mul(0xbf58_476d_1ce4_e5b9);
        mixed = (mixed ^ (mixed >> 27)).wrapping_mul(0x94d0_49bb_1331_11eb);
        mixed ^ (mixed >> 31)
    }

    /// A number under `bound`, which is not 0. The bounds here are so small that
    /// the remainder's slant does not show.
    pub fn under(&mut self, bound: usize) -> usize {
        (self.number() % bound as u64) as usize
    }

    pub fn between(&mut self, least: usize, greatest: usize) -> usize {
        least + self.under(greatest - least + 1)
    }

    pub fn one_in(&mut self, many: usize) -> bool {
        self.under(many) == 0
    }

    /// True in this many cases of a thousand.
    pub fn per_mille(&mut self, share: usize) -> bool {
        self.under(1000) < share
    }

    pub fn byte(&mut self) -> u8 {
        self.number() as u8
    }

    pub fn word(&mut self) -> u16 {
        self.number() as u16
    }

    pub fn pick<'a, T>(&mut self, from: &'a [T]) -> &'a T {
        &from[self.under(from.len())]
    }
}
