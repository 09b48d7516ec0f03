//! A state as bytes, little endian, so that states can be damaged and compared
//! between implementations that keep them in different ways.

/// Where each part begins. Parts follow each other without gaps.
pub const TICKETS: usize = 0; // 32 × u16, by slot
pub const HELD: usize = TICKETS + 64; // u32, the set of slots whose close is held
pub const ORDER: usize = HELD + 4; // 32 × u8, slots in their order of opening
pub const NAMED: usize = ORDER + 32; // 16 × u32, at database k the slots that name k
pub const ASKED: usize = NAMED + 64; // 16 × u32
pub const RELEASED: usize = ASKED + 64; // 16 × u32
pub const CONFIRMED: usize = RELEASED + 64; // 16 × u32
pub const BEFORE: usize = CONFIRMED + 64; // 512 × u32, at k*32 + b the slots that go before b at k
pub const CANDIDATE: usize = BEFORE + 2048; // u16, the next candidate
pub const SIZE: usize = CANDIDATE + 2;

pub type Bytes = [u8; SIZE];

/// The parts with their lengths, to damage each of them as often as the others.
pub const PARTS: [(usize, usize); 9] = [
    (TICKETS, 64),
    (HELD, 4),
    (ORDER, 32),
    (NAMED, 64),
    (ASKED, 64),
    (RELEASED, 64),
    (CONFIRMED, 64),
    (BEFORE, 2048),
    (CANDIDATE, 2),
];

pub fn get_u16(bytes: &Bytes, at: usize) -> u16 {
    u16::from_le_bytes([bytes[at], bytes[at + 1]])
}

pub fn get_u32(bytes: &Bytes, at: usize) -> u32 {
    u32::from_le_bytes([bytes[at], bytes[at + 1], bytes[at + 2], bytes[at + 3]])
}

pub fn put_u16(bytes: &mut Bytes, at: usize, value: u16) {
    bytes[at..at + 2].copy_from_slice(&value.to_le_bytes());
}

pub fn put_u32(bytes: &mut Bytes, at: usize, value: u32) {
    bytes[at..at + 4].copy_from_slice(&value.to_le_bytes());
}

/// Is slot `slot` in the set that begins at byte `at`? (Bit 0 is the lowest bit
/// of the first byte, as the sets are little endian.)
pub fn in_set(bytes: &Bytes, at: usize, slot: usize) -> bool {
    bytes[at + slot / 8] >> (slot % 8) & 1 == 1
}

/// Put slot `slot` into the set that begins at byte `at`.
pub fn add_to_set(bytes: &mut Bytes, at: usize, slot: usize) {
    bytes[at + slot / 8] |= 1 << (slot % 8);
}
