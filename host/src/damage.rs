//! States that no history of calls leaves: damaged ones, and sound ones drawn
//! at random (several steps under way at a database, dependencies both ways).

use crate::layout::{self, Bytes};
use crate::random::Random;

/// Flip one to three bits, each part of the state as often as the others.
pub fn flip(random: &mut Random, bytes: &mut Bytes) {
    for _ in 0..random.between(1, 3) {
        let (start, length) = *random.pick(&layout::PARTS);
        bytes[start + random.under(length)] ^= 1 << random.under(8);
    }
}

/// Change a part so that the state is likely sound still: another ticket, the
/// order of two openings, a dependency more or less between jobs that name its
/// database, another candidate.
pub fn nudge(random: &mut Random, bytes: &mut Bytes) {
    let (one, other) = (random.under(32), random.under(32));
    match random.under(4) {
        0 => layout::put_u16(bytes, layout::TICKETS + 2 * one, random.word()),
        1 => bytes.swap(layout::ORDER + one, layout::ORDER + other),
        2 => {
            let k = random.under(16);
            let named = layout::get_u32(bytes, layout::NAMED + 4 * k);
            let at = layout::BEFORE + 4 * (32 * k + one);
            let changed = layout::get_u32(bytes, at) ^ (named & 1 << other);
            layout::put_u32(bytes, at, changed);
        }
        _ => layout::put_u16(bytes, layout::CANDIDATE, random.word()),
    }
}

/// A sound state with `jobs` open jobs that each name up to `width` databases.
pub fn sound_state(random: &mut Random, jobs: usize, width: usize) -> Bytes {
    let mut bytes = [0; layout::SIZE];
    let mut slots: Vec<usize> = (0..32).collect();
    for place in (1..32).rev() {
        slots.swap(place, random.under(place + 1));
    }
    slots.truncate(jobs);
    // Tickets close together, in any order, often across the wrap.
    let first = if random.one_in(2) { 65_520 } else { random.word() };
    let mut tickets: Vec<u16> = (0..40).map(|step| first.wrapping_add(step)).collect();
    for (place, &slot) in slots.iter().enumerate() {
        let ticket = tickets.swap_remove(random.under(tickets.len()));
        layout::put_u16(&mut bytes, layout::TICKETS + 2 * slot, ticket);
        bytes[layout::ORDER + place] = slot as u8;
        steps(random, &mut bytes, slot, width);
    }
    dependencies(random, &mut bytes);
    let candidate = first.wrapping_add(random.under(40) as u16);
    layout::put_u16(&mut bytes, layout::CANDIDATE, candidate);
    bytes
}

/// The steps of one job: each unasked, asked, released or confirmed; one job in
/// three is confirmed throughout, and then its close may be held.
fn steps(random: &mut Random, bytes: &mut Bytes, slot: usize, width: usize) {
    let finished = random.one_in(3);
    for _ in 0..random.between(1, width) {
        let k = random.under(16);
        if layout::in_set(bytes, layout::NAMED + 4 * k, slot) {
            continue;
        }
        let reached = if finished { 4 } else { random.between(1, 4) };
        let parts = [layout::NAMED, layout::ASKED, layout::RELEASED, layout::CONFIRMED];
        for part in &parts[..reached] {
            layout::add_to_set(bytes, part + 4 * k, slot);
        }
    }
    if finished && random.one_in(2) {
        layout::add_to_set(bytes, layout::HELD, slot);
    }
}

/// Any dependencies between jobs that name the database, and the ones that a
/// step under way must have.
fn dependencies(random: &mut Random, bytes: &mut Bytes) {
    let dense = random.between(1, 12);
    for k in 0..16 {
        let set = |part: usize| layout::get_u32(bytes, part + 4 * k);
        let named = set(layout::NAMED);
        let released = set(layout::RELEASED);
        let under_way = released & !set(layout::CONFIRMED);
        for slot in (0..32).filter(|slot| named >> slot & 1 == 1) {
            let some =
                (0..32).fold(0, |some, other| some | u32::from(random.one_in(dense)) << other);
            let must = if released >> slot & 1 == 1 { 0 } else { under_way };
            let before = (some & named & !(1 << slot)) | must;
            layout::put_u32(bytes, layout::BEFORE + 4 * (32 * k + slot), before);
        }
    }
}
