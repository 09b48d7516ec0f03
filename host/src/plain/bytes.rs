//! A plain state from its bytes and back. Every string of bytes is a state.

use super::{all_databases, all_slots, Database, Dependency, Job, Plain, Slot, SLOTS};
use crate::layout::{self, Bytes};
use std::collections::BTreeSet;

pub(super) fn read(bytes: &Bytes) -> Plain {
    let steps = |part: usize, slot: Slot| -> BTreeSet<Database> {
        all_databases().filter(|&at| layout::in_set(bytes, set_at(part, at), slot.into())).collect()
    };
    let job = |slot: Slot| Job {
        ticket: layout::get_u16(bytes, ticket_at(slot)),
        named: steps(layout::NAMED, slot),
        asked: steps(layout::ASKED, slot),
        released: steps(layout::RELEASED, slot),
        confirmed: steps(layout::CONFIRMED, slot),
        close_held: layout::in_set(bytes, layout::HELD, slot.into()),
    };
    Plain {
        slots: all_slots().map(job).collect(),
        order: bytes[layout::ORDER..layout::ORDER + usize::from(SLOTS)].to_vec(),
        dependencies: all_dependencies()
            .filter(|one| layout::in_set(bytes, before_at(one), one.goes_before.into()))
            .collect(),
        candidate: layout::get_u16(bytes, layout::CANDIDATE),
    }
}

pub(super) fn write(state: &Plain) -> Bytes {
    let mut bytes = [0; layout::SIZE];
    for slot in all_slots() {
        let job = state.job(slot);
        layout::put_u16(&mut bytes, ticket_at(slot), job.ticket);
        if job.close_held {
            layout::add_to_set(&mut bytes, layout::HELD, slot.into());
        }
        let mut put = |part: usize, steps: &BTreeSet<Database>| {
            steps
                .iter()
                .for_each(|&at| layout::add_to_set(&mut bytes, set_at(part, at), slot.into()));
        };
        put(layout::NAMED, &job.named);
        put(layout::ASKED, &job.asked);
        put(layout::RELEASED, &job.released);
        put(layout::CONFIRMED, &job.confirmed);
    }
    bytes[layout::ORDER..layout::ORDER + usize::from(SLOTS)].copy_from_slice(&state.order);
    for one in &state.dependencies {
        layout::add_to_set(&mut bytes, before_at(one), one.goes_before.into());
    }
    layout::put_u16(&mut bytes, layout::CANDIDATE, state.candidate);
    bytes
}

fn all_dependencies() -> impl Iterator<Item = Dependency> {
    all_databases().flat_map(|at| {
        all_slots().flat_map(move |job| {
            all_slots().map(move |goes_before| Dependency { at, goes_before, job })
        })
    })
}

fn ticket_at(slot: Slot) -> usize {
    layout::TICKETS + 2 * usize::from(slot)
}

fn set_at(part: usize, at: Database) -> usize {
    part + 4 * usize::from(at.0)
}

fn before_at(one: &Dependency) -> usize {
    let row = usize::from(one.at.0) * usize::from(SLOTS) + usize::from(one.job);
    layout::BEFORE + 4 * row
}

impl From<Slot> for usize {
    fn from(slot: Slot) -> usize {
        usize::from(slot.0)
    }
}
