//! Calls to be refused, each for one row of document 01's table.

use super::client::{databases, Client, Job};
use crate::call::Call;
use crate::random::Random;

/// A call for a row drawn at random; a row that nothing stands ready for now
/// gives way to one of an unknown ticket.
pub(super) fn call<C>(random: &mut Random, client: &Client<C>, used: &[u8]) -> Call {
    let rows = [1, 2, 3, 3, 4, 5, 6, 7, 7, 8, 9];
    let row = *random.pick(&rows);
    for_row(random, client, used, row).unwrap_or_else(|| unknown(random, client, used))
}

fn for_row<C>(random: &mut Random, client: &Client<C>, used: &[u8], row: u8) -> Option<Call> {
    match row {
        1 => Some(Call::Open { mask: 0 }),
        2 if client.jobs.len() == 32 => Some(Call::Open { mask: 1 << random.pick(used) }),
        4 => {
            let job = any(random, client, |_| true)?;
            let database = random.between(16, 255) as u8;
            Some(at(random, job.ticket, database))
        }
        5 => {
            let job = any(random, client, |job| job.named != u16::MAX)?;
            let database = *random.pick(&databases(!job.named));
            Some(at(random, job.ticket, database))
        }
        6 => {
            let job = any(random, client, |job| job.asked != 0)?;
            let database = *random.pick(&databases(job.asked));
            Some(Call::Ask { ticket: job.ticket, database })
        }
        7 => {
            let wrong = |job: &Job| job.named & !(job.released & !job.confirmed);
            let job = any(random, client, |job| wrong(job) != 0)?;
            let database = *random.pick(&databases(wrong(job)));
            Some(Call::Confirm { ticket: job.ticket, database })
        }
        8 => {
            let job = any(random, client, |job| job.confirmed != job.named)?;
            Some(Call::Close { ticket: job.ticket })
        }
        9 => {
            let job = any(random, client, |job| job.close_held)?;
            Some(Call::Close { ticket: job.ticket })
        }
        _ => None,
    }
}

fn any<'a, C>(
    random: &mut Random,
    client: &'a Client<C>,
    fits: impl Fn(&Job) -> bool,
) -> Option<&'a Job> {
    let fitting: Vec<&Job> = client.jobs.iter().filter(|job| fits(job)).collect();
    if fitting.is_empty() {
        return None;
    }
    Some(*random.pick(&fitting))
}

fn at(random: &mut Random, ticket: u16, database: u8) -> Call {
    if random.one_in(2) {
        Call::Ask { ticket, database }
    } else {
        Call::Confirm { ticket, database }
    }
}

/// A ticket beside one that is open, or 0, which free slots hold too, or any:
/// mostly one that no open job holds.
fn unknown<C>(random: &mut Random, client: &Client<C>, used: &[u8]) -> Call {
    let near = any(random, client, |_| true).map_or(0, |job| job.ticket);
    let ticket = match random.under(4) {
        0 => 0,
        1 => near.wrapping_add(random.between(1, 40) as u16),
        2 => near.wrapping_sub(random.between(1, 40) as u16),
        _ => random.word(),
    };
    let database = if random.one_in(4) { random.byte() } else { *random.pick(used) };
    if random.one_in(3) {
        Call::Close { ticket }
    } else {
        at(random, ticket, database)
    }
}
