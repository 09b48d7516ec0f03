//! The opening search, document 01's machine move by move: the pair to choose
//! is looked for anew after every move.

use super::{all_databases, all_slots, Database, Dependency, Plain, Slot};
use std::collections::BTreeSet;

/// "Standing at job v, reached through a database (N at the start is reached
/// through none)".
#[derive(Clone, Copy)]
struct Place {
    job: Slot,
    through: Option<Database>,
}

struct Machine<'a> {
    state: &'a Plain,
    new: Slot,
    /// Jobs reached, each with the database it was reached through.
    reached: BTreeSet<(Database, Slot)>,
    found: BTreeSet<Dependency>,
}

impl Plain {
    /// The dependencies that the search finds for the new job, and its moves.
    pub(super) fn search(&self, new: Slot) -> (BTreeSet<Dependency>, u16) {
        let mut machine =
            Machine { state: self, new, reached: BTreeSet::new(), found: BTreeSet::new() };
        let moves = machine.run();
        (machine.found, moves)
    }
}

impl Machine<'_> {
    /// "Moves are the sum of forward, closing and return moves."
    fn run(&mut self) -> u16 {
        let mut moves = 0;
        let mut here = Place { job: self.new, through: None };
        let mut came_from: Vec<Place> = Vec::new();
        loop {
            match self.choose(here) {
                // "If w is N: a closing move. The dependency at u from v to N is
                // found. Stay at v."
                Some((u, w)) if w == self.new => {
                    self.found.insert(Dependency { at: u, goes_before: here.job, job: w });
                }
                // "Otherwise: a forward move. Mark w reached through u, and
                // stand at w."
                Some((u, w)) => {
                    self.reached.insert((u, w));
                    came_from.push(here);
                    here = Place { job: w, through: Some(u) };
                }
                // "Nothing left to choose: go back to where v was reached from,
                // a return move, or end at N."
                None => match came_from.pop() {
                    Some(place) => here = place,
                    None => return moves,
                },
            }
            moves += 1;
        }
    }

    /// "here it's fixed: database u ascending, then slot of w ascending."
    fn choose(&self, here: Place) -> Option<(Database, Slot)> {
        all_databases()
            .filter(|&u| self.state.names(here.job, u))
            .flat_map(|u| all_slots().map(move |w| (u, w)))
            .find(|&(u, w)| self.may_be_chosen(here, u, w))
    }

    /// "a pair (u,w) may be chosen when: v and w both name u; w isn't v; u isn't
    /// the database v was reached through; no dependency at u from v to w exists,
    /// found ones included; and w is N, or w hasn't been reached through u yet."
    fn may_be_chosen(&self, here: Place, u: Database, w: Slot) -> bool {
        let v = here.job;
        let dependency = Dependency { at: u, goes_before: v, job: w };
        self.state.names(v, u)
            && self.state.names(w, u)
            && w != v
            && here.through != Some(u)
            && !self.state.goes_before(u, v, w)
            && !self.found.contains(&dependency)
            && (w == self.new || !self.reached.contains(&(u, w)))
    }
}
