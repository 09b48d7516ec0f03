//! What the benchmark plays: each piece of work is a state and the records that
//! are played from it, every one of them accepted unless it says otherwise.

use host::call::{Answer, Call, Coordinator};
use host::compare::Record;
use host::damage;
use host::layout::Bytes;
use host::lean::Lean;
use host::random::Random;
use host::records;
use host::streams::{Parameters, Stream};
use std::collections::VecDeque;

pub struct Work {
    pub name: String,
    pub state: Bytes,
    pub records: Vec<Record>,
}

/// Plays calls and keeps them as records.
struct Author {
    state: Lean,
    begun: Bytes,
    records: Vec<Record>,
}

impl Author {
    fn new(state: Lean) -> Author {
        Author { begun: state.to_bytes(), state, records: Vec::new() }
    }

    fn call(&mut self, call: Call) -> Answer {
        self.records.push(records::write(call));
        let answer = Coordinator::play(&mut self.state, call);
        assert!(!matches!(answer, Answer::Refused(_)), "{call:?} is refused");
        answer
    }

    fn open(&mut self, mask: u16) -> u16 {
        match self.call(Call::Open { mask }) {
            Answer::Opened { ticket, .. } => ticket,
            other => panic!("an opening answers {other:?}"),
        }
    }

    /// What was called since the last of these, as one piece of work.
    fn work(&mut self, name: &str) -> Work {
        let state = std::mem::replace(&mut self.begun, self.state.to_bytes());
        Work { name: name.to_string(), state, records: std::mem::take(&mut self.records) }
    }
}

/// Mixed calls as the generator makes them, a share of them refused.
pub fn mixed(records: usize, seed: u64) -> Vec<Record> {
    let parameters = Parameters { records, seed, ..Parameters::default() };
    Stream::<Lean>::new(&parameters).map(|(record, _)| record).collect()
}

fn databases(mask: u16) -> impl Iterator<Item = u8> {
    (0..16).filter(move |database| mask >> database & 1 == 1)
}

/// Sixteen jobs of two or three databases each: all opened, then all their steps
/// asked, all confirmed, all closed; and calls refused for an unknown ticket,
/// which cost the test of soundness and little else.
pub fn kinds(seed: u64) -> Vec<Work> {
    let mut random = Random::new(seed);
    let mut author = Author::new(Lean::fresh(0));
    let masks: Vec<u16> =
        (0..16).map(|_| (0..3).fold(0, |mask, _| mask | 1 << random.under(8))).collect();
    let jobs: Vec<(u16, u16)> = masks.into_iter().map(|mask| (author.open(mask), mask)).collect();
    let opens = author.work("open");
    let mut under_way = VecDeque::new();
    for &(ticket, mask) in &jobs {
        for database in databases(mask) {
            let answer = author.call(Call::Ask { ticket, database });
            if answer == (Answer::Asked { released: true }) {
                under_way.push_back((ticket, database));
            }
        }
    }
    let asks = author.work("ask");
    while let Some((ticket, database)) = under_way.pop_front() {
        let answer = author.call(Call::Confirm { ticket, database });
        if let Answer::Confirmed { released: Some(next) } = answer {
            under_way.push_back((next, database));
        }
    }
    let confirms = author.work("confirm");
    for &(ticket, _) in &jobs {
        author.call(Call::Close { ticket });
    }
    let closes = author.work("close");
    let unknown = records::write(Call::Ask { ticket: 999, database: 0 });
    let refused =
        Work { name: "refused".to_string(), state: asks.state, records: vec![unknown; 48] };
    vec![opens, asks, confirms, closes, refused]
}

/// Jobs on two databases opened, asked, confirmed and closed one after another,
/// beside others on one database each that stay open: `open` jobs at most.
pub fn rounds(open: usize) -> Work {
    let mut author = Author::new(Lean::fresh(0));
    for job in 1..open {
        author.open(1 << (job % 16));
    }
    author.work("the others");
    for round in 0..100 {
        let mask = 1 << (round % 16) | 1 << ((round + 5) % 16);
        let ticket = author.open(mask);
        for database in databases(mask) {
            author.call(Call::Ask { ticket, database });
            author.call(Call::Confirm { ticket, database });
        }
        author.call(Call::Close { ticket });
    }
    author.work(&open.to_string())
}

fn opening(name: &str, state: Lean, mask: u16) -> (Work, u16) {
    let mut author = Author::new(state);
    match author.call(Call::Open { mask }) {
        Answer::Opened { moves, .. } => (author.work(name), moves),
        other => panic!("an opening answers {other:?}"),
    }
}

/// Openings with long searches: 31 earlier jobs at all sixteen databases; 31
/// jobs of three databases; and a state with many moves that no history leaves.
/// Each is one record, and beside them stand the moves of its search.
pub fn openings(seed: u64) -> (Vec<Work>, Vec<u16>) {
    let mut random = Random::new(seed);
    let mut wide = Author::new(Lean::fresh(0));
    let mut narrow = Author::new(Lean::fresh(0));
    for _ in 0..31 {
        wide.open(u16::MAX);
        narrow.open((0..3).fold(0, |mask, _| mask | 1 << random.under(16)));
    }
    let unusual = Lean::from_bytes(&damage::sound_state(&mut random, 31, 16));
    let openings = [
        opening("31 jobs at all 16 databases", wide.state, u16::MAX),
        opening("31 jobs at up to 3 databases", narrow.state, 0b0111),
        opening("31 jobs with any dependencies", unusual, u16::MAX),
    ];
    openings.into_iter().unzip()
}

/// A call from the same state that is refused, to take away what every call costs.
pub fn refused(work: &Work) -> Work {
    let record = records::write(Call::Open { mask: 0 });
    Work { name: work.name.clone(), state: work.state, records: vec![record] }
}
