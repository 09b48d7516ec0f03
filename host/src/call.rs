//! Calls and their answers, in document 01's words: what every implementation
//! here takes and gives.

/// The four calls. A database over 15 and a mask of 0 can be written, as they
/// are refused by the call and not by the reader of the record.
#[derive(Clone, Copy, Debug, PartialEq, Eq)]
pub enum Call {
    Open { mask: u16 },
    Ask { ticket: u16, database: u8 },
    Confirm { ticket: u16, database: u8 },
    Close { ticket: u16 },
}

/// The answers. "The answer holds the number and zeros": a refusal is its
/// number alone.
#[derive(Clone, Copy, Debug, PartialEq, Eq)]
pub enum Answer {
    Refused(u8),
    /// "Answer: ticket, number of dependencies that the search added, moves."
    Opened {
        ticket: u16,
        added: u16,
        moves: u16,
    },
    /// "Answer: released or held."
    Asked {
        released: bool,
    },
    /// "Answer: the ticket of the step released, or none."
    Confirmed {
        released: Option<u16>,
    },
    /// "Answer: held, or the tickets closed, in order, the asked one first."
    /// Held is the empty list: a close that is not held closes at least one.
    Closed(Tickets),
}

/// At most 32 tickets in order.
#[derive(Clone, Copy, Debug)]
pub struct Tickets {
    count: usize,
    list: [u16; 32],
}

impl Tickets {
    pub const NONE: Tickets = Tickets { count: 0, list: [0; 32] };

    #[inline]
    pub fn push(&mut self, ticket: u16) {
        self.list[self.count] = ticket;
        self.count += 1;
    }

    #[inline]
    pub fn as_slice(&self) -> &[u16] {
        &self.list[..self.count]
    }

    pub fn of(tickets: &[u16]) -> Tickets {
        let mut all = Tickets::NONE;
        tickets.iter().for_each(|&ticket| all.push(ticket));
        all
    }
}

impl PartialEq for Tickets {
    fn eq(&self, other: &Tickets) -> bool {
        self.as_slice() == other.as_slice()
    }
}

impl Eq for Tickets {}

/// An implementation of document 01 that can be set against another one.
pub trait Coordinator: Sized {
    const NAME: &'static str;

    /// "A fresh start takes any first candidate; the plain fresh start uses 0."
    fn fresh(candidate: u16) -> Self;

    /// Every string of this length is a state, perhaps an unsound one.
    fn from_bytes(bytes: &crate::layout::Bytes) -> Self;

    fn to_bytes(&self) -> crate::layout::Bytes;

    fn play(&mut self, call: Call) -> Answer;
}
