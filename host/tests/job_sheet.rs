//! Document 01's job sheet, all twelve lines, on every implementation here, and
//! the example of its paragraph on the program.

use host::call::{Answer, Call, Coordinator, Tickets};
use host::lean::Lean;
use host::plain::Plain;
use host::records;

/// A state under test; `C` is the implementation.
struct Sheet<C>(C);

impl<C: Coordinator> Sheet<C> {
    fn fresh(candidate: u16) -> Self {
        Sheet(C::fresh(candidate))
    }

    /// Ticket, added, moves.
    fn open(&mut self, databases: &[u8]) -> (u16, u16, u16) {
        let mask = databases.iter().map(|&database| 1 << database).sum();
        match self.0.play(Call::Open { mask }) {
            Answer::Opened { ticket, added, moves } => (ticket, added, moves),
            other => panic!("open {databases:?} answers {other:?}"),
        }
    }

    fn ask(&mut self, ticket: u16, database: u8) -> Answer {
        self.0.play(Call::Ask { ticket, database })
    }

    fn confirm(&mut self, ticket: u16, database: u8) -> Answer {
        self.0.play(Call::Confirm { ticket, database })
    }

    fn close(&mut self, ticket: u16) -> Answer {
        self.0.play(Call::Close { ticket })
    }

    fn line_1() -> Self {
        let mut sheet = Self::fresh(0);
        assert_eq!(sheet.open(&[0, 1]), (0, 0, 0));
        sheet
    }

    fn line_4() -> Self {
        let mut sheet = Self::line_1();
        assert_eq!(sheet.open(&[0, 1]), (1, 2, 6), "line 2");
        assert_eq!(sheet.ask(1, 0), HELD, "line 3");
        assert_eq!(sheet.ask(0, 0), RELEASED, "line 3");
        assert_eq!(sheet.confirm(0, 0), Answer::Confirmed { released: Some(1) }, "line 4");
        sheet
    }
}

const HELD: Answer = Answer::Asked { released: false };
const RELEASED: Answer = Answer::Asked { released: true };
const NONE: Answer = Answer::Confirmed { released: None };

fn lines_1_to_7<C: Coordinator>() {
    Sheet::<C>::line_4();
    let mut five = Sheet::<C>::fresh(0);
    five.open(&[0]);
    assert_eq!(five.open(&[0]), (1, 0, 2), "line 5");
    assert_eq!(five.ask(1, 0), RELEASED, "line 5");
    let mut six = Sheet::<C>::fresh(0);
    assert_eq!(six.open(&[0, 1]), (0, 0, 0), "line 6");
    assert_eq!(six.open(&[1, 2]), (1, 0, 2), "line 6");
    assert_eq!(six.open(&[0, 2]), (2, 2, 10), "line 6");
    let mut seven = Sheet::<C>::line_1();
    assert_eq!(seven.ask(0, 0), RELEASED, "line 7");
    assert_eq!(seven.open(&[0, 1]), (1, 1, 5), "line 7");
}

fn lines_8_to_10<C: Coordinator>() {
    let mut eight = Sheet::<C>::fresh(65_535);
    assert_eq!(eight.open(&[0]).0, 65_535, "line 8");
    assert_eq!(eight.open(&[0]).0, 0, "line 8");
    let mut nine = Sheet::<C>::fresh(0);
    // The thirty-second opening is the one that is accepted after 31 times.
    (0..32).for_each(|ticket| assert_eq!(nine.open(&[0]).0, ticket, "line 9"));
    assert_eq!(nine.0.play(Call::Open { mask: 0 }), Answer::Refused(1), "line 9");
    assert_eq!(nine.0.play(Call::Open { mask: 1 }), Answer::Refused(2), "line 9");
    let mut ten = Sheet::<C>::line_1();
    assert_eq!(ten.ask(0, 16), Answer::Refused(4), "line 10");
    assert_eq!(ten.ask(0, 15), Answer::Refused(5), "line 10");
}

fn line_11<C: Coordinator>() {
    let mut sheet = Sheet::<C>::line_4();
    assert_eq!(sheet.confirm(1, 0), NONE);
    assert_eq!(sheet.ask(0, 1), RELEASED);
    assert_eq!(sheet.confirm(0, 1), NONE);
    assert_eq!(sheet.ask(1, 1), RELEASED);
    assert_eq!(sheet.confirm(1, 1), NONE);
    assert_eq!(sheet.close(1), Answer::Closed(Tickets::NONE), "line 11");
    assert_eq!(sheet.close(0), Answer::Closed(Tickets::of(&[0, 1])), "line 11");
    let fresh = C::fresh(2).to_bytes();
    assert_eq!(sheet.0.to_bytes(), fresh);
}

fn line_12<C: Coordinator>() {
    let mut sheet = Sheet::<C>::fresh(65_535);
    assert_eq!(sheet.open(&[0]), (65_535, 0, 0));
    for ticket in 0..65_535 {
        assert_eq!(sheet.open(&[1]).0, ticket, "line 12");
        assert_eq!(sheet.ask(ticket, 1), RELEASED);
        assert_eq!(sheet.confirm(ticket, 1), NONE);
        assert_eq!(sheet.close(ticket), Answer::Closed(Tickets::of(&[ticket])));
    }
    assert_eq!(sheet.open(&[1]).0, 0, "line 12");
}

fn example<C: Coordinator>() {
    let records = [1, 0, 3, 0, 1, 0, 3, 0, 2, 0, 1, 0, 2, 0, 0, 0];
    let text = "0 0 0 0\n1 0 1 6\n2 0 0 0\n3 0 1 0\n";
    assert_eq!(String::from_utf8(records::program::<C>(&records)).unwrap(), text);
    assert_eq!(records::program::<C>(&[]), b"");
    for left_over in 1..4 {
        assert_eq!(records::program::<C>(&records[..left_over]), b"0 12 0 0\n");
    }
    assert_eq!(records::program::<C>(&[0, 0, 0, 0, 5, 1, 2]), b"0 11 0 0\n1 12 0 0\n");
}

fn whole_sheet<C: Coordinator>() {
    lines_1_to_7::<C>();
    lines_8_to_10::<C>();
    line_11::<C>();
    line_12::<C>();
    example::<C>();
}

#[test]
fn plain_keeps_the_job_sheet() {
    whole_sheet::<Plain>();
}

#[test]
fn lean_keeps_the_job_sheet() {
    whole_sheet::<Lean>();
}
