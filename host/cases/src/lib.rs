//! Sets whose answers are known from the papers, each with its reason: tables that every reader of
//! document 01 is run on. The sets are made by hand, from the LEDGER set of document 01 ([`ledger`]);
//! so are the tape files ([`simh`]).

pub mod blocks;
pub mod container;
pub mod dates;
pub mod fields;
pub mod labels;
pub mod ledger;
pub mod order;
pub mod rewriting;
pub mod simh;
pub mod tally;
pub mod walks;
pub mod writing;

use oracle::generate::{image_of, Piece};
use oracle::Answer;
use std::fmt;

/// An image, the answer that is due, and why.
pub struct Case {
    pub what: String,
    pub image: Vec<u8>,
    pub answer: Answer,
    pub reason: &'static str,
}

/// Number, item and byte, as the tables have them.
pub type Due = (u32, u32, u32);

pub const ACCEPTED: Due = (0, 0, 0);

impl Case {
    fn image(what: &str, image: Vec<u8>, due: Due, reason: &'static str) -> Case {
        let answer = Answer::new(due.0, due.1, due.2);
        Case { what: what.into(), image, answer, reason }
    }

    fn set(what: &str, set: Vec<Piece>, due: Due, reason: &'static str) -> Case {
        Case::image(what, image_of(&set), due, reason)
    }
}

impl fmt::Display for Case {
    fn fmt(&self, f: &mut fmt::Formatter) -> fmt::Result {
        let Answer { number, item, byte } = self.answer;
        write!(f, "{}: ({number},{item},{byte}), since {}", self.what, self.reason)
    }
}

/// Holds the reader to every case of a table.
#[track_caller]
pub fn run(cases: &[Case], check: impl Fn(&[u8]) -> Answer) {
    for case in cases {
        assert_eq!(check(&case.image), case.answer, "{case}");
    }
}
