//! A second, independent reading of the rules for labelled tape sets (ECMA-13, 4th edition, as cut
//! down in document 01, with P1 and P2 of document 02): the oracle of differential tests and the yardstick
//! of benchmarks.
//!
//! The layers, from the bytes of an image upward: [`chars`], [`tape`], [`label`], [`order`],
//! [`block`], [`set`], [`content`], [`walk`], [`records`], [`sheet`], [`writer`], [`listing`]; [`simh`]
//! beside them, on [`tape`] alone; and [`generate`] for tests.

pub mod block;
pub mod chars;
pub mod content;
pub mod generate;
pub mod label;
pub mod listing;
pub mod order;
pub mod records;
pub mod set;
pub mod sheet;
pub mod simh;
pub mod tape;
pub mod walk;
pub mod writer;

pub use block::{cut_block, turns, OutOfTurn, Shape, Unit};
pub use chars::{is_a, is_date, is_digit, number_of};
pub use content::{meaning, record, File, Found, Meaning};
pub use label::{kind_of, label_fault, End, Fault, Kind, Label};
pub use listing::{listing, listing_of_input};
pub use records::Records;
pub use set::check;
pub use sheet::{Order, Sheet};
pub use simh::{from_simh, to_simh, Tapes};
pub use tape::framing;
pub use walk::{begin, Begun, Walk};
pub use writer::{rewrite, write, Written};

/// What an operation gives back: a number of document 01, and its place. Number 0 is "done".
#[derive(Clone, Copy, Debug, PartialEq, Eq, PartialOrd, Ord, Hash)]
pub struct Answer {
    pub number: u32,
    pub item: u32,
    pub byte: u32,
}

impl Answer {
    pub const DONE: Answer = Answer::without_place(0);

    pub const fn new(number: u32, item: u32, byte: u32) -> Answer {
        Answer { number, item, byte }
    }

    /// A number whose place is item 0, byte 0.
    pub const fn without_place(number: u32) -> Answer {
        Answer::new(number, 0, 0)
    }

    pub fn is_done(self) -> bool {
        self.number == 0
    }
}
