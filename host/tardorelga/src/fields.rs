//! The fields of labels: where they stand, which the library tells, what they are called, and what they hold in words.

use crate::{ffi, Kind};
use std::iter::successors;

/// A field of a label. Only [`field`] and [`fields`] make one.
#[derive(Clone, Copy, Debug, PartialEq, Eq)]
#[non_exhaustive]
pub struct Field {
    /// The position of its first byte in the label, from 1.
    pub first: u32,
    /// How many bytes it has.
    pub len: u32,
    /// What it is called.
    pub name: &'static str,
    /// What must stand there, in words.
    pub holds: &'static str,
}

impl Field {
    /// The position of its last byte, from 1.
    pub fn last(&self) -> u32 {
        self.first + self.len - 1
    }

    /// The bytes of the field in a label of its kind.
    ///
    /// # Panics
    ///
    /// Where the bytes end before the field does; a label has 80.
    pub fn of<'a>(&self, label: &'a [u8]) -> &'a [u8] {
        &label[self.first as usize - 1..self.last() as usize]
    }
}

/// The field of a label of this kind in which byte position `byte`, from 1, stands. There is none behind
/// position 80, and none in an item of which the standard knows no fields.
///
/// ```
/// use tardorelga::{field, Kind};
/// let count = field(Kind::Eof(1), 57).unwrap();
/// assert_eq!((count.name, count.first, count.len), ("block count", 55, 6));
/// assert_eq!(field(Kind::TapeMark, 1), None);
/// ```
pub fn field(kind: Kind, byte: u32) -> Option<Field> {
    let (family, number) = kind.numbers();
    match field_at(family, number, byte) {
        0 => None,
        first => {
            let is_within = |&byte: &u32| field_at(family, number, byte) == first;
            let len = (first..).take_while(is_within).count() as u32;
            let (name, holds) = words(kind, first);
            Some(Field { first, len, name, holds })
        }
    }
}

/// All fields of a label of this kind, in order.
///
/// ```
/// let names = tardorelga::fields(tardorelga::Kind::Uhl).map(|field| field.name);
/// assert_eq!(names.collect::<Vec<_>>(), ["label name", "label number", "user's text"]);
/// ```
pub fn fields(kind: Kind) -> impl Iterator<Item = Field> {
    successors(field(kind, 1), move |field_before| field(kind, field_before.last() + 1))
}

/// The position at which a field begins, its name, and what must stand there.
type Row = (u32, &'static str, &'static str);

const CHARACTERS: &str = "a-characters";
const DIGITS: &str = "digits";
const POSITIVE: &str = "a number, 1 or more";
const SPACES: &str = "SPACEs";
const DATE: &str = "a date (SPACE or 0, year, day)";
const KIND: &str = "the name of its kind";
const ANY: &str = "any bytes";

const VOL1: [Row; 8] = [
    (1, "label name", KIND),
    (5, "volume identifier", CHARACTERS),
    (11, "accessibility", CHARACTERS),
    (12, "reserved field", SPACES),
    (25, "implementation", CHARACTERS),
    (38, "owner", CHARACTERS),
    (52, "reserved field", SPACES),
    (80, "label standard version", "4"),
];

const HDR1: [Row; 13] = first("ZEROs");

/// EOV1 and EOF1.
const TRAILER1: [Row; 13] = first(DIGITS);

/// A first label, with what its block count must be.
const fn first(block_count: &'static str) -> [Row; 13] {
    [
        (1, "label name", KIND),
        (5, "file identifier", CHARACTERS),
        (22, "set identifier", CHARACTERS),
        (28, "section number", DIGITS),
        (32, "sequence number", DIGITS),
        (36, "generation number", POSITIVE),
        (40, "version number", DIGITS),
        (42, "creation date", DATE),
        (48, "expiration date", DATE),
        (54, "accessibility", CHARACTERS),
        (55, "block count", block_count),
        (61, "implementation", CHARACTERS),
        (74, "reserved field", SPACES),
    ]
}

/// HDR2, EOV2 and EOF2.
const SECOND: [Row; 7] = [
    (1, "label name", KIND),
    (5, "record format", "F, D or S"),
    (6, "block length", POSITIVE),
    (11, "record length", "a number that suits format, block length and offset length"),
    (16, "free field", ANY),
    (51, "offset length", DIGITS),
    (53, "reserved field", SPACES),
];

/// UHL and UTL.
const USER: [Row; 3] =
    [(1, "label name", KIND), (4, "label number", CHARACTERS), (5, "user's text", ANY)];

/// The name of the field that begins at this position, and what must stand there.
fn words(kind: Kind, first: u32) -> (&'static str, &'static str) {
    let rows: &[Row] = match kind {
        Kind::Vol(1) => &VOL1,
        Kind::Hdr(1) => &HDR1,
        Kind::Eov(1) | Kind::Eof(1) => &TRAILER1,
        Kind::Hdr(2) | Kind::Eov(2) | Kind::Eof(2) => &SECOND,
        Kind::Uhl | Kind::Utl => &USER,
        _ => &[],
    };
    let row = rows.iter().find(|(begin, ..)| *begin == first);
    row.map_or(("", ""), |&(_, name, holds)| (name, holds))
}

/// The position of the first byte of the field in which a byte stands, or 0.
fn field_at(kind: u32, number: u32, byte: u32) -> u32 {
    // SAFETY: only numbers go either way.
    unsafe { ffi::tardorelga_field_at(kind, number, byte) }
}
