//! Knows one label of 80 bytes: its kind and the contents of its fields; knows nothing of other items.

use crate::chars::{is_a, is_date, number_of};

pub type Label = [u8; 80];

/// What a trailer ends.
#[derive(Clone, Copy, Debug, PartialEq, Eq)]
pub enum End {
    File,
    Volume,
}

/// A label's kind, with its number where the order of labels asks for it.
#[derive(Clone, Copy, Debug, PartialEq, Eq)]
pub enum Kind {
    Volume(u8),
    Installation(u8),
    Header(u8),
    UserHeader,
    Trailer(End, u8),
    UserTrailer,
}

/// A number that is due at an item, and its byte.
#[derive(Clone, Copy, Debug, PartialEq, Eq)]
pub struct Fault {
    pub number: u32,
    pub byte: u32,
}

impl Fault {
    pub const fn new(number: u32, byte: u32) -> Fault {
        Fault { number, byte }
    }
}

/// A field by its first byte position (from 1) and its width.
#[derive(Clone, Copy, Debug, PartialEq, Eq)]
pub struct Field {
    pub bp: u32,
    pub width: usize,
}

const fn field(bp: u32, width: usize) -> Field {
    Field { bp, width }
}

impl Field {
    pub fn of(self, label: &Label) -> &[u8] {
        let first = self.bp as usize - 1;
        &label[first..first + self.width]
    }

    pub fn number(self, label: &Label) -> Option<u32> {
        number_of(self.of(label))
    }

    pub fn same(self, one: &Label, other: &Label) -> bool {
        self.of(one) == self.of(other)
    }

    pub fn put(self, label: &mut Label, bytes: &[u8]) {
        let first = self.bp as usize - 1;
        label[first..first + self.width].copy_from_slice(bytes);
    }
}

pub const NAME: Field = field(1, 4);

pub const VOLUME_ID: Field = field(5, 6);
pub const VOLUME_ACCESS: Field = field(11, 1);
pub const VERSION_OF_STANDARD: Field = field(80, 1);

pub const FILE_ID: Field = field(5, 17);
pub const SET_ID: Field = field(22, 6);
pub const SECTION: Field = field(28, 4);
pub const SEQUENCE: Field = field(32, 4);
pub const GENERATION: Field = field(36, 4);
pub const VERSION: Field = field(40, 2);
pub const CREATION: Field = field(42, 6);
pub const EXPIRATION: Field = field(48, 6);
pub const DATES: [Field; 2] = [CREATION, EXPIRATION];
pub const FILE_ACCESS: Field = field(54, 1);
pub const BLOCK_COUNT: Field = field(55, 6);
pub const IMPLEMENTATION: Field = field(61, 13);

pub const FORMAT: Field = field(5, 1);
pub const BLOCK_LENGTH: Field = field(6, 5);
pub const RECORD_LENGTH: Field = field(11, 5);
pub const FREE: Field = field(16, 35);
pub const OFFSET_LENGTH: Field = field(51, 2);

/// What a field may hold.
#[derive(Clone, Copy)]
enum Rule {
    A,
    Spaces,
    Digits,
    Zeros,
    Positive,
    Date,
    Four,
}

impl Rule {
    fn allows(self, bytes: &[u8]) -> bool {
        match self {
            Rule::A => bytes.iter().all(|&byte| is_a(byte)),
            Rule::Spaces => bytes.iter().all(|&byte| byte == b' '),
            Rule::Digits => number_of(bytes).is_some(),
            Rule::Zeros => number_of(bytes) == Some(0),
            Rule::Positive => number_of(bytes).is_some_and(|value| value > 0),
            Rule::Date => is_date(bytes),
            Rule::Four => bytes == b"4",
        }
    }
}

const VOLUME: [(Field, Rule); 7] = [
    (VOLUME_ID, Rule::A),
    (VOLUME_ACCESS, Rule::A),
    (field(12, 13), Rule::Spaces),
    (field(25, 13), Rule::A),
    (field(38, 14), Rule::A),
    (field(52, 28), Rule::Spaces),
    (VERSION_OF_STANDARD, Rule::Four),
];

const fn first_label(count: Rule) -> [(Field, Rule); 12] {
    [
        (FILE_ID, Rule::A),
        (SET_ID, Rule::A),
        (SECTION, Rule::Digits),
        (SEQUENCE, Rule::Digits),
        (GENERATION, Rule::Positive),
        (VERSION, Rule::Digits),
        (CREATION, Rule::Date),
        (EXPIRATION, Rule::Date),
        (FILE_ACCESS, Rule::A),
        (BLOCK_COUNT, count),
        (IMPLEMENTATION, Rule::A),
        (field(74, 7), Rule::Spaces),
    ]
}

const HEADER1: [(Field, Rule); 12] = first_label(Rule::Zeros);
const TRAILER1: [(Field, Rule); 12] = first_label(Rule::Digits);

/// The kind read from BP 1-4, or from BP 1-3 of a user label.
pub fn kind_of(label: &Label) -> Option<Kind> {
    let number = label[3].wrapping_sub(b'0');
    let numbered = |kind| (1..=9).contains(&number).then_some(kind);
    match &label[..3] {
        b"VOL" => numbered(Kind::Volume(number)),
        b"UVL" => numbered(Kind::Installation(number)),
        b"HDR" => numbered(Kind::Header(number)),
        b"EOF" => numbered(Kind::Trailer(End::File, number)),
        b"EOV" => numbered(Kind::Trailer(End::Volume, number)),
        b"UHL" => Some(Kind::UserHeader),
        b"UTL" => Some(Kind::UserTrailer),
        _ => None,
    }
}

/// The label's own fault, 4 before 5, with the first BP of the lowest wrong field.
pub fn label_fault(label: &Label, kind: Kind) -> Option<Fault> {
    let (wrong, access) = match kind {
        Kind::Volume(1) => (wrong_field(label, &VOLUME), Some(VOLUME_ACCESS)),
        Kind::Header(1) => (wrong_field(label, &HEADER1), Some(FILE_ACCESS)),
        Kind::Trailer(_, 1) => (wrong_field(label, &TRAILER1), Some(FILE_ACCESS)),
        Kind::Header(2) | Kind::Trailer(_, 2) => (wrong_in_second(label), None),
        Kind::UserHeader | Kind::UserTrailer => ((!is_a(label[3])).then_some(4), None),
        _ => (None, None),
    };
    if let Some(bp) = wrong {
        return Some(Fault::new(4, bp));
    }
    let access = access.filter(|access| access.of(label) != b" ");
    access.map(|access| Fault::new(5, access.bp))
}

fn wrong_field(label: &Label, table: &[(Field, Rule)]) -> Option<u32> {
    let wrong = |(field, rule): &&(Field, Rule)| !rule.allows(field.of(label));
    table.iter().find(wrong).map(|(field, _)| field.bp)
}

/// R against B and O belongs to the place of R, so a wrong O shows only where R is good.
fn wrong_in_second(label: &Label) -> Option<u32> {
    let format = label[4];
    if !matches!(format, b'F' | b'D' | b'S') {
        return Some(FORMAT.bp);
    }
    let Some(block @ 1..) = BLOCK_LENGTH.number(label) else {
        return Some(BLOCK_LENGTH.bp);
    };
    // 8.5.2.6: in a D file R is the length of a whole unit, so it covers its control word.
    let least = if format == b'D' { 5 } else { 1 };
    let record = RECORD_LENGTH.number(label).unwrap_or(0);
    if record < least {
        return Some(RECORD_LENGTH.bp);
    }
    let Some(offset) = OFFSET_LENGTH.number(label) else {
        return Some(OFFSET_LENGTH.bp);
    };
    let needed = if format == b'S' { 6 } else { record };
    if needed + offset > block {
        return Some(RECORD_LENGTH.bp);
    }
    let spaces = field(53, 28);
    (!Rule::Spaces.allows(spaces.of(label))).then_some(spaces.bp)
}
