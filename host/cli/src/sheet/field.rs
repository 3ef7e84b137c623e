//! The fields of a file on the sheet: their keywords, where they stand in the library's entry, and
//! how a value is filled up to its width.

use tardorelga::NAME;

/// How a value shorter than its field is filled up.
#[derive(Clone, Copy, PartialEq, Eq)]
enum Fill {
    /// SPACEs behind it.
    Text,
    /// Digits, with ZEROs before them.
    Number,
    /// Year and day, with a SPACE before them.
    Date,
}

/// A keyword and its field.
pub struct Field {
    pub key: &'static str,
    pub at: usize,
    pub width: usize,
    fill: Fill,
    /// What stands there where the sheet says nothing.
    pub usual: Option<&'static [u8]>,
    /// What the library takes there, in words.
    pub good: &'static str,
}

/// The characters of a label, in words.
pub const CHARACTERS: &str =
    "capital letters, digits, SPACE and ! \" % & ' ( ) * + , - . / : ; < = > ? _";
const SUITING: &str =
    "for F 1 to the block length, for D 5 to the block length, for S 1 or more with a \
    block length of 6 or more";
const DATES: &str = "a year, and a day of 001 to 366; or 00000 for no date";

const fn field(
    key: &'static str,
    at: usize,
    width: usize,
    fill: Fill,
    usual: Option<&'static [u8]>,
    good: &'static str,
) -> Field {
    Field { key, at, width, fill, usual, good }
}

/// The fields in the order of the entry; the first begins a file.
pub const FIELDS: [Field; 8] = [
    field("file", 0, 17, Fill::Text, None, CHARACTERS),
    field("generation", 17, 4, Fill::Number, Some(b"0001"), "1 to 9999"),
    field("version", 21, 2, Fill::Number, Some(b"00"), "0 to 99"),
    field("created", 23, 6, Fill::Date, Some(b" 00000"), DATES),
    field("expires", 29, 6, Fill::Date, Some(b" 00000"), DATES),
    field("format", 35, 1, Fill::Text, None, "F, D or S"),
    field("block-length", 36, 5, Fill::Number, None, "1 to 99999"),
    field("record-length", 41, 5, Fill::Number, None, SUITING),
];

pub const SET: Field = field("set", 0, NAME, Fill::Text, None, CHARACTERS);
pub const REEL: Field = field("reel", 0, NAME, Fill::Text, None, CHARACTERS);

impl Field {
    /// The field in the entry of a file.
    pub fn of<'a>(&self, entry: &'a [u8]) -> &'a [u8] {
        &entry[self.at..][..self.width]
    }

    /// Puts a value of the field's width into the entry of a file.
    pub fn put(&self, entry: &mut [u8], value: &[u8]) {
        entry[self.at..][..self.width].copy_from_slice(value);
    }

    /// The value at the field's width, or what was expected in its place.
    pub fn filled(&self, value: &[u8]) -> Result<Vec<u8>, String> {
        let digits = value.iter().all(u8::is_ascii_digit);
        let width = self.width;
        let spare = width.checked_sub(value.len());
        match (self.fill, spare) {
            (_, Some(spare)) if value.is_empty() && spare > 0 => Err(self.expected()),
            (_, Some(0)) => Ok(value.to_vec()),
            (Fill::Text, Some(spare)) => Ok([value, &b" ".repeat(spare)].concat()),
            (Fill::Number, Some(spare)) if digits => Ok([&b"0".repeat(spare), value].concat()),
            (Fill::Date, Some(1)) if digits => Ok([b" ", value].concat()),
            _ => Err(self.expected()),
        }
    }

    fn expected(&self) -> String {
        let Field { key, width, .. } = self;
        match self.fill {
            Fill::Text if *width == 1 => format!("expected one character behind '{key}'"),
            Fill::Text => format!("expected 1 to {width} characters behind '{key}'"),
            Fill::Number => format!("expected a number of at most {width} digits behind '{key}'"),
            Fill::Date => {
                format!("expected a date behind '{key}': two digits of the year, three of the day")
            }
        }
    }

    /// The value as a sheet has it: without what filling puts there, in brackets where that would not
    /// give it back.
    pub fn text(&self, bytes: &[u8]) -> Vec<u8> {
        let shown: &[u8] = match self.fill {
            Fill::Text => bytes.trim_ascii_end(),
            Fill::Number => bytes,
            Fill::Date => bytes.trim_ascii_start(),
        };
        let bare = super::read::is_bare(shown) && self.filled(shown).as_deref() == Ok(bytes);
        match bare {
            true => shown.to_vec(),
            false => [b"[", bytes, b"]"].concat(),
        }
    }
}
