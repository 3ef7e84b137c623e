//! The formats of records.

use std::fmt;

/// How the records of a file stand in its blocks.
///
/// ```
/// use tardorelga::Format;
/// assert_eq!((Format::Fixed.to_string(), Format::of(b'S')), ("F".into(), Some(Format::Segmented)));
/// ```
#[derive(Clone, Copy, Debug, PartialEq, Eq, Hash)]
pub enum Format {
    /// `F`: every record has the record length.
    Fixed,
    /// `D`: each record says its own length.
    Variable,
    /// `S`: a record may stand in segments, over blocks and reels.
    Segmented,
}

impl Format {
    /// The format of a letter of HDR2.
    pub fn of(letter: u8) -> Option<Format> {
        [Format::Fixed, Format::Variable, Format::Segmented]
            .into_iter()
            .find(|format| format.letter() == letter)
    }

    /// Its letter in HDR2.
    pub fn letter(self) -> u8 {
        match self {
            Format::Fixed => b'F',
            Format::Variable => b'D',
            Format::Segmented => b'S',
        }
    }
}

impl fmt::Display for Format {
    fn fmt(&self, f: &mut fmt::Formatter) -> fmt::Result {
        write!(f, "{}", char::from(self.letter()))
    }
}
