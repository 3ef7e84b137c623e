//! A file of a set: what its labels say of it, by name, and its records.

use crate::ffi::Begun;
use crate::records::{begun, Facts, Records};
use crate::{field, Format, Kind, Verdict, FILE_ENTRY, NAME};
use std::fmt;

/// A file of an accepted set: the fields of its first header labels that have a meaning, and its records.
///
/// ```
/// use tardorelga::Format;
/// let image = include_bytes!("../doc/ledger.tgi");
/// let file = tardorelga::file(image, 1).unwrap();
/// assert_eq!((file.set(), file.identifier()), ("SET001", "LEDGER"));
/// assert_eq!((file.format(), file.block_length(), file.record_length()), (Format::Fixed, 20, 10));
/// assert_eq!((file.records().len(), file.bytes()), (1, 10));
/// ```
#[derive(Clone, Copy, PartialEq, Eq)]
pub struct File<'a> {
    image: &'a [u8],
    begun: Begun,
    facts: Facts,
}

/// File number `number`, from 1, or the image's own number, then 13.
///
/// ```
/// let image = include_bytes!("../doc/ledger.tgi");
/// assert_eq!(tardorelga::file(image, 1).unwrap().identifier(), "LEDGER");
/// assert_eq!(tardorelga::file(image, 2).unwrap_err().number, 13);
/// ```
pub fn file(image: &[u8], number: u64) -> Result<File<'_>, Verdict> {
    let begun = begun(image, number);
    begun.verdict.then(|| File::new(image, begun))
}

impl<'a> File<'a> {
    /// The file that the library began in this accepted image.
    pub(crate) fn new(image: &'a [u8], begun: Begun) -> File<'a> {
        File { image, begun, facts: begun.walk.count(image) }
    }

    /// The set identifier, without the SPACEs that fill its field.
    pub fn set(&self) -> &'a str {
        text(self.set_identifier()).trim_end_matches(' ')
    }

    /// The file identifier, without the SPACEs that fill its field.
    pub fn identifier(&self) -> &'a str {
        text(self.of_first(5)).trim_end_matches(' ')
    }

    /// The sequence number of the file in its set, from 1.
    pub fn sequence(&self) -> u32 {
        number(self.of_first(32))
    }

    /// The generation number.
    pub fn generation(&self) -> u32 {
        number(self.of_first(36))
    }

    /// The version of the generation.
    pub fn version(&self) -> u32 {
        number(self.of_first(40))
    }

    /// The creation date of section 0001, six characters: SPACE or `0`, year and day. They stay as they
    /// stand there, since ` 00000` and `000000` are two values.
    pub fn created(&self) -> &'a str {
        text(self.of_first(42))
    }

    /// The expiration date of section 0001, in the same form.
    pub fn expires(&self) -> &'a str {
        text(self.of_first(48))
    }

    /// How its records stand in its blocks.
    pub fn format(&self) -> Format {
        Format::of(self.of_second(5)[0]).expect("an accepted file has a format")
    }

    /// The block length B.
    pub fn block_length(&self) -> u32 {
        number(self.of_second(6))
    }

    /// The record length R.
    pub fn record_length(&self) -> u32 {
        number(self.of_second(11))
    }

    /// Its records, in order; their number is the iterator's `len()`.
    ///
    /// ```
    /// let file = tardorelga::file(include_bytes!("../doc/ledger.tgi"), 1).unwrap();
    /// assert!(file.records().eq([&b"0123456789"[..]]));
    /// ```
    pub fn records(&self) -> Records<'a> {
        Records::new(self.image, self.begun.walk, self.facts.records.into())
    }

    /// The bytes of all its records.
    pub fn bytes(&self) -> u64 {
        self.facts.bytes
    }

    /// The file's 46 bytes of an order sheet, see [`Sheet::files`](crate::Sheet::files).
    ///
    /// ```
    /// let file = tardorelga::file(include_bytes!("../doc/ledger.tgi"), 1).unwrap();
    /// assert_eq!(&file.entry(), b"LEDGER           000100 85335 00000F0002000010");
    /// ```
    pub fn entry(&self) -> [u8; FILE_ENTRY] {
        let first = [5, 36, 40, 42, 48].map(|position| self.of_first(position));
        let second = [5, 6, 11].map(|position| self.of_second(position));
        let mut entry = [0; FILE_ENTRY];
        let bytes = first.into_iter().chain(second).flatten();
        entry.iter_mut().zip(bytes).for_each(|(to, byte)| *to = *byte);
        entry
    }

    /// The set identifier's 6 bytes of an order sheet, see [`Sheet::set`](crate::Sheet::set).
    ///
    /// ```
    /// let file = tardorelga::file(include_bytes!("../doc/ledger.tgi"), 1).unwrap();
    /// assert_eq!(&file.set_entry(), b"SET001");
    /// ```
    pub fn set_entry(&self) -> [u8; NAME] {
        let mut entry = [0; NAME];
        entry.copy_from_slice(self.set_identifier());
        entry
    }

    fn set_identifier(&self) -> &'a [u8] {
        self.of_first(22)
    }

    /// The field of its first HDR1 label that begins at this position.
    fn of_first(&self, position: u32) -> &'a [u8] {
        self.part(Kind::Hdr(1), self.begun.first, position)
    }

    /// The field of its first HDR2 label that begins at this position.
    fn of_second(&self, position: u32) -> &'a [u8] {
        self.part(Kind::Hdr(2), self.begun.second, position)
    }

    fn part(&self, kind: Kind, label: u64, position: u32) -> &'a [u8] {
        let field = field(kind, position).expect("the label has a field there");
        field.of(&self.image[label as usize..])
    }
}

/// Without the image, which may be long.
impl fmt::Debug for File<'_> {
    fn fmt(&self, f: &mut fmt::Formatter) -> fmt::Result {
        f.debug_struct("File")
            .field("set", &self.set())
            .field("entry", &text(&self.entry()))
            .field("records", &self.facts.records)
            .field("bytes", &self.facts.bytes)
            .finish()
    }
}

/// The labels of an accepted set have a-characters and digits in these fields.
fn text(field: &[u8]) -> &str {
    std::str::from_utf8(field).expect("a label field is text")
}

fn number(digits: &[u8]) -> u32 {
    digits.iter().fold(0, |number, digit| 10 * number + u32::from(digit - b'0'))
}
