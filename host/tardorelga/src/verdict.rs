//! The verdict on an image.

use crate::ffi;
use crate::numbers::DONE;
use std::fmt;

/// An answer: it is done, or refused with a number and the place of the first fault. The
/// [numbers](crate#the-numbers) stand in one table.
///
/// ```
/// let verdict = tardorelga::check(b"no tape");
/// assert!(!verdict.is_accepted());
/// assert_eq!((verdict.number, verdict.item, verdict.byte), (1, 0, 0));
/// ```
#[repr(C)]
#[derive(Clone, Copy, Debug, PartialEq, Eq, Hash)]
pub struct Verdict {
    /// 0, or why it is refused.
    pub number: u32,
    /// For 2 to 9 on an image: the number of the item at fault, from 0 over the whole image, tape
    /// marks and ends of reels counted too. For 15: the number that what is wrong or missing would have
    /// in the image, or 4,294,967,295 where it would have a higher one. Else 0, and for an image that is too
    /// long or lengths that don't add up.
    pub item: u32,
    /// For 4, 5 and 6: the byte position, from 1, at which the lowest wrong field begins. Else 0.
    pub byte: u32,
}

impl Verdict {
    /// Every rule holds.
    pub fn is_accepted(self) -> bool {
        self.number == DONE
    }

    /// The sentence of its number.
    ///
    /// ```
    /// let verdict = tardorelga::check(b"no tape");
    /// assert_eq!(verdict.words(), "this is no image of a tape set");
    /// ```
    pub fn words(self) -> &'static str {
        match self.number {
            0 => "accepted, or done",
            1 => "this is no image of a tape set",
            2 => "an item is torn, or there are not 1 to 16 reels with an end each",
            3 => "an item stands where the order of a reel forbids it",
            4 => "a label field has a wrong content",
            5 => "access to the volume or file is restricted",
            6 => "labels, counts or names do not agree with each other",
            7 => "a data block is too long, or cannot be cut into records",
            8 => "the segments of a record are out of turn or have no end, or it is too long",
            9 => "over a limit: 16777215 bytes, 64 files, 16 reels",
            10 => "a buffer is too short",
            11 => "the order sheet is illegal",
            12 => "more reels are needed than are named",
            13 => "there is no such file or record",
            14 => "the image would be longer than 16777215 bytes",
            15 => "no good record, tape mark or end of the medium stands there, or bytes follow the end",
            _ => "an unknown number",
        }
    }

    /// The value of an answer that is done, else the refusal.
    pub(crate) fn then<T>(self, value: impl FnOnce() -> T) -> Result<T, Verdict> {
        match self.is_accepted() {
            true => Ok(value()),
            false => Err(self),
        }
    }
}

/// `accepted`, or the number and its place in the words of the listing.
///
/// ```
/// use tardorelga::Verdict;
/// let accepted = Verdict { number: 0, item: 0, byte: 0 };
/// assert_eq!(accepted.to_string(), "accepted");
/// let refused = Verdict { number: 6, item: 6, byte: 55 };
/// assert_eq!(refused.to_string(), "refused 6 at item 6 byte 55");
/// ```
impl fmt::Display for Verdict {
    fn fmt(&self, f: &mut fmt::Formatter) -> fmt::Result {
        let Verdict { number, item, byte } = self;
        match self.is_accepted() {
            true => write!(f, "accepted"),
            false => write!(f, "refused {number} at item {item} byte {byte}"),
        }
    }
}

impl std::error::Error for Verdict {}

/// Checks the image of a set, whatever its bytes and its length: 0 to 9. It takes time linear in the
/// length, copies nothing and allocates nothing.
///
/// ```
/// // A head, a tape mark, and then a block that says 2 bytes and has one.
/// let torn = tardorelga::check(b"TGI\x00\x01\x00\x00\x00\x00\x00\x02A");
/// assert_eq!((torn.number, torn.item, torn.byte), (2, 1, 0));
/// ```
pub fn check(image: &[u8]) -> Verdict {
    // SAFETY: the image is lent to read for the whole call, and nothing of it is kept.
    unsafe { ffi::tardorelga_check(image.as_ptr(), image.len()) }
}
