//! The files of a set, one after the other.

use crate::ffi::{self, Begun};
use crate::records::begun;
use crate::{File, Verdict, MOST_FILES};
use std::fmt;
use std::iter::FusedIterator;

/// The files of an accepted set, in order. The set was checked once, before the first.
///
/// ```
/// let image = include_bytes!("../doc/ledger.tgi");
/// for file in tardorelga::files(image).unwrap() {
///     assert_eq!((file.sequence(), file.identifier()), (1, "LEDGER"));
/// }
/// ```
#[derive(Clone)]
pub struct Files<'a> {
    image: &'a [u8],
    /// The file that comes next, or 13.
    next: Begun,
    handed_out: usize,
}

/// The files of a set, or the image's own number.
///
/// ```
/// let names: Vec<_> = tardorelga::files(include_bytes!("../doc/ledger.tgi"))
///     .unwrap()
///     .map(|file| file.identifier())
///     .collect();
/// assert_eq!(names, ["LEDGER"]);
/// assert_eq!(tardorelga::files(b"no tape").unwrap_err().number, 1);
/// ```
pub fn files(image: &[u8]) -> Result<Files<'_>, Verdict> {
    let next = begun(image, 1);
    next.verdict.then(|| Files { image, next, handed_out: 0 })
}

/// The file behind the one whose HDR1 and HDR2 stand at these places of an accepted image, or 13.
fn next_file(image: &[u8], first: u64, second: u64) -> Begun {
    // SAFETY: the image is lent to read for the whole call, and nothing of it is kept.
    unsafe { ffi::tardorelga_next_file(image.as_ptr(), image.len(), first, second) }
}

impl<'a> Iterator for Files<'a> {
    type Item = File<'a>;

    fn next(&mut self) -> Option<File<'a>> {
        let Files { image, next, .. } = *self;
        if !next.verdict.is_accepted() {
            return None;
        }
        self.next = next_file(image, next.first, next.second);
        self.handed_out += 1;
        Some(File::new(image, next))
    }

    /// Only a walk over the image would tell how many files follow the next one.
    fn size_hint(&self) -> (usize, Option<usize>) {
        match self.next.verdict.is_accepted() {
            true => (1, Some(MOST_FILES.saturating_sub(self.handed_out))),
            false => (0, Some(0)),
        }
    }
}

impl FusedIterator for Files<'_> {}

/// Without the image, which may be long.
impl fmt::Debug for Files<'_> {
    fn fmt(&self, f: &mut fmt::Formatter) -> fmt::Result {
        let Files { next, handed_out, .. } = self;
        f.debug_struct("Files").field("next", next).field("handed_out", handed_out).finish()
    }
}
