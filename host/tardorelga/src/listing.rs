//! The listing of a set.

use crate::{ffi, Verdict};

/// Writes the listing of a set, a line a file, or the line that says why the set is refused, into the
/// front of `out` and gives its length; 10 where it does not fit. A refusal of 10 leaves `out` as it was;
/// bytes behind the text stay.
///
/// ```
/// let mut text = [0; 100];
/// let len = tardorelga::listing(include_bytes!("../doc/ledger.tgi"), &mut text).unwrap();
/// let lines = "SEQ FILE              FMT RECORDS BYTES\n0001 LEDGER            F 1 10\n";
/// assert_eq!(&text[..len], lines.as_bytes());
/// let len = tardorelga::listing(b"no tape", &mut text).unwrap();
/// assert_eq!(&text[..len], b"refused 1 at item 0 byte 0\n");
/// ```
pub fn listing(image: &[u8], out: &mut [u8]) -> Result<usize, Verdict> {
    // SAFETY: the image is lent to read and the buffer to write for the whole call; they can't
    // overlap, and nothing of them is kept.
    let ffi::Written { verdict, len } = unsafe {
        ffi::tardorelga_listing(image.as_ptr(), image.len(), out.as_mut_ptr(), out.len())
    };
    verdict.then(|| len as usize)
}
