//! The normal form of a set.

use crate::{ffi, Verdict};

/// Writes the meaning of a set in its one normal form, on these reels, into the front of `out` and gives
/// the length of the image: the image's own number, then those of [`write`](crate::write). A refusal
/// leaves `out` as it was; bytes behind the image stay.
///
/// ```
/// // A set that the library wrote is its own normal form, on the same reels.
/// let image = include_bytes!("../doc/ledger.tgi");
/// let mut out = [0; 500];
/// assert_eq!(tardorelga::rewrite(image, 1, b"GATE01", &mut out), Ok(448));
/// assert_eq!(out[..448], image[..]);
/// ```
pub fn rewrite(image: &[u8], quota: u64, names: &[u8], out: &mut [u8]) -> Result<usize, Verdict> {
    // SAFETY: the image and the names are lent to read and the buffer to write for the whole call; they
    // can't overlap, and nothing of them is kept.
    let ffi::Written { verdict, len } = unsafe {
        ffi::tardorelga_rewrite(
            image.as_ptr(),
            image.len(),
            quota,
            names.as_ptr(),
            names.len(),
            out.as_mut_ptr(),
            out.len(),
        )
    };
    verdict.then(|| len as usize)
}
