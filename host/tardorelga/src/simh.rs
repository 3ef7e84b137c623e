//! Tape files of the SIMH magtape form, put into the image of a set and back.

use crate::{ffi, Verdict};

/// Puts SIMH tape files into the image that has the same items, written to the front of `out`, and gives
/// its length. `tape` has the files end to end, one a reel, and `lengths` the length of each: 15, then 2
/// for no file or more than 16, then 14 and 10. No image is longer than `5 + tape.len()`. A refusal leaves
/// `out` as it was; bytes behind the image stay.
///
/// ```
/// // A block of three bytes with its pad byte, a tape mark and the end of the medium.
/// let tape = b"\x03\0\0\0ABC\0\x03\0\0\0\0\0\0\0\xFF\xFF\xFF\xFF";
/// let mut image = [0; 25];
/// assert_eq!(tardorelga::from_simh(tape, &[20], &mut image), Ok(17));
/// assert_eq!(&image[..17], b"TGI\0\x01\0\0\x03ABC\0\0\0\xFF\xFF\xFF");
/// let cut_short = tardorelga::from_simh(&tape[..19], &[19], &mut image);
/// assert_eq!(cut_short.unwrap_err().to_string(), "refused 15 at item 2 byte 0");
/// ```
pub fn from_simh(tape: &[u8], lengths: &[u64], out: &mut [u8]) -> Result<usize, Verdict> {
    // SAFETY: the files and their lengths are lent to read and the buffer to write for the whole call;
    // they can't overlap, and nothing of them is kept.
    let ffi::Written { verdict, len } = unsafe {
        ffi::tardorelga_from_simh(
            tape.as_ptr(),
            tape.len(),
            lengths.as_ptr(),
            lengths.len(),
            out.as_mut_ptr(),
            out.len(),
        )
    };
    verdict.then(|| len as usize)
}

/// SIMH tape files that were written.
#[derive(Clone, Copy, Debug, PartialEq, Eq)]
pub struct Tapes {
    /// The bytes of all files.
    pub len: usize,
    /// The number of files, one a reel.
    pub files: usize,
}

/// Puts an image into SIMH tape files, written end to end to the front of `out`, and their lengths to the
/// front of `lengths`: 9, 1, 2, then 10 where either is too short. Nothing but the items is looked at, so
/// that a set which [`check`](crate::check) refuses with another number is converted too. The files are
/// never longer than `image.len() * 5 / 2`, and 16 lengths are enough. A refusal leaves both buffers as they
/// were; what stands behind the files and behind their lengths stays.
///
/// ```
/// // A block of three bytes, a tape mark and an end of reel.
/// let image = b"TGI\0\x01\0\0\x03ABC\0\0\0\xFF\xFF\xFF";
/// let (mut tape, mut lengths) = ([0; 42], [0; 16]);
/// let written = tardorelga::to_simh(image, &mut tape, &mut lengths).unwrap();
/// assert_eq!((written.len, written.files, lengths[0]), (20, 1, 20));
/// assert_eq!(&tape[..20], b"\x03\0\0\0ABC\0\x03\0\0\0\0\0\0\0\xFF\xFF\xFF\xFF");
/// ```
pub fn to_simh(image: &[u8], out: &mut [u8], lengths: &mut [u64]) -> Result<Tapes, Verdict> {
    // SAFETY: the image is lent to read and both buffers to write for the whole call; they can't overlap,
    // and nothing of them is kept.
    let ffi::Tapes { verdict, len, files } = unsafe {
        ffi::tardorelga_to_simh(
            image.as_ptr(),
            image.len(),
            out.as_mut_ptr(),
            out.len(),
            lengths.as_mut_ptr(),
            lengths.len(),
        )
    };
    verdict.then(|| Tapes { len: len as usize, files: files as usize })
}
