//! The order sheet, and its writing.

use crate::{ffi, Verdict};
use std::fmt;

/// An order sheet: what is to be written, the quota and the reel names. Anything may be put on it;
/// [`write()`] tells whether it is legal.
#[derive(Clone, Copy)]
pub struct Sheet<'a> {
    /// The set identifier, 6 bytes.
    pub set: &'a [u8],
    /// 46 bytes a file: file identifier (17), generation (4), version (2), creation date (6),
    /// expiration date (6), format (1), block length (5) and record length (5), as in its labels.
    pub files: &'a [u8],
    /// The number of records of each file.
    pub counts: &'a [u64],
    /// The length of each record, over all files.
    pub lengths: &'a [u64],
    /// The bytes of all records, end to end.
    pub data: &'a [u8],
    /// Data blocks that a reel may hold, 1 to 999,999.
    pub quota: u64,
    /// 6 bytes a reel name, 1 to 16 of them.
    pub names: &'a [u8],
}

/// Of lengths and data, which may be millions, only how many there are.
impl fmt::Debug for Sheet<'_> {
    fn fmt(&self, f: &mut fmt::Formatter) -> fmt::Result {
        f.debug_struct("Sheet")
            .field("set", &String::from_utf8_lossy(self.set))
            .field("files", &String::from_utf8_lossy(self.files))
            .field("counts", &self.counts)
            .field("lengths", &self.lengths.len())
            .field("data", &self.data.len())
            .field("quota", &self.quota)
            .field("names", &String::from_utf8_lossy(self.names))
            .finish()
    }
}

/// Writes the sheet into the front of `out` and gives the length of the image, or 9, 11, 12, 14 or
/// 10. A refusal leaves `out` as it was; bytes behind the image stay.
///
/// ```
/// let sheet = tardorelga::Sheet {
///     set: b"SET001",
///     files: b"LEDGER           000100 85335 00000F0002000010",
///     counts: &[1],
///     lengths: &[10],
///     data: b"0123456789",
///     quota: 1,
///     names: b"GATE01",
/// };
/// let mut out = [0; 500];
/// assert_eq!(tardorelga::write(&sheet, &mut out), Ok(448));
/// assert_eq!(out[..448], include_bytes!("../doc/ledger.tgi")[..]);
/// let short = tardorelga::write(&sheet, &mut out[..447]);
/// assert_eq!(short.unwrap_err().number, 10);
/// ```
pub fn write(sheet: &Sheet, out: &mut [u8]) -> Result<usize, Verdict> {
    let Sheet { set, files, counts, lengths, data, quota, names } = *sheet;
    // SAFETY: the parts of the sheet are lent to read and the buffer to write for the whole call;
    // they can't overlap, and nothing of them is kept.
    let ffi::Written { verdict, len } = unsafe {
        ffi::tardorelga_write(
            set.as_ptr(),
            set.len(),
            files.as_ptr(),
            files.len(),
            counts.as_ptr(),
            counts.len(),
            lengths.as_ptr(),
            lengths.len(),
            data.as_ptr(),
            data.len(),
            quota,
            names.as_ptr(),
            names.len(),
            out.as_mut_ptr(),
            out.len(),
        )
    };
    verdict.then(|| len as usize)
}
