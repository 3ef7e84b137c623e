//! What the library says of sheets that differ from a plain legal one in one thing. It alone judges.

use tardorelga::numbers::{ILLEGAL_SHEET, OVER_LIMIT};
use tardorelga::{Sheet, Verdict, FILE_ENTRY, NAME};

/// A legal sheet.
pub const PLAIN: Sheet = Sheet {
    set: b"SET001",
    files: PLAIN_FILE,
    counts: &[0],
    lengths: &[],
    data: b"",
    quota: 1,
    names: b"GATE01",
};

/// A file of which any field but the block length may have any good value, the others being as they are.
pub const PLAIN_FILE: &[u8; FILE_ENTRY] = b"LEDGER           000100 85335 00000F0002000005";

/// What a quota may be, in words.
pub const QUOTAS: &str = "1 to 999999";

/// The library's answer, without a buffer to write to.
fn refused(sheet: &Sheet, number: u32) -> Option<Verdict> {
    tardorelga::write(sheet, &mut []).err().filter(|verdict| verdict.number == number)
}

pub fn is_illegal(sheet: &Sheet) -> bool {
    refused(sheet, ILLEGAL_SHEET).is_some()
}

/// Whether any sheet with so many files is over a limit.
pub fn too_many_files(count: usize) -> Option<Verdict> {
    let (files, counts) = (PLAIN_FILE.repeat(count), vec![0; count]);
    refused(&Sheet { files: &files, counts: &counts, ..PLAIN }, OVER_LIMIT)
}

/// Whether any sheet with so many reel names is over a limit.
pub fn too_many_names(names: &[u8]) -> Option<Verdict> {
    refused(&Sheet { names, ..PLAIN }, OVER_LIMIT)
}

pub fn is_quota(quota: u64) -> bool {
    !is_illegal(&Sheet { quota, ..PLAIN })
}

/// What may be wrong with one of several reel names.
pub enum Unfit {
    /// No label holds it.
    Alone,
    /// One before it is the same.
    Again,
}

/// The first reel name that no sheet can have, from 0: each name alone, and with those before it.
pub fn unfit_name(names: &[u8]) -> Option<(usize, Unfit)> {
    let with = |names| is_illegal(&Sheet { names, ..PLAIN });
    (0..names.len() / NAME).find_map(|i| {
        let (start, end) = (i * NAME, (i + 1) * NAME);
        match with(&names[start..end]) {
            true => Some((i, Unfit::Alone)),
            false => with(&names[..end]).then_some((i, Unfit::Again)),
        }
    })
}
