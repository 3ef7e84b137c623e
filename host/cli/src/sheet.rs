//! The order sheet as a text: its lines, and the slices that the library takes. Its form is told in
//! docs/SHEET.md; whether it is legal, only the library tells.

mod ask;
mod blame;
mod field;
mod print;
mod read;
mod records;
mod source;
mod wrong;

pub use ask::{is_quota, too_many_names, unfit_name, Unfit, QUOTAS};
pub use field::CHARACTERS;
pub use print::{file_text, head_text};
pub use source::Source;

use field::FIELDS;
use std::fs::File;
use wrong::{Fault, Judge, Wrong};

/// An order sheet and the lines that its parts stand on.
#[derive(Default)]
pub struct Order {
    set: Vec<u8>,
    files: Vec<u8>,
    counts: Vec<u64>,
    lengths: Vec<u64>,
    data: Vec<u8>,
    quota: u64,
    names: Vec<u8>,
    lines: Lines,
}

/// Line numbers, from 1.
#[derive(Default)]
struct Lines {
    set: usize,
    quota: usize,
    reels: Vec<usize>,
    files: Vec<FileLines>,
}

/// The lines of one file; a field that has none has its usual value.
#[derive(Clone, Default)]
struct FileLines {
    fields: [Option<usize>; FIELDS.len()],
    /// Each line that gives records, with how many records of the file stand before it. A sheet has no
    /// more lines nor records than 32 bits count, and there may be millions of both.
    records: Vec<(u32, u32)>,
}

impl Order {
    /// Reads the text of a sheet, and the files that it names.
    pub fn read(text: File, source: Source) -> Result<Order, Wrong> {
        read::read(text, source)
    }

    /// The slices of the sheet, as the library takes them.
    pub fn sheet(&self) -> tardorelga::Sheet<'_> {
        tardorelga::Sheet {
            set: &self.set,
            files: &self.files,
            counts: &self.counts,
            lengths: &self.lengths,
            data: &self.data,
            quota: self.quota,
            names: &self.names,
        }
    }
}

/// A reel name at its width, or what was expected.
pub fn reel_name(name: &[u8]) -> Result<Vec<u8>, String> {
    field::REEL.filled(name)
}
