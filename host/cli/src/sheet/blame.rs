//! Finds the line for which the library refuses a sheet, by asking it about each line in a plain legal one.

use super::ask::{is_illegal, is_quota, unfit_name, Unfit, PLAIN, PLAIN_FILE, QUOTAS};
use super::field::{Field, CHARACTERS};
use super::{Order, Wrong, FIELDS};
use crate::halves;
use crate::needed::{self, RAISE};
use crate::text::many;
use tardorelga::numbers::{FEW_REELS, ILLEGAL_SHEET};
use tardorelga::{Sheet, Verdict, FILE_ENTRY};

const BLOCK_LENGTH: usize = FIELDS.len() - 2;
const RECORD_LENGTH: usize = FIELDS.len() - 1;
/// The record length that goes with any good block length.
const LEAST: &[u8] = b"00001";

fn unheld(what: &str) -> String {
    format!("expected {what} that a label can hold: {CHARACTERS}")
}

impl Order {
    /// What is wrong with a sheet that the library refuses.
    pub fn blamed(&self, verdict: Verdict) -> Wrong {
        let wrong = match verdict.number {
            ILLEGAL_SHEET => self.illegal_line(),
            FEW_REELS => Wrong::of_sheet(self.reels_needed()),
            _ => Wrong::of_sheet(self.size()),
        };
        wrong.by(verdict)
    }

    /// What the library says of the sheet with another quota and other names.
    fn answer(&self, quota: u64, names: &[u8]) -> Result<usize, Verdict> {
        tardorelga::write(&Sheet { quota, names, ..self.sheet() }, &mut [])
    }

    fn size(&self) -> String {
        let records = many(self.lengths.len() as u64, "record");
        let bytes = many(self.data.len() as u64, "byte");
        let fits_on_few_reels = needed::fits_on_few_reels(|quota, names| self.answer(quota, names));
        let to_do = if fits_on_few_reels { RAISE } else { "make two sets of it" };
        format!("its {records} have {bytes}, and labels and blocks take more; {to_do}")
    }

    fn reels_needed(&self) -> String {
        let named = self.lines.reels.len();
        let lines = if named == 1 { "line" } else { "lines" };
        let write = |quota, names: &[u8]| self.answer(quota, names);
        let needed = needed::in_words(self.quota, named, write);
        format!("the sheet has {named} 'reel' {lines}, and {needed}")
    }

    /// The line at which a sheet that the library calls illegal is at fault.
    fn illegal_line(&self) -> Wrong {
        let lines = &self.lines;
        if is_illegal(&Sheet { set: &self.set, ..PLAIN }) {
            return Wrong::at(lines.set, unheld("a set identifier"));
        }
        if !is_quota(self.quota) {
            return Wrong::at(lines.quota, format!("expected a quota of {QUOTAS}"));
        }
        self.illegal_reel().or_else(|| self.illegal_file()).unwrap_or_else(|| {
            Wrong::at_end("expected a legal sheet, though each of its lines is legal by itself")
        })
    }

    fn illegal_reel(&self) -> Option<Wrong> {
        if self.names.is_empty() {
            return Some(Wrong::at_end("expected a 'reel' line"));
        }
        let (i, unfit) = unfit_name(&self.names)?;
        let what = match unfit {
            Unfit::Alone => unheld("a reel name"),
            Unfit::Again => "expected a reel name that no line above has".into(),
        };
        Some(Wrong::at(self.lines.reels[i], what))
    }

    fn illegal_file(&self) -> Option<Wrong> {
        if self.files.is_empty() {
            return Some(Wrong::at_end("expected a 'file' line"));
        }
        let (mut lengths, mut data) = (&self.lengths[..], &self.data[..]);
        self.files.chunks(FILE_ENTRY).zip(&self.counts).enumerate().find_map(
            |(i, (entry, &count))| {
                let (own, rest) = lengths.split_at(count as usize);
                lengths = rest;
                let (bytes, rest) = data.split_at(own.iter().sum::<u64>() as usize);
                data = rest;
                let records = Records { entry, lengths: own, data: bytes };
                self.illegal_field(i, entry).or_else(|| self.illegal_record(i, &records))
            },
        )
    }

    /// Each field alone in the plain file; then it is the record length, given the others.
    fn illegal_field(&self, file: usize, entry: &[u8]) -> Option<Wrong> {
        if !is_illegal(&Sheet { files: entry, ..PLAIN }) {
            return None;
        }
        let mut others = 0..RECORD_LENGTH;
        let field = others.find(|&field| is_illegal_alone(field, entry)).unwrap_or(RECORD_LENGTH);
        let lines = &self.lines.files[file].fields;
        let line = lines[field].or(lines[0]).unwrap_or(0);
        let Field { key, good, .. } = FIELDS[field];
        let what = match field {
            RECORD_LENGTH => format!(
                "expected format, block length and record length to suit each other: {good}"
            ),
            _ => format!("expected a value that a label can hold behind '{key}': {good}"),
        };
        Some(Wrong::at(line, what))
    }

    /// The line of the first record that makes its file illegal.
    fn illegal_record(&self, i: usize, records: &Records) -> Option<Wrong> {
        let wrong = records.first_illegal()?;
        let given = self.lines.files[i].records.iter().rev();
        let &(line, before) = given.into_iter().find(|(_, before)| (*before as usize) <= wrong)?;
        let (one, length) = (wrong + 1 - before as usize, records.lengths[wrong]);
        let what = match records.can_have(length) {
            false => format!(
                "expected records that the file's format and record length allow; number {one} of \
                 this line has {}",
                many(length, "byte")
            ),
            true => format!(
                "expected records with another byte than circumflexes (5E); number {one} of this \
                 line has none, and would be read back as padding"
            ),
        };
        Some(Wrong::at(line as usize, what))
    }
}

/// Whether the plain file is illegal with this field of an entry.
fn is_illegal_alone(field: usize, entry: &[u8]) -> bool {
    let mut changed = *PLAIN_FILE;
    if field == BLOCK_LENGTH {
        FIELDS[RECORD_LENGTH].put(&mut changed, LEAST);
    }
    FIELDS[field].put(&mut changed, FIELDS[field].of(entry));
    is_illegal(&Sheet { files: &changed, ..PLAIN })
}

/// The fields of a file, and its records.
struct Records<'a> {
    entry: &'a [u8],
    lengths: &'a [u64],
    data: &'a [u8],
}

impl Records<'_> {
    /// The first of the records that makes the file illegal, from 0.
    fn first_illegal(&self) -> Option<usize> {
        let all = self.lengths.len();
        let is_illegal = all > 0 && self.is_illegal_within(all);
        is_illegal.then(|| halves::least(1, all, |count| self.is_illegal_within(count)) - 1)
    }

    /// With the first so many records alone.
    fn is_illegal_within(&self, count: usize) -> bool {
        let lengths = &self.lengths[..count];
        let data = &self.data[..lengths.iter().sum::<u64>() as usize];
        is_illegal(&Sheet { files: self.entry, counts: &[count as u64], lengths, data, ..PLAIN })
    }

    /// Whether the file can have a record of this length, of other bytes if need be.
    fn can_have(&self, length: u64) -> bool {
        let (files, data) = (self.entry, &vec![b'0'; length as usize][..]);
        !is_illegal(&Sheet { files, counts: &[1], lengths: &[length], data, ..PLAIN })
    }
}
