//! `record FILE N R` and `records FILE N`: the bytes of records.

use crate::input::Set;
use crate::stop::{Status, Stop};
use crate::streams::Out;
use crate::text::{hex, many};
use crate::words::{number, Words};
use tardorelga::numbers::NOT_THERE;
use tardorelga::{Verdict, LONGEST_RECORD};

/// How a record is printed.
#[derive(Clone, Copy, PartialEq, Eq)]
pub enum Form {
    /// Its bytes and nothing else.
    Raw,
    /// Two hexadecimal digits a byte, and a line feed.
    Hex,
    /// Its bytes, and a line feed.
    Lines,
}

impl Form {
    pub fn of(words: &Words) -> Result<Form, Stop> {
        match (words.has("--hex"), words.has("--lines")) {
            (false, false) => Ok(Form::Raw),
            (true, false) => Ok(Form::Hex),
            (false, true) => Ok(Form::Lines),
            (true, true) => Err(Stop::words("--hex and --lines exclude each other")),
        }
    }

    /// Hands the record in this form to `put`, piece by piece.
    pub fn give<E>(
        self,
        record: &[u8],
        mut put: impl FnMut(&[u8]) -> Result<(), E>,
    ) -> Result<(), E> {
        match self {
            Form::Raw => return put(record),
            Form::Lines => put(record)?,
            Form::Hex => record.chunks(4096).try_for_each(|part| put(hex(part).as_bytes()))?,
        }
        put(b"\n")
    }
}

pub fn one(words: &Words) -> Result<Status, Stop> {
    let (files, [n, r]) = words.set_and(["number of a file", "number of a record"])?;
    let (n, r) = (number(n, "N")?, number(r, "R")?);
    let form = Form::of(words)?;
    let set = Set::read(words, files)?;
    let mut join = vec![0; LONGEST_RECORD];
    let record = tardorelga::record(&set.image, n, r, &mut join);
    let record = record.map_err(|verdict| missing(&set, n, verdict))?;
    let mut out = Out::open()?;
    form.give(record, |bytes| out.put(bytes))?;
    out.end()
}

/// A refusal; where there is no such file or record, with how many there are.
fn missing(set: &Set, file: u64, verdict: Verdict) -> Stop {
    if verdict.number != NOT_THERE {
        return set.refused(verdict);
    }
    let there = match tardorelga::file(&set.image, file) {
        Ok(found) => format!("file {file} has {}", many(found.records().len() as u64, "record")),
        Err(_) => {
            let count = tardorelga::files(&set.image).map_or(0, Iterator::count);
            format!("the set has {}", many(count as u64, "file"))
        }
    };
    set.refused_for(verdict, &format!("{there}, counted from 1"))
}

/// Each record is written as the walk gets to it.
pub fn all(words: &Words) -> Result<Status, Stop> {
    let (files, [n]) = words.set_and(["number of a file"])?;
    let n = number(n, "N")?;
    let form = Form::of(words)?;
    let set = Set::read(words, files)?;
    let records = tardorelga::records(&set.image, n);
    let records = records.map_err(|verdict| missing(&set, n, verdict))?;
    let mut out = Out::open()?;
    for record in records {
        form.give(&record, |bytes| out.put(bytes))?;
    }
    out.end()
}
