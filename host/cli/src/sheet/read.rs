//! Reads the lines of a sheet.

use super::ask::{too_many_files, too_many_names};
use super::field::{Field, FIELDS, REEL, SET};
use super::records::number;
use super::source::{Source, Text};
use super::{FileLines, Lines, Order, Wrong};
use crate::text::names::echoed;
use std::fs::File;
use tardorelga::{Verdict, FILE_ENTRY};

const KEYWORDS: &str = "set, quota, reel, file, generation, version, created, expires, format, \
    block-length, record-length, text, hex, lines, hex-lines, data";

pub fn read(text: File, source: Source) -> Result<Order, Wrong> {
    let mut reading = Reading { source, order: Order::default(), entry: None };
    let mut text = Text::new(text);
    while let Some((number, line)) = text.next(&mut reading.source.left)? {
        let line = line.trim_ascii();
        if !line.is_empty() && line[0] != b'#' {
            let (key, value) = line.split_at(keyword_length(line));
            reading.line(number, key, value.trim_ascii_start())?;
        }
    }
    reading.end()
}

pub fn keyword_length(line: &[u8]) -> usize {
    line.iter().position(u8::is_ascii_whitespace).unwrap_or(line.len())
}

/// A value that stands as it is, without brackets.
pub fn is_bare(value: &[u8]) -> bool {
    value.trim_ascii() == value && value.first() != Some(&b'[') && !value.is_empty()
}

/// The bytes of a value: in brackets every byte counts.
pub fn unbracketed(value: &[u8]) -> &[u8] {
    match value {
        [b'[', inside @ .., b']'] => inside,
        bare => bare,
    }
}

/// A sheet as far as it is read.
pub struct Reading<'a> {
    pub source: Source<'a>,
    pub order: Order,
    /// The fields so far of the file that is read.
    entry: Option<[u8; FILE_ENTRY]>,
}

impl Reading<'_> {
    fn line(&mut self, line: usize, word: &[u8], value: &[u8]) -> Result<(), Wrong> {
        let key = std::str::from_utf8(word).unwrap_or_default();
        if let Some(i) = FIELDS.iter().position(|field| field.key == key) {
            return self.field(line, i, unbracketed(value));
        }
        match key {
            "set" | "quota" | "reel" => self.head(line, key, value),
            "text" | "hex" | "lines" | "hex-lines" | "data" => {
                self.opens_records(line, key)?;
                self.records(key, value).map_err(|fault| Wrong::at(line, fault))
            }
            _ => {
                let what = format!("expected one of {KEYWORDS}; found {}", echoed(word));
                Err(Wrong::at(line, what))
            }
        }
    }

    /// A line of the head, which stands before the files.
    fn head(&mut self, line: usize, key: &str, value: &[u8]) -> Result<(), Wrong> {
        let wrong = |what: String| Wrong::at(line, what);
        if self.entry.is_some() {
            return Err(wrong(format!("expected '{key}' before the first file")));
        }
        let Order { set, quota, names, lines, .. } = &mut self.order;
        match key {
            "reel" => {
                names.extend(REEL.filled(unbracketed(value)).map_err(wrong)?);
                lines.reels.push(line);
                at_most(too_many_names(names), key, lines.reels.len(), line)?;
            }
            "set" => {
                first_time(&mut lines.set, line, key)?;
                *set = SET.filled(unbracketed(value)).map_err(wrong)?;
            }
            _ => {
                first_time(&mut lines.quota, line, key)?;
                let number = number(value).ok_or("expected a number behind 'quota'".into());
                *quota = number.map_err(wrong)?;
            }
        }
        Ok(())
    }

    fn field(&mut self, line: usize, i: usize, value: &[u8]) -> Result<(), Wrong> {
        let field = &FIELDS[i];
        if i == 0 {
            self.close_file()?;
            self.entry = Some([b' '; FILE_ENTRY]);
            self.order.counts.push(0);
            self.order.lines.files.push(FileLines::default());
            let count = self.order.counts.len();
            at_most(too_many_files(count), field.key, count, line)?;
        }
        let (Some(entry), Some(lines)) = (&mut self.entry, self.order.lines.files.last_mut())
        else {
            return Err(Wrong::at(line, format!("expected a 'file' line before '{}'", field.key)));
        };
        if let Some(earlier) = lines.fields[i].replace(line) {
            let what = format!("expected '{}' once a file; line {earlier} has it", field.key);
            return Err(Wrong::at(line, what));
        }
        let value = field.filled(value).map_err(|what| Wrong::at(line, what))?;
        field.put(entry, &value);
        Ok(())
    }

    fn opens_records(&mut self, line: usize, key: &str) -> Result<(), Wrong> {
        let Order { counts, lines: Lines { files, .. }, .. } = &mut self.order;
        match (files.last_mut(), counts.last()) {
            (Some(file), Some(&count)) => {
                file.records.push((line as u32, count as u32));
                Ok(())
            }
            _ => Err(Wrong::at(line, format!("expected a 'file' line before '{key}'"))),
        }
    }

    /// Fields without a line get their usual value; some have none.
    fn close_file(&mut self) -> Result<(), Wrong> {
        let (Some(mut entry), Some(lines)) = (self.entry, self.order.lines.files.last()) else {
            return Ok(());
        };
        let missing = |(field, line): &(&Field, &Option<usize>)| line.is_none() && field.at > 0;
        for (field, _) in FIELDS.iter().zip(&lines.fields).filter(missing) {
            let usual = field.usual.ok_or_else(|| {
                let begun = lines.fields[0].unwrap_or(0);
                Wrong::at(begun, format!("expected a '{}' line for this file", field.key))
            })?;
            field.put(&mut entry, usual);
        }
        self.order.files.extend_from_slice(&entry);
        Ok(())
    }

    fn end(mut self) -> Result<Order, Wrong> {
        self.close_file()?;
        let Lines { set, quota, .. } = self.order.lines;
        match (set, quota) {
            (0, _) => Err(Wrong::at_end("expected a 'set' line")),
            (_, 0) => Err(Wrong::at_end("expected a 'quota' line")),
            _ => Ok(self.order),
        }
    }
}

/// The first line of a kind that no sheet has room for, by the library's answer.
fn at_most(over: Option<Verdict>, key: &str, count: usize, line: usize) -> Result<(), Wrong> {
    let wrong = |verdict| {
        let what = format!("expected at most {} '{key}' lines on a sheet", count - 1);
        Wrong::at(line, what).by(verdict)
    };
    over.map_or(Ok(()), |verdict| Err(wrong(verdict)))
}

fn first_time(seen: &mut usize, line: usize, key: &str) -> Result<(), Wrong> {
    match std::mem::replace(seen, line) {
        0 => Ok(()),
        earlier => Err(Wrong::at(line, format!("expected '{key}' once; line {earlier} has it"))),
    }
}
