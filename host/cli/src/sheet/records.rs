//! Reads the records of a sheet, from its lines and from the files that it names.

use super::read::{keyword_length, unbracketed, Reading};
use super::source::unread;
use super::{Fault, Order};
use crate::text::many;
use std::io::Read;
use tardorelga::LONGEST_IMAGE;

/// More records than any image has bytes.
const MOST_RECORDS: u64 = 1 << 24;

impl Reading<'_> {
    pub fn records(&mut self, key: &str, value: &[u8]) -> Result<(), Fault> {
        match key {
            "text" => Ok(self.order.push(unbracketed(value))?),
            "hex" => Ok(self.order.push_hex(value)?),
            "lines" => self.lines(value),
            "hex-lines" => self.hex_lines(value),
            _ => self.data(value),
        }
    }

    /// One record a line; only the line feed is no part of it.
    fn lines(&mut self, name: &[u8]) -> Result<(), Fault> {
        let mut file = self.source.lines(unbracketed(name))?;
        while let Some((_, line)) = file.next(&mut self.source.left)? {
            self.order.push(line)?;
        }
        Ok(())
    }

    fn hex_lines(&mut self, name: &[u8]) -> Result<(), Fault> {
        let mut file = self.source.lines(unbracketed(name))?;
        while let Some((number, line)) = file.next(&mut self.source.left)? {
            let pushed = self.order.push_hex(line);
            pushed.map_err(|what| format!("{what} on line {number} of {}", file.name))?;
        }
        Ok(())
    }

    /// `NAME each LENGTH`, or `NAME lengths NAME`.
    fn data(&mut self, value: &[u8]) -> Result<(), Fault> {
        let expected =
            || "expected NAME each LENGTH, or NAME lengths NAME, behind 'data'".to_string();
        let (name, rest) = word(value).ok_or_else(expected)?;
        let (how, rest) = word(rest).ok_or_else(expected)?;
        match how {
            b"each" => {
                let each = number(rest).ok_or_else(expected)?;
                let (name, bytes) = self.bytes(name)?;
                self.each(each, &name, bytes)
            }
            b"lengths" => {
                let (name, bytes) = self.bytes(name)?;
                self.lengths(unbracketed(rest), &name, bytes)
            }
            _ => Err(expected().into()),
        }
    }

    /// Takes all bytes of a file, and gives its name as it is told and how many they are.
    fn bytes(&mut self, name: &[u8]) -> Result<(String, u64), Fault> {
        let (name, file) = self.source.open(name)?;
        let data = &mut self.order.data;
        let room = (LONGEST_IMAGE - data.len()) as u64;
        let read = file.take(room + 1).read_to_end(data).map_err(|error| unread(&name, error))?;
        self.order.is_within_an_image()?;
        Ok((name, read as u64))
    }

    fn each(&mut self, each: u64, of: &str, bytes: u64) -> Result<(), Fault> {
        let what = match bytes.checked_rem(each) {
            Some(0) => return Ok(self.order.count(each, bytes / each)?),
            Some(_) => {
                let bytes = many(bytes, "byte");
                format!("expected whole records of {each} bytes; {of} has {bytes}")
            }
            None => "expected 1 or more behind 'each'; a file of lengths can say 0".into(),
        };
        Err(what.into())
    }

    /// The lengths of records, a line each: `LENGTH`, or `LENGTH x COUNT` for so many of one length.
    fn lengths(&mut self, name: &[u8], of: &str, bytes: u64) -> Result<(), Fault> {
        let mut file = self.source.lines(name)?;
        let all = format!("expected lengths of {} in all, as {of} has", many(bytes, "byte"));
        let mut left = bytes;
        while let Some((number, line)) = file.next(&mut self.source.left)? {
            let run = run(line);
            let place = || format!("on line {number} of {}", file.name);
            let (length, count) =
                run.ok_or_else(|| format!("expected LENGTH or LENGTH x COUNT {}", place()))?;
            let spent = length.checked_mul(count).and_then(|spent| left.checked_sub(spent));
            left = spent.ok_or_else(|| format!("{all}; they pass it {}", place()))?;
            self.order.count(length, count)?;
        }
        match left {
            0 => Ok(()),
            _ => Err(format!("{all}; {} leaves {left} over", file.name).into()),
        }
    }
}

impl Order {
    fn push(&mut self, record: &[u8]) -> Result<(), String> {
        self.data.extend_from_slice(record);
        self.count(record.len() as u64, 1)
    }

    /// Blanks may stand between bytes.
    fn push_hex(&mut self, text: &[u8]) -> Result<(), String> {
        let start = self.data.len();
        let value = |digit: u8| (digit as char).to_digit(16).map(|value| value as u8);
        for word in text.split(u8::is_ascii_whitespace) {
            for pair in word.chunks(2) {
                let byte = match *pair {
                    [high, low] => value(high).zip(value(low)).map(|(high, low)| high << 4 | low),
                    _ => None,
                };
                self.data.push(byte.ok_or("expected pairs of hexadecimal digits")?);
            }
        }
        self.count((self.data.len() - start) as u64, 1)
    }

    /// So many records more, of one length; their bytes stand on the sheet already.
    fn count(&mut self, length: u64, count: u64) -> Result<(), String> {
        self.is_within_an_image()?;
        if count > MOST_RECORDS - self.lengths.len() as u64 {
            return Err(format!("expected at most {MOST_RECORDS} records on a sheet"));
        }
        self.lengths.resize(self.lengths.len() + count as usize, length);
        if let Some(last) = self.counts.last_mut() {
            *last += count;
        }
        Ok(())
    }

    /// More bytes need not be read: no image has room for them.
    fn is_within_an_image(&self) -> Result<(), String> {
        match self.data.len() <= LONGEST_IMAGE {
            true => Ok(()),
            false => Err(format!(
                "expected at most {LONGEST_IMAGE} bytes in all records of a sheet, as many as an \
                 image has; they pass it"
            )),
        }
    }
}

/// A word, or what stands in brackets, and what follows it.
fn word(text: &[u8]) -> Option<(&[u8], &[u8])> {
    let text = text.trim_ascii_start();
    let (word, rest) = match text.strip_prefix(b"[") {
        Some(inside) => {
            let end = inside.iter().position(|&byte| byte == b']')?;
            (&inside[..end], &inside[end + 1..])
        }
        None => text.split_at(keyword_length(text)),
    };
    (!word.is_empty()).then(|| (word, rest.trim_ascii_start()))
}

/// Digits alone: a sign is no part of a number.
pub fn number(text: &[u8]) -> Option<u64> {
    let digits = std::str::from_utf8(text).ok()?.trim();
    digits.bytes().all(|digit| digit.is_ascii_digit()).then(|| digits.parse().ok())?
}

/// `LENGTH`, or `LENGTH x COUNT`.
fn run(line: &[u8]) -> Option<(u64, u64)> {
    match line.iter().position(|&byte| byte == b'x') {
        Some(x) => Some((number(&line[..x])?, number(&line[x + 1..])?)),
        None => Some((number(line)?, 1)),
    }
}
