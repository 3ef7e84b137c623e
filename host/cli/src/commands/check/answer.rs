//! A set by its names, and what is known of it.

use crate::fault::Fault;
use crate::input::{self, reels};
use crate::stop::{reason, say, Status, Stop};
use crate::text::names::told;
use crate::text::{json, many};
use std::ffi::{OsStr, OsString};
use std::io::{self, ErrorKind};
use tardorelga::Files;

/// A set by its names.
pub enum Named<'a> {
    Image(&'a OsStr),
    Reels(&'a [OsString]),
}

/// What is known of one set.
pub enum Answer {
    Accepted(Counts),
    Refused(Fault),
    Unread(String),
}

/// How much an accepted set holds.
#[derive(Default)]
pub struct Counts {
    files: u64,
    records: u64,
    bytes: u64,
}

impl Answer {
    pub fn status(&self) -> Status {
        match self {
            Answer::Accepted(_) => Status::Done,
            Answer::Refused(_) => Status::Refused,
            Answer::Unread(_) => Status::Trouble,
        }
    }

    fn on(image: &[u8]) -> Answer {
        match tardorelga::files(image) {
            Ok(files) => Answer::Accepted(counts(files)),
            Err(verdict) => Answer::Refused(Fault::of(image, verdict)),
        }
    }

    fn on_file(file: &OsStr) -> Answer {
        match input::read(file) {
            Ok(image) => Answer::on(&image),
            Err(error) => Answer::unread(file, &error),
        }
    }

    /// A file that can't be read is told at once; the others are checked all the same.
    pub fn unread(file: &OsStr, error: &io::Error) -> Answer {
        let why = match error.kind() {
            ErrorKind::IsADirectory => reason(error) + "; -r checks the images below it",
            _ => reason(error),
        };
        say(&format!("{}: {why}", input::name(file)));
        Answer::Unread(why)
    }

    fn on_reels(files: &[OsString]) -> Result<Answer, Stop> {
        match reels::image(files) {
            Ok(image) => Ok(Answer::on(&image)),
            Err(Stop::Trouble(sentence)) => {
                say(&sentence);
                Ok(Answer::Unread(sentence))
            }
            Err(stop) => Fault::told(stop).map(Answer::Refused),
        }
    }
}

fn counts(files: Files) -> Counts {
    let mut counts = Counts::default();
    for file in files {
        counts.files += 1;
        counts.records += file.records().len() as u64;
        counts.bytes += file.bytes();
    }
    counts
}

impl Named<'_> {
    pub fn answer(&self) -> Result<Answer, Stop> {
        match self {
            Named::Image(file) => Ok(Answer::on_file(file)),
            Named::Reels(files) => Answer::on_reels(files),
        }
    }

    pub fn line(&self, answer: &Answer) -> Vec<u8> {
        let (first, more) = match self {
            Named::Image(file) => (*file, String::new()),
            Named::Reels(files) => (files[0].as_os_str(), reels::more(files)),
        };
        let rest = match answer {
            Answer::Accepted(Counts { files, records, bytes }) => {
                let [files, records, bytes] =
                    [many(*files, "file"), many(*records, "record"), many(*bytes, "byte")];
                format!("accepted, {files}, {records}, {bytes}")
            }
            Answer::Refused(fault) => fault.to_string(),
            Answer::Unread(_) => return Vec::new(),
        };
        format!("{}{more}: {rest}\n", told(first)).into_bytes()
    }

    pub fn json_line(&self, answer: &Answer) -> Vec<u8> {
        let names = match self {
            Named::Image(file) => json::file(file),
            Named::Reels(files) => json::files("tapes", files),
        };
        let rest = match answer {
            Answer::Accepted(Counts { files, records, bytes }) => {
                format!(r#""accepted":true,"files":{files},"records":{records},"bytes":{bytes}"#)
            }
            Answer::Refused(fault) => fault.json(),
            Answer::Unread(why) => format!(r#""trouble":{}"#, json::text(why)),
        };
        format!("{{{names},{rest}}}\n").into_bytes()
    }
}
