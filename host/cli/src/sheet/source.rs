//! What a sheet is read from: its text, and the files that it names, which stand in its folder. Nothing is
//! read further than a sheet of the limits can need, so that what has no end is refused.

use super::{Fault, Judge, Wrong};
use crate::stop::reason;
use crate::text::names::short;
use std::ffi::OsStr;
use std::fs::{File, Metadata};
use std::io::{self, BufRead, BufReader, Read};
use std::os::unix::ffi::OsStrExt;
use std::path::{Path, PathBuf};

/// The bytes of text of a sheet and of all files of lines that it names. A record of one byte takes 7 of
/// them as a line `hex 41`, and an image has at most 16,777,215 bytes: 117 MB.
const MOST_TEXT: u64 = 1 << 27;

/// The bytes of a line. The longest record that a label can tell of, 99,999 bytes, takes 300 kB in
/// hexadecimal with blanks.
const LONGEST_LINE: u64 = 1 << 20;

/// Where the names on a sheet lead, and how much text may still be read.
pub struct Source<'a> {
    folder: &'a Path,
    anywhere: bool,
    pub left: u64,
}

impl Source<'_> {
    /// Names stay in the folder, unless they may lead anywhere.
    pub fn new(folder: &Path, anywhere: bool) -> Source<'_> {
        Source { folder, anywhere, left: MOST_TEXT }
    }

    /// The name as it is told, and the file opened.
    pub fn open(&self, name: &[u8]) -> Result<(String, File), Fault> {
        if name.is_empty() || name.contains(&0) {
            return Err("expected the name of a file".to_string().into());
        }
        let told = short(name);
        let path = self.folder.join(OsStr::from_bytes(name));
        let path = if self.anywhere { path } else { self.within(&path, &told)? };
        match File::open(path) {
            Ok(file) => Ok((told, file)),
            Err(error) => Err(unread(&told, error)),
        }
    }

    /// The path without links and dots, which is opened in place of the name. A name that leads out is
    /// refused whether a file is there or not, so that no sheet can find out.
    fn within(&self, path: &Path, told: &str) -> Result<PathBuf, Fault> {
        let folder = self.folder.canonicalize().map_err(|error| unread(told, error))?;
        let is_within = |path: &PathBuf| path.starts_with(&folder);
        match path.canonicalize() {
            Ok(path) if is_within(&path) => refuse_endless(path, told),
            Err(error) if nearest(path).as_ref().is_some_and(is_within) => Err(unread(told, error)),
            _ => Err(Fault::from(format!(
                "expected a name within the folder of the sheet; {told} leads out of it, \
                 which only pack --anywhere allows"
            ))),
        }
    }

    /// A file of lines.
    pub fn lines(&self, name: &[u8]) -> Result<Named, Fault> {
        let (name, file) = self.open(name)?;
        Ok(Named { name, text: Text::new(file) })
    }
}

/// A pipe that nobody writes to would never be open.
fn refuse_endless(path: PathBuf, told: &str) -> Result<PathBuf, Fault> {
    let is_odd = |there: Metadata| !there.is_file() && !there.is_dir();
    match path.metadata().is_ok_and(is_odd) {
        true => Err(Fault::from(format!(
            "expected a plain file; {told} is a pipe or a device, which only pack --anywhere reads"
        ))),
        false => Ok(path),
    }
}

/// The last folder on the way to a file that is not there or can't be reached.
fn nearest(path: &Path) -> Option<PathBuf> {
    path.ancestors().find_map(|path| path.canonicalize().ok())
}

/// What the system says of a file that the sheet names.
pub fn unread(name: &str, error: io::Error) -> Fault {
    let what = format!("expected a file that can be read; {name}: {}", reason(&error));
    Fault { what, judge: Judge::System }
}

/// A text, line by line.
pub struct Text {
    file: BufReader<File>,
    line: Vec<u8>,
    number: usize,
}

/// Why a text can't be read on.
pub enum Halt {
    Unread(io::Error),
    /// The number of the line, and what was expected.
    Long(usize, String),
}

/// Of the sheet itself.
impl From<Halt> for Wrong {
    fn from(halt: Halt) -> Wrong {
        match halt {
            Halt::Unread(error) => {
                Wrong::of_sheet(Fault { what: reason(&error), judge: Judge::System })
            }
            Halt::Long(line, what) => Wrong::at(line, what),
        }
    }
}

impl Text {
    pub fn new(file: File) -> Text {
        let file = BufReader::with_capacity(1 << 16, file);
        Text { file, line: Vec::new(), number: 0 }
    }

    /// The next line with its number, from 1, without its line feed. What it takes goes off `left`.
    pub fn next(&mut self, left: &mut u64) -> Result<Option<(usize, &[u8])>, Halt> {
        self.line.clear();
        self.number += 1;
        let most = LONGEST_LINE.min(*left) + 1;
        let line = (&mut self.file).take(most).read_until(b'\n', &mut self.line);
        let read = line.map_err(Halt::Unread)? as u64;
        let long = |what| Err(Halt::Long(self.number, format!("expected at most {what}")));
        if read > *left {
            return long(format!("{MOST_TEXT} bytes of text on a sheet and in files of lines"));
        }
        *left -= read;
        match self.line.pop() {
            None => return Ok(None),
            Some(b'\n') => {}
            Some(_) if read > LONGEST_LINE => {
                return long(format!("{LONGEST_LINE} bytes on a line"));
            }
            Some(last) => self.line.push(last),
        }
        Ok(Some((self.number, &self.line)))
    }
}

/// A file of lines that the sheet names.
pub struct Named {
    pub name: String,
    text: Text,
}

impl Named {
    /// The next line with its number, as of a text.
    pub fn next(&mut self, left: &mut u64) -> Result<Option<(usize, &[u8])>, Fault> {
        let name = &self.name;
        self.text.next(left).map_err(|halt| match halt {
            Halt::Unread(error) => unread(name, error),
            Halt::Long(line, what) => format!("{what}, on line {line} of {name}").into(),
        })
    }
}
