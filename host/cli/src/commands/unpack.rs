//! `unpack FILE DIR`: the records of a set as files, and the order sheet that packs them again.

use super::records::Form;
use crate::input::Set;
use crate::output::Folder;
use crate::sheet;
use crate::stop::{Status, Stop};
use crate::text::names::told;
use crate::words::{quota, reel_names, Words};
use std::fs::File;
use std::io::{self, BufWriter, ErrorKind, Write};
use std::path::{Path, PathBuf};
use tardorelga::{Files, HIGHEST_QUOTA};

/// The kind of an error that is no fault of the folder: a record that its form can't hold.
const UNFIT: ErrorKind = ErrorKind::InvalidData;

pub fn run(words: &Words) -> Result<Status, Stop> {
    let (inputs, [folder]) = words.set_and(["folder"])?;
    let form = Form::of(words)?;
    let quota = words.value("--quota")?.map(quota).transpose()?;
    let names = words.value("--reels")?.map(reel_names).transpose()?;
    let trouble = |error| Stop::trouble(told(folder), error);
    let place = Folder::at(Path::new(folder)).map_err(trouble)?;
    let set = Set::read(words, inputs)?;
    let files = tardorelga::files(&set.image).map_err(|verdict| set.refused(verdict))?;
    let own = || tardorelga::reel_names(&set.image).flatten().copied().collect();
    // With the highest quota as few reels as can be are needed.
    let head = Head { quota: quota.unwrap_or(HIGHEST_QUOTA), names: names.unwrap_or_else(own) };
    let written = place.put(|folder| fill(files, &head, form, folder));
    written.map_err(|error| match error.kind() {
        UNFIT => set.trouble(error),
        _ => trouble(error),
    })?;
    Ok(Status::Done)
}

/// What the sheet says beside the meaning of the set.
struct Head {
    quota: u64,
    names: Vec<u8>,
}

/// The records of each file, and the sheet.
fn fill(files: Files, head: &Head, form: Form, folder: &Path) -> io::Result<()> {
    let mut text = Vec::new();
    for file in files {
        if text.is_empty() {
            text = sheet::head_text(&file.set_entry(), head.quota, &head.names);
        }
        text.extend(sheet::file_text(&file.entry()));
        text.extend(records(&file, form, folder)?.as_bytes());
    }
    let mut sheet = NewFile::at(folder.join("sheet"))?;
    sheet.put(&text)?;
    sheet.end()
}

/// Writes the records of one file, and gives the line that the sheet has for them; neither where there
/// are none.
fn records(of: &tardorelga::File, form: Form, folder: &Path) -> io::Result<String> {
    let number = of.sequence();
    let name = |ending: &str| format!("{number:04}.{ending}");
    if of.records().len() == 0 {
        return Ok(String::new());
    }
    let (file, lengths) = (name(ending(form)), name("lengths"));
    let mut out = NewFile::at(folder.join(&file))?;
    let mut runs = Lengths::new(folder.join(&lengths));
    for (count, record) in (1..).zip(of.records()) {
        match form {
            Form::Raw => runs.push(record.len() as u64)?,
            Form::Lines if record.contains(&b'\n') => return Err(unfit_for_lines(number, count)),
            _ => {}
        }
        form.give(&record, |bytes| out.put(bytes))?;
    }
    out.end()?;
    Ok(match (form, runs.end()?) {
        (Form::Lines, _) => format!("  lines {file}\n"),
        (Form::Hex, _) => format!("  hex-lines {file}\n"),
        (Form::Raw, Some(each)) => format!("  data {file} each {each}\n"),
        (Form::Raw, None) => format!("  data {file} lengths {lengths}\n"),
    })
}

fn ending(form: Form) -> &'static str {
    match form {
        Form::Raw => "records",
        Form::Lines => "txt",
        Form::Hex => "hex",
    }
}

fn unfit_for_lines(file: u32, record: u64) -> io::Error {
    let what = format!("record {record} of file {file} holds a line feed; unpack without --lines");
    io::Error::new(UNFIT, what)
}

/// A file being written.
struct NewFile {
    file: BufWriter<File>,
}

impl NewFile {
    fn at(path: PathBuf) -> io::Result<NewFile> {
        Ok(NewFile { file: BufWriter::with_capacity(1 << 16, File::create_new(path)?) })
    }

    fn put(&mut self, bytes: &[u8]) -> io::Result<()> {
        self.file.write_all(bytes)
    }

    fn end(self) -> io::Result<()> {
        self.file.into_inner().map_err(|error| error.into_error())?.sync_all()
    }
}

/// The lengths of records, in runs of equal ones; a file of them is begun only where it is needed.
struct Lengths {
    path: PathBuf,
    file: Option<NewFile>,
    length: u64,
    count: u64,
}

impl Lengths {
    fn new(path: PathBuf) -> Lengths {
        Lengths { path, file: None, length: 0, count: 0 }
    }

    fn push(&mut self, length: u64) -> io::Result<()> {
        if self.count > 0 && self.length != length {
            self.put_run()?;
        }
        self.length = length;
        self.count += 1;
        Ok(())
    }

    fn put_run(&mut self) -> io::Result<()> {
        let file = match &mut self.file {
            Some(file) => file,
            none => none.insert(NewFile::at(self.path.clone())?),
        };
        let line = match self.count {
            1 => format!("{}\n", self.length),
            count => format!("{} x {count}\n", self.length),
        };
        self.count = 0;
        file.put(line.as_bytes())
    }

    /// The length of each, where one number can say it; else it stands in the file.
    fn end(mut self) -> io::Result<Option<u64>> {
        if self.file.is_none() && (self.length > 0 || self.count == 0) {
            return Ok(Some(self.length));
        }
        self.put_run()?;
        self.file.map_or(Ok(()), NewFile::end)?;
        Ok(None)
    }
}
