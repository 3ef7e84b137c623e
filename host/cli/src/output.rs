//! Where an output goes. A file appears whole or not at all, and takes the place of another only with
//! `--force`; an open descriptor, a device or a pipe is written to as it is.

mod folder;
mod kept;
mod rename;
mod system;
mod temporary;

pub use folder::Folder;

use crate::stop::{reason, Status, Stop};
use crate::streams;
use crate::text::names::told;
use crate::words::Words;
use kept::Old;
use std::ffi::OsStr;
use std::fs::{self, File, Metadata, OpenOptions};
use std::io::{self, ErrorKind, Write};
use std::os::unix::fs::MetadataExt;
use std::path::{Path, PathBuf};
use temporary::{Move, Temporary};

/// An output that may be written, as far as can be told before.
pub struct Output {
    name: PathBuf,
    place: Place,
    force: bool,
}

enum Place {
    Open(File),
    DeviceOrPipe,
    /// Behind all links, so that a link stays one.
    File(PathBuf),
}

impl Output {
    /// What `-o` names. It is asked before the inputs are read, so that nobody waits for a refusal.
    pub fn of<I: AsRef<OsStr>>(words: &Words, inputs: &[I]) -> Result<Output, Stop> {
        let (name, force) = (words.needed("-o")?, words.has("--force"));
        let (name, place) = match name == "-" {
            true => (Path::new(streams::OUTPUT), streams::output().map(Place::Open)),
            false => (Path::new(name), place(Path::new(name))),
        };
        let place = place.map_err(|error| trouble(name, error))?;
        match &place {
            Place::Open(file) if !force => refuse_input(name, file, inputs)?,
            Place::File(_) if !force => refuse_old(name, inputs)?,
            _ => {}
        }
        Ok(Output { name: name.into(), place, force })
    }

    pub fn write(self, bytes: &[u8]) -> Result<Status, Stop> {
        let written = match self.place {
            Place::Open(mut file) => file.write_all(bytes),
            Place::DeviceOrPipe => write_through(&self.name, bytes),
            Place::File(path) => put(&[(path, bytes)], self.force).map_err(|(_, error)| error),
        };
        written.map_err(|error| trouble(&self.name, error))?;
        Ok(Status::Done)
    }
}

/// Whether a name is that of an open descriptor, a device or a pipe, which takes one output only.
pub fn is_stream(name: &OsStr) -> bool {
    let is_open = |place| matches!(place, Place::Open(_) | Place::DeviceOrPipe);
    name == "-" || place(Path::new(name)).is_ok_and(is_open)
}

/// Writes files, all of them or none: each is whole beside its place before the first goes there.
pub fn write_files(files: &[(PathBuf, &[u8])], force: bool) -> Result<Status, Stop> {
    put(files, force).map_err(|(at, error)| trouble(&files[at].0, error))?;
    Ok(Status::Done)
}

/// Why an output can't be written.
pub fn trouble(name: &Path, error: io::Error) -> Stop {
    let is_there = "is there already; choose another name, or write over it with --force";
    match error.kind() {
        ErrorKind::AlreadyExists => {
            Stop::trouble(told(name.as_os_str()), io::Error::other(is_there))
        }
        _ => Stop::trouble(told(name.as_os_str()), error),
    }
}

/// Nothing is written over by surprise: no file, no link, be it one to nowhere, and not the input.
pub fn refuse_old<I: AsRef<OsStr>>(name: &Path, inputs: &[I]) -> Result<(), Stop> {
    if fs::symlink_metadata(name).is_err() {
        return Ok(());
    }
    match fs::metadata(name).is_ok_and(|there| is_input(&there, inputs)) {
        true => Err(trouble(name, io::Error::other(OWN_INPUT))),
        false => Err(trouble(name, ErrorKind::AlreadyExists.into())),
    }
}

/// Nor does a file that is read grow by what is written of it.
fn refuse_input<I: AsRef<OsStr>>(name: &Path, open: &File, inputs: &[I]) -> Result<(), Stop> {
    match open.metadata().is_ok_and(|there| there.is_file() && is_input(&there, inputs)) {
        true => Err(trouble(name, io::Error::other(OWN_INPUT))),
        false => Ok(()),
    }
}

const OWN_INPUT: &str = "is the input itself; choose another name, or write over it with --force";

/// Whether a file is one of the inputs under any name, of which `-` is standard input.
fn is_input<I: AsRef<OsStr>>(there: &Metadata, inputs: &[I]) -> bool {
    let is_it = |input: Metadata| (input.dev(), input.ino()) == (there.dev(), there.ino());
    let of = |input: &OsStr| match input == "-" {
        true => streams::input().and_then(|file| file.metadata()),
        false => fs::metadata(input),
    };
    inputs.iter().any(|input| of(input.as_ref()).is_ok_and(is_it))
}

/// As many links behind each other as the system follows, and what it says of more.
const MOST_LINKS: usize = 40;
const TOO_MANY_LINKS: i32 = 40;

fn place(name: &Path) -> io::Result<Place> {
    let mut path = name.to_path_buf();
    for _ in 0..=MOST_LINKS {
        if let Some(file) = streams::open_as(&path) {
            return file.map(Place::Open);
        }
        match fs::read_link(&path) {
            Ok(behind) => path.set_file_name(behind),
            Err(_) => return place_at(name, path),
        }
    }
    Err(io::Error::from_raw_os_error(TOO_MANY_LINKS))
}

/// A file renamed onto a device or a pipe would take its place.
fn place_at(name: &Path, behind_links: PathBuf) -> io::Result<Place> {
    match fs::metadata(name) {
        Ok(there) if there.is_dir() => Err(io::Error::other("is a directory")),
        Ok(there) if !there.is_file() => Ok(Place::DeviceOrPipe),
        _ => Ok(Place::File(behind_links)),
    }
}

fn write_through(name: &Path, bytes: &[u8]) -> io::Result<()> {
    OpenOptions::new().write(true).open(name)?.write_all(bytes)
}

/// Of the first file that can't be written, its number and why.
fn put(files: &[(PathBuf, &[u8])], force: bool) -> Result<(), (usize, io::Error)> {
    let mut moves = Vec::new();
    for (at, (place, bytes)) in files.iter().enumerate() {
        let file = beside(place, bytes, force).map_err(|error| (at, error))?;
        moves.push(Move { file, place });
    }
    temporary::put_files(&moves, force)?;
    files.first().map_or(Ok(()), |(place, _)| sync_folder_of(place)).map_err(|error| (0, error))
}

/// A whole file beside its place. One that replaces another is open to its writer alone until it has the
/// owner and the mode of the other.
fn beside(place: &Path, bytes: &[u8], force: bool) -> io::Result<Temporary> {
    let old = if force { Old::at(place).ok() } else { None };
    let mode = if old.is_some() { 0o600 } else { 0o666 };
    let (temporary, mut file) = Temporary::file(place, mode)?;
    old.as_ref().map_or(Ok(()), |old| old.begin(&file))?;
    file.write_all(bytes)?;
    old.as_ref().map_or(Ok(()), |old| old.end(&file))?;
    file.sync_all()?;
    Ok(temporary)
}

/// Has the names in a folder on the disk. A file system that can't sync a folder does what it can by itself.
fn sync(folder: &File) -> io::Result<()> {
    match folder.sync_all() {
        Err(error) if error.raw_os_error() == Some(system::INVALID) => Ok(()),
        other => other,
    }
}

/// The folder in which a file stands.
pub fn folder_of(file: &Path) -> &Path {
    match file.parent() {
        Some(folder) if folder != Path::new("") => folder,
        _ => Path::new("."),
    }
}

/// Behind this, a new name outlasts a crash. A folder that may not be read is synced with all else.
fn sync_folder_of(place: &Path) -> io::Result<()> {
    match File::open(folder_of(place)).and_then(|folder| sync(&folder)) {
        Err(error) if error.kind() == ErrorKind::PermissionDenied => {
            system::sync_all_disks();
            Ok(())
        }
        Err(error) => {
            let what = "is written, but its folder can't be synced, and a crash may lose it";
            Err(io::Error::other(format!("{what}: {}", reason(&error))))
        }
        Ok(()) => Ok(()),
    }
}
