//! Temporary files and folders, in which an output is written before it goes to its place.
//!
//! Each stands beside its place, under a name that no other process has, and goes away with the process:
//! when it is dropped, and on the signals by which a program is told to end. They are made, moved and
//! removed under one lock; a signal waits for it, and so never comes between two steps that belong together.

use super::rename;
use super::system::{self, Signals};
use std::fs::{self, DirBuilder, File, OpenOptions, Permissions};
use std::io::{self, ErrorKind};
use std::os::unix::fs::{DirBuilderExt, MetadataExt, OpenOptionsExt, PermissionsExt};
use std::path::{Path, PathBuf};
use std::sync::{Mutex, MutexGuard, PoisonError};
use std::thread;

/// What there is of this process.
struct Made {
    paths: Vec<PathBuf>,
    is_watched: bool,
}

static MADE: Mutex<Made> = Mutex::new(Made { paths: Vec::new(), is_watched: false });

fn made() -> MutexGuard<'static, Made> {
    MADE.lock().unwrap_or_else(PoisonError::into_inner)
}

/// A file or folder of this process alone, until it is at its place.
pub struct Temporary {
    path: PathBuf,
}

impl Temporary {
    /// A file beside this place, with at most this mode.
    pub fn file(place: &Path, mode: u32) -> io::Result<(Temporary, File)> {
        make(place, |path| OpenOptions::new().write(true).create_new(true).mode(mode).open(path))
    }

    /// A folder beside this place, into which nobody else can look.
    pub fn folder(place: &Path) -> io::Result<Temporary> {
        Ok(make(place, |path| DirBuilder::new().mode(0o700).create(path))?.0)
    }

    /// A second name of the file at this place.
    fn second_name(place: &Path) -> io::Result<Temporary> {
        Ok(make(place, |path| fs::hard_link(place, path))?.0)
    }

    pub fn path(&self) -> &Path {
        &self.path
    }

    /// Moves a folder to its place, where nothing is or an empty folder.
    pub fn put_folder(self, place: &Path, is_there: bool) -> io::Result<()> {
        let mut made = made();
        match is_there {
            true => rename::over(&self.path, place)?,
            false => rename::folder_to_new(&self.path, place)?,
        }
        made.paths.retain(|path| *path != self.path);
        Ok(())
    }
}

impl Drop for Temporary {
    fn drop(&mut self) {
        let mut made = made();
        if let Some(at) = made.paths.iter().position(|path| *path == self.path) {
            remove(&self.path);
            made.paths.swap_remove(at);
        }
    }
}

/// How often a name may be taken; with random ones that comes once in many lives.
const TRIES: usize = 16;

/// Makes something new under a random name. Nothing of the place's own name is in it, so that a place may
/// have the longest name.
fn make<T>(place: &Path, create: impl Fn(&Path) -> io::Result<T>) -> io::Result<(Temporary, T)> {
    place.file_name().ok_or_else(|| io::Error::other("is no name for an output"))?;
    let mut made = made();
    watch(&mut made)?;
    for _ in 0..TRIES {
        let path = place.with_file_name(format!(".tardorelga-{:016x}.part", system::random()?));
        match create(&path) {
            Err(error) if error.kind() == ErrorKind::AlreadyExists => continue,
            other => {
                let thing = other.map_err(unmade)?;
                made.paths.push(path.clone());
                return Ok((Temporary { path }, thing));
            }
        }
    }
    Err(io::Error::other("no free name for a temporary file beside it; run it again"))
}

/// What stands in the way is the folder in which it is made, and not the place itself, which may well be
/// the user's own.
fn unmade(error: io::Error) -> io::Error {
    match error.kind() {
        ErrorKind::PermissionDenied | ErrorKind::ReadOnlyFilesystem => io::Error::other(
            "the folder around it may not be written to; choose a place in another one",
        ),
        _ => error,
    }
}

/// Before the first of them is made, the signals that end the process are left to a thread that waits for
/// them. A file over its size limit is told by the write that fails.
fn watch(made: &mut Made) -> io::Result<()> {
    if made.is_watched {
        return Ok(());
    }
    let signals = Signals::that_end();
    signals.block();
    Signals::of_a_file_too_large().block();
    thread::Builder::new().stack_size(1 << 18).spawn(move || end_on(&signals))?;
    made.is_watched = true;
    Ok(())
}

/// The lock is kept to the end, so that nothing new is made.
fn end_on(signals: &Signals) {
    let signal = signals.wait();
    let made = made();
    made.paths.iter().for_each(|path| remove(path));
    signals.die_of(signal)
}

fn remove(path: &Path) {
    match fs::remove_file(path) {
        Err(error) if error.kind() == ErrorKind::IsADirectory => remove_folder(path),
        _ => {}
    }
}

/// A folder may have the mode of a read-only one already, or get it meanwhile, and be filled meanwhile, by the
/// thread that ends next; once it is gone it can't be.
fn remove_folder(path: &Path) {
    let open = || fs::set_permissions(path, Permissions::from_mode(0o700));
    let is_closed = || fs::metadata(path).is_ok_and(|there| there.mode() & 0o700 != 0o700);
    let _ = open();
    while fs::remove_dir_all(path).is_err_and(|error| match error.kind() {
        ErrorKind::DirectoryNotEmpty => true,
        ErrorKind::PermissionDenied => is_closed() && open().is_ok(),
        _ => false,
    }) {}
}

/// A written file, and the place to which it goes.
pub struct Move<'a> {
    pub file: Temporary,
    pub place: &'a Path,
}

/// Moves files to their places, all of them or none; of the first that can't be moved, its number and why.
/// They take the place of others only where `over` says so.
pub fn put_files(moves: &[Move], over: bool) -> Result<(), (usize, io::Error)> {
    let old = if over { second_names(moves)? } else { Vec::new() };
    let mut made = made();
    for (at, Move { file, place }) in moves.iter().enumerate() {
        let rename = if over { rename::over } else { rename::to_new };
        if let Err(error) = rename(&file.path, place) {
            let back = |at: usize| put_back(&moves[at], old.get(at).and_then(Option::as_ref));
            (0..at).rev().for_each(back);
            return Err((at, error));
        }
    }
    made.paths.retain(|path| moves.iter().all(|one| one.file.path != *path));
    Ok(())
}

/// Said where a file system has no second names.
const CANNOT_PUT_BACK: &str =
    "can't be put back here if another reel fails; remove it first, or choose another name";

/// A second name of each file that will be replaced, so that it can be put back. The last needs none, since
/// nothing behind it can fail.
fn second_names(moves: &[Move]) -> Result<Vec<Option<Temporary>>, (usize, io::Error)> {
    let but_last = &moves[..moves.len().saturating_sub(1)];
    let name = |(at, one): (usize, &Move)| match Temporary::second_name(one.place) {
        Ok(old) => Ok(Some(old)),
        Err(error) if error.kind() == ErrorKind::NotFound => Ok(None),
        Err(_) => Err((at, io::Error::other(CANNOT_PUT_BACK))),
    };
    but_last.iter().enumerate().map(name).collect()
}

/// Undoes a move. There is nothing left to do where that fails too.
fn put_back(moved: &Move, old: Option<&Temporary>) {
    let _ = match old {
        Some(old) => fs::rename(&old.path, moved.place),
        None => fs::rename(moved.place, &moved.file.path),
    };
}
