//! The standard streams as they are: a closed one is trouble, not an empty one.

use crate::stop::{Status, Stop};
use std::fs::{self, File, OpenOptions};
use std::io::{self, BufWriter, IsTerminal, Write};
use std::os::fd::{AsFd, BorrowedFd, IntoRawFd, OwnedFd};
use std::os::unix::fs::OpenOptionsExt;
use std::path::Path;

/// What standard output is called in a message.
pub const OUTPUT: &str = "standard output";

/// Fills the place of each stream that is closed, so that no file opened later gets its number and
/// a message never lands in an image. What stands there can't be read as input nor written as
/// output: its use is trouble still. The lowest goes first, since a new file gets the lowest place.
pub fn hold() {
    duplicate(io::stdin()).map_or_else(|_| keep(), drop);
    duplicate(io::stdout()).map_or_else(|_| keep(), drop);
    duplicate(io::stderr()).map_or_else(|_| keep(), drop);
}

/// Opens a device as a place alone, for neither reading nor writing, and leaves it open to the end.
fn keep() {
    const PLACE_ALONE: i32 = 0o10_000_000;
    if let Ok(file) = OpenOptions::new().read(true).custom_flags(PLACE_ALONE).open("/dev/null") {
        let _ = file.into_raw_fd();
    }
}

fn duplicate(stream: impl AsFd) -> io::Result<OwnedFd> {
    stream.as_fd().try_clone_to_owned()
}

/// Standard input, whose own handle in the standard library takes a closed stream for an empty one.
pub fn input() -> io::Result<File> {
    duplicate(io::stdin()).map(File::from)
}

pub fn output() -> io::Result<File> {
    duplicate(io::stdout()).map(File::from)
}

/// What is open under a path that names a descriptor of this process, as `/dev/stdout`, `/dev/fd/3` and
/// `/proc/self/fd/3` do in the end. Opened by that name, a file would be begun anew.
pub fn open_as(path: &Path) -> Option<io::Result<File>> {
    let folder = fs::canonicalize(path.parent()?).ok()?;
    let is_ours = folder == fs::canonicalize("/proc/self/fd").ok()?;
    let number: i32 = path.file_name()?.to_str()?.parse().ok()?;
    if !is_ours || fs::symlink_metadata(path).is_err() {
        return None;
    }
    // SAFETY: the system lists the number among the open ones, and it is only duplicated.
    Some(duplicate(unsafe { BorrowedFd::borrow_raw(number) }).map(File::from))
}

/// Standard output, buffered; a handle of the same kind.
pub struct Out(BufWriter<File>);

impl Out {
    pub fn open() -> Result<Out, Stop> {
        let file = output().map_err(|e| Stop::trouble(OUTPUT, e))?;
        Ok(Out(BufWriter::with_capacity(1 << 16, file)))
    }

    pub fn put(&mut self, bytes: &[u8]) -> Result<(), Stop> {
        self.0.write_all(bytes).map_err(|e| Stop::trouble(OUTPUT, e))
    }

    /// A line that a person at a terminal sees at once.
    pub fn put_seen(&mut self, line: &[u8]) -> Result<(), Stop> {
        self.put(line)?;
        match self.0.get_ref().is_terminal() {
            true => self.0.flush().map_err(|e| Stop::trouble(OUTPUT, e)),
            false => Ok(()),
        }
    }

    /// Nothing is done before the last byte is written.
    pub fn end(mut self) -> Result<Status, Stop> {
        self.0.flush().map_err(|e| Stop::trouble(OUTPUT, e))?;
        Ok(Status::Done)
    }
}
