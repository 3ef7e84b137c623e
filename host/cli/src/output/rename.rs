//! Renamings of what is written to its place: over what is there, or only where nothing is.

use super::system;
use std::fs;
use std::io::{self, ErrorKind};
use std::path::Path;

/// Takes the place of a file or of an empty folder, or of nothing.
pub fn over(from: &Path, to: &Path) -> io::Result<()> {
    fs::rename(from, to).map_err(|error| match error.kind() {
        ErrorKind::ResourceBusy | ErrorKind::CrossesDevices => io::Error::other(
            "can't be replaced, since a file system is mounted there; choose another name",
        ),
        _ => error,
    })
}

/// Where a file system has no renaming that replaces nothing, a second name is refused as well where there
/// is one. Where it has none of that either, it is asked right before: a file that comes between these two
/// calls would be lost, and no call is left that prevents it.
pub fn to_new(from: &Path, to: &Path) -> io::Result<()> {
    match system::rename_new(from, to) {
        Err(error) if is_unknown(&error) => {}
        other => return other,
    }
    match fs::hard_link(from, to) {
        Ok(()) => {
            // The file is at its place, whether its other name goes or stays.
            let _ = fs::remove_file(from);
            Ok(())
        }
        Err(error) if error.kind() == ErrorKind::AlreadyExists => Err(error),
        Err(_) if fs::symlink_metadata(to).is_ok() => Err(ErrorKind::AlreadyExists.into()),
        Err(_) => fs::rename(from, to),
    }
}

/// The usual renaming of a folder replaces nothing but an empty one.
pub fn folder_to_new(from: &Path, to: &Path) -> io::Result<()> {
    match system::rename_new(from, to) {
        Err(error) if is_unknown(&error) => fs::rename(from, to),
        other => other,
    }
}

/// An answer of a file system or kernel that does not know the call.
fn is_unknown(error: &io::Error) -> bool {
    matches!(error.raw_os_error(), Some(system::INVALID | system::NO_CALL))
}
