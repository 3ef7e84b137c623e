//! The images below a folder, for `check -r`.

use std::ffi::OsStr;
use std::fs::{self, DirEntry};
use std::io;
use std::os::unix::ffi::OsStrExt;
use std::path::{Path, PathBuf};

/// What is met below a folder.
pub enum Met {
    /// A file by whose name it is an image.
    Image(PathBuf),
    /// A folder that can't be read.
    Unread(PathBuf, io::Error),
    /// Any other file, which is not looked at.
    Other,
}

/// Hands out what is below the folder, in the order of the names' bytes, until `each` can't go on.
pub fn below<E>(folder: &Path, each: &mut impl FnMut(Met) -> Result<(), E>) -> Result<(), E> {
    let entries = match sorted(folder) {
        Ok(entries) => entries,
        Err(error) => return each(Met::Unread(folder.into(), error)),
    };
    for entry in entries {
        match entry.file_type() {
            Ok(kind) if kind.is_dir() => below(&entry.path(), each)?,
            _ => each(met(&entry.path()))?,
        }
    }
    Ok(())
}

fn sorted(folder: &Path) -> io::Result<Vec<DirEntry>> {
    let mut entries = fs::read_dir(folder)?.collect::<io::Result<Vec<DirEntry>>>()?;
    entries.sort_by_key(DirEntry::file_name);
    Ok(entries)
}

/// A link is followed to a file, and not to a folder, so that each image is met once and the walk ends. A pipe
/// or a device is no image, and reading it might never end. A link that leads nowhere is left to be
/// found unreadable.
fn met(path: &Path) -> Met {
    let is_file = || fs::metadata(path).map_or(true, |there| there.is_file());
    match path.file_name().is_some_and(is_named_image) && is_file() {
        true => Met::Image(path.into()),
        false => Met::Other,
    }
}

fn is_named_image(name: &OsStr) -> bool {
    name.as_bytes().last_chunk::<4>().is_some_and(|end| end.eq_ignore_ascii_case(b".tgi"))
}
