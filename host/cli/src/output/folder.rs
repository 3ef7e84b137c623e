//! The folder that `unpack` fills: it appears whole or not at all, at a new name or in place of an empty one.

use super::kept::{set_mode, Old, HANDS_ON_ITS_GROUP};
use super::temporary::Temporary;
use super::{sync, sync_folder_of, system};
use std::fs::{self, File};
use std::io::{self, ErrorKind};
use std::os::unix::fs::MetadataExt;
use std::path::{Path, PathBuf};

/// A folder that may be filled, as far as can be told before.
pub struct Folder {
    path: PathBuf,
    /// The empty one whose place it takes.
    old: Option<Old>,
}

/// A folder takes the place of another by its name in the folder around it.
const NO_NAME: &str = "is no name for a new folder; choose one, as in ./parts";

impl Folder {
    /// A link to an empty folder stays a link.
    pub fn at(path: &Path) -> io::Result<Folder> {
        path.file_name().ok_or_else(|| io::Error::other(NO_NAME))?;
        match fs::metadata(path) {
            Ok(there) if !there.is_dir() => Err(in_the_way("is there already, and no folder")),
            Ok(_) if fs::read_dir(path)?.next().is_some() => Err(not_empty()),
            Ok(_) => Ok(Folder { path: fs::canonicalize(path)?, old: Some(Old::at(path)?) }),
            Err(_) if fs::symlink_metadata(path).is_ok() => {
                Err(in_the_way("is there already, a link to nowhere"))
            }
            Err(error) if error.kind() == ErrorKind::NotFound => {
                Ok(Folder { path: path.into(), old: None })
            }
            Err(error) => Err(error),
        }
    }

    /// Has it filled beside its place, where nobody else can look into it, and moves it there. All is on the
    /// disk then: the files by who writes them, their names and the folder's own by this.
    pub fn put(self, fill: impl FnOnce(&Path) -> io::Result<()>) -> io::Result<()> {
        let temporary = Temporary::folder(&self.path)?;
        let folder = File::open(temporary.path())?;
        self.old.as_ref().map_or(Ok(()), |old| old.begin(&folder))?;
        fill(temporary.path())?;
        self.old.as_ref().map_or_else(|| set_usual_mode(&folder), |old| old.end(&folder))?;
        sync(&folder)?;
        temporary.put_folder(&self.path, self.old.is_some()).map_err(|error| {
            match error.kind() {
                ErrorKind::AlreadyExists => in_the_way("is there already"),
                ErrorKind::DirectoryNotEmpty => not_empty(),
                _ => error,
            }
        })?;
        sync_folder_of(&self.path)
    }
}

/// The folder around it may have had it hand its group on.
fn set_usual_mode(folder: &File) -> io::Result<()> {
    let own = folder.metadata()?.mode() & HANDS_ON_ITS_GROUP;
    set_mode(folder, system::usual_folder_mode() | own)
}

fn in_the_way(what: &str) -> io::Error {
    io::Error::other(format!("{what}; choose another name"))
}

fn not_empty() -> io::Error {
    in_the_way("is there already, and not empty")
}
