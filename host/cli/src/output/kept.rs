//! What a new file or folder keeps of the old one whose place it takes: owner and group, mode, and the lists of
//! further users that it is open to.

use super::system::{self, List};
use std::fs::{self, File, Metadata, Permissions};
use std::io;
use std::os::unix::fs::{fchown, MetadataExt, PermissionsExt};
use std::path::{Path, PathBuf};

/// The bit of a folder's mode by which new files get the folder's group.
pub const HANDS_ON_ITS_GROUP: u32 = 0o2000;

/// A file or folder that will be replaced.
pub struct Old {
    path: PathBuf,
    there: Metadata,
}

impl Old {
    pub fn at(path: &Path) -> io::Result<Old> {
        Ok(Old { path: path.into(), there: fs::metadata(path)? })
    }

    /// Before anything is in the new one: its owner, and what files in a folder get of it. Until it is whole
    /// it is open to its owner alone.
    pub fn begin(&self, new: &File) -> io::Result<()> {
        self.give_owner(new)?;
        if self.there.is_dir() {
            self.give_list(List::OfFilesInIt, new)?;
            let mode = 0o700 | self.there.mode() & HANDS_ON_ITS_GROUP;
            set_mode(new, mode).map_err(|_| cannot("mode"))?;
        }
        Ok(())
    }

    /// When the new one is whole. The mode comes last: a change of owner takes bits off it, and the mode of a
    /// file with a list is wide for the list's sake.
    pub fn end(&self, new: &File) -> io::Result<()> {
        self.give_list(List::OfItself, new)?;
        self.give_mode(new)
    }

    /// The system leaves out the group's bit without a word where the group is not one of the user's.
    fn give_mode(&self, new: &File) -> io::Result<()> {
        let mode = |there: &Metadata| there.mode() & 0o7777;
        set_mode(new, mode(&self.there)).map_err(|_| cannot("mode"))?;
        match mode(&new.metadata()?) == mode(&self.there) {
            true => Ok(()),
            false => Err(cannot("mode")),
        }
    }

    fn give_owner(&self, new: &File) -> io::Result<()> {
        let owner = |there: &Metadata| (there.uid(), there.gid());
        let (user, group) = owner(&self.there);
        if owner(&new.metadata()?) == (user, group) {
            return Ok(());
        }
        fchown(new, Some(user), Some(group)).map_err(|_| cannot("owner and group"))
    }

    fn give_list(&self, list: List, new: &File) -> io::Result<()> {
        system::copy_list(list, &self.path, new).map_err(|_| cannot("access list"))
    }
}

pub fn set_mode(file: &File, mode: u32) -> io::Result<()> {
    file.set_permissions(Permissions::from_mode(mode))
}

fn cannot(what: &str) -> io::Error {
    let why = format!("is there already, and you can't give a new one its {what}");
    io::Error::other(format!("{why}; remove it, or choose another name"))
}
