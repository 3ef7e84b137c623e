//! Sets as they are read: an image from a file, or reels in SIMH's form; `-` is standard input.

pub mod reels;

use crate::fault::Fault;
use crate::stop::{refusal, Stop};
use crate::streams;
use crate::text::names;
use crate::words::Words;
use std::ffi::{OsStr, OsString};
use std::fs::File;
use std::io::{self, Read};
use tardorelga::{Verdict, LONGEST_IMAGE};

/// One byte more than the longest image: more need not be read, since the library refuses this much
/// whatever follows.
const ENOUGH: u64 = LONGEST_IMAGE as u64 + 1;

/// What a file is called in a message.
pub fn name(file: &OsStr) -> String {
    match file == "-" {
        true => "standard input".into(),
        false => names::told(file),
    }
}

/// The image of a set, and what the set is called in a message.
pub struct Set {
    pub image: Vec<u8>,
    name: String,
}

impl Set {
    /// Reads the set of these files: one image, or with `--simh` the reels of it.
    pub fn read(words: &Words, files: &[OsString]) -> Result<Set, Stop> {
        Ok(match words.is_simh() {
            true => Set { image: reels::image(files)?, name: reels::name(files) },
            false => Set { image: image(&files[0])?, name: name(&files[0]) },
        })
    }

    pub fn name(&self) -> &str {
        &self.name
    }

    pub fn refused(&self, verdict: Verdict) -> Stop {
        Stop::Refused(verdict, format!("{}: {}", self.name, Fault::of(&self.image, verdict)))
    }

    pub fn trouble(&self, error: io::Error) -> Stop {
        Stop::trouble(&self.name, error)
    }

    /// With what there is to say on this set.
    pub fn refused_for(&self, verdict: Verdict, why: &str) -> Stop {
        Stop::Refused(verdict, format!("{}: {}: {why}", self.name, refusal(verdict)))
    }
}

pub fn image(file: &OsStr) -> Result<Vec<u8>, Stop> {
    read(file).map_err(|error| Stop::trouble(name(file), error))
}

/// As many bytes of an image as there are, up to enough.
pub fn read(file: &OsStr) -> io::Result<Vec<u8>> {
    let mut bytes = Vec::new();
    append(file, ENOUGH, &mut bytes)?;
    Ok(bytes)
}

pub fn open(file: &OsStr) -> io::Result<File> {
    match file == "-" {
        true => streams::input(),
        false => File::open(file),
    }
}

/// Puts as many bytes as there are, up to `most`, behind those that were read before.
pub fn append(file: &OsStr, most: u64, bytes: &mut Vec<u8>) -> io::Result<usize> {
    let source = open(file)?;
    bytes.reserve_exact(source.metadata()?.len().min(most) as usize + 1);
    source.take(most).read_to_end(bytes)
}
