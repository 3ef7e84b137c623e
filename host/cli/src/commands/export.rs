//! `export FILE -o NAME`: the reels of an image as files in SIMH's form, `NAME-1.tap` and so on.

use crate::output::{self, Output};
use crate::stop::{Status, Stop};
use crate::text::names::{told, word};
use crate::words::Words;
use crate::{input, streams};
use std::ffi::OsStr;
use std::os::unix::ffi::OsStrExt;
use std::path::{Path, PathBuf};
use std::{fs, io};
use tardorelga::MOST_REELS;

pub fn run(words: &Words) -> Result<Status, Stop> {
    let [file] = words.exactly(["file"])?;
    let name = words.needed("-o")?;
    if name.is_empty() || name.as_bytes().ends_with(b"/") {
        let what = format!("-o is how the names of the reels begin, not {}", word(name));
        return Err(Stop::words(what));
    }
    let image = input::image(file)?;
    // No item grows more than a block of one byte, from 4 bytes to 10.
    let mut tapes = vec![0; image.len() * 5 / 2];
    let mut lengths = [0; MOST_REELS];
    let written = tardorelga::to_simh(&image, &mut tapes, &mut lengths)
        .map_err(|verdict| Stop::refused(input::name(file), verdict))?;
    let reels = cut(&tapes, &lengths[..written.files]);
    match (&reels[..], output::is_stream(name)) {
        ([reel], true) => Output::of(words, &[file])?.write(reel),
        (_, true) => Err(too_many(reels.len(), file, name)),
        _ => put(name, &reels, file, words.has("--force")),
    }
}

fn too_many(reels: usize, file: &OsStr, name: &OsStr) -> Stop {
    let name = if name == "-" { streams::OUTPUT.into() } else { told(name) };
    let file = input::name(file);
    let to_do = "name their files with -o NAME";
    Stop::Trouble(format!("{file}: has {reels} reels, and {name} takes one; {to_do}"))
}

fn cut<'a>(mut tapes: &'a [u8], lengths: &[u64]) -> Vec<&'a [u8]> {
    let reel = |&length| {
        let (reel, rest) = tapes.split_at(length as usize);
        tapes = rest;
        reel
    };
    lengths.iter().map(reel).collect()
}

fn put(name: &OsStr, reels: &[&[u8]], input: &OsStr, force: bool) -> Result<Status, Stop> {
    for number in 1..=MOST_REELS {
        let path = path(name, number);
        match (number <= reels.len(), force) {
            (true, false) => output::refuse_old(&path, &[input])?,
            (true, true) => refuse_odd(&path)?,
            (false, _) => refuse_behind(&path)?,
        }
    }
    let paths = (1..).map(|number| path(name, number));
    output::write_files(&paths.zip(reels.iter().copied()).collect::<Vec<_>>(), force)
}

/// Only a file is replaced: two links might lead to one, and a device would hold one reel only.
fn refuse_odd(path: &Path) -> Result<(), Stop> {
    match fs::symlink_metadata(path) {
        Ok(there) if !there.is_file() => in_the_way(path, "is there already, and no plain file"),
        _ => Ok(()),
    }
}

/// A reel of another set behind these would be taken for one of theirs.
fn refuse_behind(path: &Path) -> Result<(), Stop> {
    match fs::symlink_metadata(path) {
        Ok(_) => in_the_way(path, "is there already, and would be taken for a reel of this set"),
        Err(_) => Ok(()),
    }
}

fn in_the_way(path: &Path, what: &str) -> Result<(), Stop> {
    let what = format!("{what}; remove it, or choose another name with -o");
    Err(output::trouble(path, io::Error::other(what)))
}

fn path(name: &OsStr, number: usize) -> PathBuf {
    let mut path = name.to_os_string();
    path.push(format!("-{number}.tap"));
    path.into()
}
