//! `import REEL.. -o OUT`: the image of a set whose reels are files in SIMH's form.

use crate::input::reels;
use crate::output::Output;
use crate::stop::{Status, Stop};
use crate::words::Words;

pub fn run(words: &Words) -> Result<Status, Stop> {
    let files = words.some("reel")?;
    let out = Output::of(words, files)?;
    out.write(&reels::image(files)?)
}
