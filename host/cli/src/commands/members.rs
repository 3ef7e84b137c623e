//! What the JSON objects of `list` and `show` have in common.

use crate::fault::Fault;
use crate::text::json;
use crate::words::Words;
use std::ffi::OsString;

/// What the set was read from.
pub fn names(words: &Words, files: &[OsString]) -> String {
    match words.is_simh() {
        true => json::files("tapes", files),
        false => json::file(&files[0]),
    }
}

/// What an accepted set is called, and its reels; or why it is refused.
pub fn verdict(image: &[u8], fault: Option<&Fault>) -> String {
    if let Some(fault) = fault {
        return fault.json();
    }
    let set = tardorelga::file(image, 1).map(|file| json::identifier(file.set()));
    let set = set.expect("an accepted set has a file");
    let reels = json::list(tardorelga::reel_names(image).map(json::identifier));
    format!(r#""accepted":true,"set":{set},"reels":{reels}"#)
}
