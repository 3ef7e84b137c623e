//! Names of files, and pieces of a sheet, as messages and lines tell them: whatever bytes they have, they
//! can't end a line, move the cursor or turn the order of what is read.

use super::{escape, is_printable_ascii};
use std::ffi::OsStr;
use std::os::unix::ffi::OsStrExt;

/// The most characters that are told of what stands on a sheet.
const SHORT: usize = 40;

/// A name as it is where nothing in it can be taken for anything else, or in double quotes with escapes.
pub fn told(name: &OsStr) -> String {
    match plain(name.as_bytes()) {
        Some(name) => name.into(),
        None => format!("\"{}\"", pieces(name.as_bytes(), is_seen).collect::<String>()),
    }
}

/// A name that stands on a sheet: the same, but short.
pub fn short(name: &[u8]) -> String {
    match plain(name) {
        Some(name) if name.len() <= SHORT => name.into(),
        _ => echoed(name),
    }
}

/// A word of the command line that is wrong.
pub fn word(word: &OsStr) -> String {
    echoed(word.as_bytes())
}

/// The beginning of what stands on a sheet or in a word, in quotes and in printable ASCII alone; dots
/// behind them where more follows.
pub fn echoed(text: &[u8]) -> String {
    let mut shown = String::new();
    for piece in pieces(text, is_printable_ascii) {
        if shown.len() + piece.len() > SHORT {
            return format!("\"{shown}\"..");
        }
        shown += &piece;
    }
    format!("\"{shown}\"")
}

/// The name, where it is seen as it is and no name in quotes looks like it.
fn plain(name: &[u8]) -> Option<&str> {
    let name = std::str::from_utf8(name).ok()?;
    let plain = !name.is_empty() && !name.starts_with('"') && name.chars().all(is_seen);
    plain.then_some(name)
}

/// A character that is no control: none of C0, DEL and C1, no separator of lines or paragraphs, and none
/// that changes the direction of what is read.
pub fn is_seen(c: char) -> bool {
    let separates = matches!(c, '\u{2028}' | '\u{2029}');
    let marks_direction = matches!(c, '\u{61c}' | '\u{200e}' | '\u{200f}');
    let turns = matches!(c, '\u{202a}'..='\u{202e}' | '\u{2066}'..='\u{2069}');
    !(c.is_control() || separates || marks_direction || turns)
}

/// Each character, or byte that is part of none, as it stands between quotes: those to keep as they are.
fn pieces(text: &[u8], keeps: fn(char) -> bool) -> impl Iterator<Item = String> + '_ {
    text.utf8_chunks().flat_map(move |chunk| {
        let valid = chunk.valid().chars().map(move |c| escaped(c, keeps));
        valid.chain(chunk.invalid().iter().copied().map(escape))
    })
}

fn escaped(c: char, keeps: fn(char) -> bool) -> String {
    match c {
        '\n' => "\\n".into(),
        '\t' => "\\t".into(),
        '"' | '\\' => format!("\\{c}"),
        c if keeps(c) => c.into(),
        c => c.encode_utf8(&mut [0; 4]).bytes().map(escape).collect(),
    }
}
