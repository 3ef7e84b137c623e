//! A dump of bytes: position of the first, in hexadecimal, and as text.

use crate::text::{hex, is_printable_ascii};

const A_LINE: usize = 16;

/// The lines of a dump; positions are counted from 1, as in labels.
pub fn lines(bytes: &[u8]) -> impl Iterator<Item = String> + '_ {
    (1..).step_by(A_LINE).zip(bytes.chunks(A_LINE)).map(|(first, part): (usize, _)| {
        let hex: Vec<String> = part.chunks(1).map(hex).collect();
        let text: String = part.iter().map(|&byte| printable(byte)).collect();
        format!("{first:>8}  {:<47}  |{text}|", hex.join(" "))
    })
}

/// A byte that is no printable ASCII is a full stop here; beside it stands what it is.
fn printable(byte: u8) -> char {
    match char::from(byte) {
        c if is_printable_ascii(c) => c,
        _ => '.',
    }
}
