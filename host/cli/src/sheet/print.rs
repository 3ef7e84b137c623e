//! Prints the lines of a sheet.

use super::field::{Field, FIELDS, REEL, SET};

/// The lines before the files.
pub fn head_text(set: &[u8], quota: u64, names: &[u8]) -> Vec<u8> {
    let mut text = line("", &SET, set);
    text.extend(format!("quota {quota}\n").as_bytes());
    names.chunks(REEL.width).for_each(|name| text.extend(line("", &REEL, name)));
    text
}

/// The lines of a file but for its records, from the fields one behind the other.
pub fn file_text(entry: &[u8]) -> Vec<u8> {
    let mut text = b"\n".to_vec();
    for field in &FIELDS {
        text.extend(line(if field.at > 0 { "  " } else { "" }, field, field.of(entry)));
    }
    text
}

fn line(indent: &str, field: &Field, value: &[u8]) -> Vec<u8> {
    let start = format!("{indent}{} ", field.key);
    [start.as_bytes(), &field.text(value), b"\n"].concat()
}
