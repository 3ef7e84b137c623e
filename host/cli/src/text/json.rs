//! Values as JSON has them.

use super::names::is_seen;
use super::{hex, is_printable_ascii};
use std::ffi::{OsStr, OsString};
use std::os::unix::ffi::OsStrExt;

/// A text.
pub fn text(text: &str) -> String {
    quoted(text.chars(), is_seen)
}

/// Bytes off a tape: each is the character of its number, so that none is lost.
pub fn bytes(bytes: impl AsRef<[u8]>) -> String {
    quoted(bytes.as_ref().iter().map(|&byte| char::from(byte)), is_printable_ascii)
}

fn quoted(text: impl Iterator<Item = char>, keeps: fn(char) -> bool) -> String {
    let mut quoted = String::from('"');
    for c in text {
        match c {
            '"' | '\\' => quoted.extend(['\\', c]),
            c if keeps(c) => quoted.push(c),
            c => quoted.push_str(&format!("\\u{:04x}", c as u32)),
        }
    }
    quoted + "\""
}

/// A field of a label without the SPACEs that fill it up.
pub fn identifier(field: impl AsRef<[u8]>) -> String {
    bytes(field.as_ref().trim_ascii_end())
}

pub fn list(values: impl Iterator<Item = String>) -> String {
    format!("[{}]", values.collect::<Vec<_>>().join(","))
}

/// The name of a file.
pub fn file(file: &OsStr) -> String {
    names("file", &[file], |names| names.concat())
}

/// The names of several files, as the member `what`.
pub fn files(what: &str, files: &[OsString]) -> String {
    names(what, files, |names| list(names.into_iter()))
}

/// Names joined in one way; where one is no UTF-8, their bytes in hexadecimal too.
fn names<N: AsRef<OsStr>>(key: &str, names: &[N], join: fn(Vec<String>) -> String) -> String {
    let all = |told: fn(&OsStr) -> String| join(names.iter().map(|n| told(n.as_ref())).collect());
    let texts = format!(r#""{key}":{}"#, all(|name| text(&name.to_string_lossy())));
    match names.iter().all(|name| name.as_ref().to_str().is_some()) {
        true => texts,
        false => format!(r#"{texts},"{key}_hex":{}"#, all(|name| text(&hex(name.as_bytes())))),
    }
}
