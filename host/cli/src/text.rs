//! Text for people and programs: bytes off a tape, and numbers of things.

pub mod json;
pub mod names;

/// Printable ASCII stands for itself but for the backslash, which is doubled; any other byte is `\xNN`. So no byte
/// moves the cursor, and every byte can be told from the text.
pub fn escaped(bytes: &[u8]) -> String {
    let mut text = String::with_capacity(bytes.len());
    for &byte in bytes {
        match char::from(byte) {
            '\\' => text.push_str("\\\\"),
            c if is_printable_ascii(c) => text.push(c),
            _ => text.push_str(&escape(byte)),
        }
    }
    text
}

/// What stands for a byte that can't stand for itself.
pub fn escape(byte: u8) -> String {
    format!("\\x{byte:02x}")
}

pub fn is_printable_ascii(c: char) -> bool {
    matches!(c, ' '..='~')
}

/// Two hexadecimal digits a byte.
pub fn hex(bytes: &[u8]) -> String {
    let digit = |value: u8| char::from(b"0123456789abcdef"[value as usize]);
    bytes.iter().flat_map(|&byte| [digit(byte >> 4), digit(byte & 15)]).collect()
}

/// So many of something.
pub fn many(count: u64, what: &str) -> String {
    format!("{count} {what}{}", if count == 1 { "" } else { "s" })
}
