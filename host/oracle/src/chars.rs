//! Knows a-characters, digits, numbers and dates; knows no label.

/// The 57 characters of ECMA-13, 8.1.
pub fn is_a(byte: u8) -> bool {
    matches!(byte, 0x20..=0x22 | 0x25..=0x3F | 0x41..=0x5A | 0x5F)
}

pub fn is_digit(byte: u8) -> bool {
    byte.is_ascii_digit()
}

/// The value of a field of up to nine digits; none where a byte is no digit.
#[inline]
pub fn number_of(field: &[u8]) -> Option<u32> {
    let mut value = 0;
    for &byte in field {
        let digit = byte.wrapping_sub(b'0');
        if digit > 9 {
            return None;
        }
        value = value * 10 + u32::from(digit);
    }
    Some(value)
}

/// SPACE or `0`, two digits of the year and a day 001 to 366, or five ZEROs behind the first byte.
pub fn is_date(field: &[u8]) -> bool {
    if field.len() != 6 || !matches!(field[0], b' ' | b'0') {
        return false;
    }
    match (number_of(&field[1..3]), number_of(&field[3..6])) {
        (Some(year), Some(day)) => (1..=366).contains(&day) || (year == 0 && day == 0),
        _ => false,
    }
}
