//! The cutting of blocks against its definition: every way to read a block as units and padding is tried.

use oracle::{cut_block, Unit};

/// Every way to read `block` from `at` on as units of R bytes, or led by control words, then padding.
fn readings(format: u8, record: usize, block: &[u8], at: usize) -> Vec<Vec<Unit>> {
    let mut all = Vec::new();
    if block[at..].iter().all(|&byte| byte == b'^') {
        all.push(Vec::new());
    }
    for end in at + 1..=block.len() {
        let Some(unit) = unit(format, record, &block[at..end], at) else { continue };
        for rest in readings(format, record, block, end) {
            all.push([&[unit][..], &rest].concat());
        }
    }
    all
}

/// The bytes as one unit, taken word for word from document 01.
fn unit(format: u8, record: usize, bytes: &[u8], at: usize) -> Option<Unit> {
    let text = std::str::from_utf8(bytes).ok()?;
    let (indicator, word) = match format {
        b'F' => {
            let fits = bytes.len() == record && text.chars().any(|c| c != '^');
            return fits.then_some(Unit { indicator: 0, start: at, len: record });
        }
        b'D' => (0, 4),
        _ => (text[..1].parse().ok().filter(|&indicator: &u8| indicator <= 3)?, 5),
    };
    let digits = text.get(word - 4..word)?;
    let length: usize = digits.parse().ok().filter(|_| !digits.contains('+'))?;
    let long = format == b'D' && length > record;
    let fits = length == bytes.len() && !long;
    fits.then(|| Unit { indicator, start: at + word, len: length - word })
}

fn agree_on_all(format: u8, record: usize, offset: usize, alphabet: &[u8], longest: usize) {
    let mut accepted = 0;
    for len in 1..=longest {
        for mut number in 0..alphabet.len().pow(len as u32) {
            let mut block = vec![0; len];
            for byte in &mut block {
                *byte = alphabet[number % alphabet.len()];
                number /= alphabet.len();
            }
            let mut ways = match len < offset {
                true => Vec::new(),
                false => readings(format, record, &block, offset),
            };
            ways.retain(|units| !units.is_empty());
            assert!(ways.len() <= 1, "one way to cut {block:?}");
            let expected = ways.pop();
            accepted += u32::from(expected.is_some());
            assert_eq!(cut_block(format, 99_999, record, offset, &block), expected, "{block:?}");
        }
    }
    assert!(accepted > 1, "some blocks can be cut");
}

#[test]
fn blocks_are_cut_as_defined() {
    for record in 1..=4 {
        agree_on_all(b'F', record, 0, b"A^", 11);
        agree_on_all(b'F', record, 2, b"A^", 9);
    }
    agree_on_all(b'D', 6, 0, b"0457^", 8);
    agree_on_all(b'D', 5, 1, b"0456^", 7);
    agree_on_all(b'S', 6, 0, b"0256^", 8);
    agree_on_all(b'S', 6, 1, b"0145^", 7);
}
