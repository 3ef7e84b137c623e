//! Makes the fields and the data blocks of one file.

use super::dates::date;
use super::Rng;
use crate::block::{Shape, PAD};
use crate::content::FACTS;

/// A shape that a second label can have, extremes often among them.
pub fn shape(rng: &mut Rng) -> Shape {
    let format = rng.pick(b"FDS");
    let offset = match rng.below(10) {
        0 => 99,
        1..=3 => rng.between(1, 9),
        _ => 0,
    };
    let least = if format == b'D' { 5 } else { 1 };
    let record = match rng.below(20) {
        0..=2 => least,
        3 => 80,
        4 if format != b'F' => 99_999 - offset,
        5 if format == b'S' => 99_999,
        _ => least + rng.below(30),
    };
    let needed = offset + if format == b'S' { 6 } else { record };
    let block = match rng.below(10) {
        0..=1 => needed,
        2 => 99_999,
        _ => (needed + rng.below(60)).min(99_999),
    };
    Shape { format, block, record, offset }
}

/// The 46 bytes of a file's fields.
pub fn facts(rng: &mut Rng, shape: &Shape) -> [u8; FACTS] {
    let mut facts = [b' '; FACTS];
    let letters = if rng.one_in(4) { 17 } else { rng.below(9) };
    rng.fill(&mut facts[..letters], Rng::a_character);
    rng.fill(&mut facts[17..23], Rng::digit);
    if facts[17..21] == *b"0000" {
        facts[20] = b'1';
    }
    facts[23..29].copy_from_slice(&date(rng));
    facts[29..35].copy_from_slice(&date(rng));
    facts[35] = shape.format;
    facts[36..41].copy_from_slice(format!("{:05}", shape.block).as_bytes());
    facts[41..46].copy_from_slice(format!("{:05}", shape.record).as_bytes());
    facts
}

/// Bytes of a record: letters, digits, padding bytes or anything.
pub fn bytes(rng: &mut Rng, len: usize) -> Vec<u8> {
    let mut bytes = vec![0; len];
    match rng.below(5) {
        0 => rng.fill(&mut bytes, Rng::byte),
        1 => rng.fill(&mut bytes, Rng::digit),
        2 => rng.fill(&mut bytes, |rng| rng.pick(b"^^^A0")),
        3 if len >= 4 => {
            rng.fill(&mut bytes, Rng::a_character);
            bytes[..4].copy_from_slice(rng.pick(&[b"EOF1", b"EOV1", b"HDR1", b"VOL1", b"UTL1"]));
        }
        _ => rng.fill(&mut bytes, Rng::a_character),
    }
    bytes
}

/// A record of an F file, so not of padding bytes alone.
pub fn fixed_record(rng: &mut Rng, len: usize) -> Vec<u8> {
    let mut record = bytes(rng, len);
    if record.iter().all(|&byte| byte == PAD) {
        let at = rng.below(len);
        record[at] = b'X';
    }
    record
}

/// Up to `most` data blocks; an S file may get one more, which ends its open record.
pub fn blocks(rng: &mut Rng, shape: &Shape, most: usize) -> Vec<Vec<u8>> {
    let mut open = None;
    let mut blocks = Vec::new();
    for _ in 0..rng.below(most + 1) {
        blocks.push(block(rng, shape, &mut open, false));
    }
    if open.is_some() {
        blocks.push(block(rng, shape, &mut open, true));
    }
    blocks
}

fn block(rng: &mut Rng, shape: &Shape, open: &mut Option<usize>, last: bool) -> Vec<u8> {
    let mut block = vec![0; shape.offset];
    rng.fill(&mut block, Rng::byte);
    let units = if rng.one_in(2) { 1 } else { rng.between(1, 6) };
    for unit in 0..units {
        let room = shape.block - block.len();
        let fits = match shape.format {
            b'F' => fixed(rng, shape, room, &mut block),
            b'D' => variable(rng, shape, room, &mut block),
            _ if unit > 0 && open.is_some() => false,
            _ => segment(rng, shape, room, open, last, &mut block),
        };
        if !fits {
            break;
        }
    }
    let padding = match rng.below(6) {
        0 => rng.below(20),
        1 => rng.below(3),
        _ => 0,
    };
    let padded = (block.len() + padding).min(shape.block);
    block.resize(padded, PAD);
    block
}

fn fixed(rng: &mut Rng, shape: &Shape, room: usize, block: &mut Vec<u8>) -> bool {
    let fits = shape.record <= room;
    if fits {
        block.extend(fixed_record(rng, shape.record));
    }
    fits
}

fn variable(rng: &mut Rng, shape: &Shape, room: usize, block: &mut Vec<u8>) -> bool {
    let most = room.min(shape.record).min(9_999);
    if most < 4 {
        return false;
    }
    let len = size(rng, most - 4);
    block.extend(format!("{:04}", len + 4).as_bytes());
    block.extend(bytes(rng, len));
    true
}

fn segment(
    rng: &mut Rng,
    shape: &Shape,
    room: usize,
    open: &mut Option<usize>,
    last: bool,
    block: &mut Vec<u8>,
) -> bool {
    if room < 5 {
        return false;
    }
    let before = open.unwrap_or(0);
    let len = size(rng, (room - 5).min(shape.record - before).min(9_994));
    let ends = last || rng.one_in(2);
    let indicator = match (open.is_some(), ends) {
        (false, true) => b'0',
        (false, false) => b'1',
        (true, false) => b'2',
        (true, true) => b'3',
    };
    *open = (!ends).then_some(before + len);
    block.push(indicator);
    block.extend(format!("{:04}", len + 5).as_bytes());
    block.extend(bytes(rng, len));
    true
}

/// A length up to `most`: none, all there is (unless that is much), or something small.
fn size(rng: &mut Rng, most: usize) -> usize {
    match rng.below(8) {
        0 => 0,
        1 | 2 if most < 100 || rng.one_in(50) => most,
        _ => rng.below(most.min(25) + 1),
    }
}
