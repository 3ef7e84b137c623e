//! Makers of images from a seed: generated sets, and bytes that no generator of sets would make.

use oracle::generate::{damaged, whole, Rng};
use oracle::tape::{Tape, END_OF_REEL, HEAD};

/// A maker of images, and its name.
pub type Maker = (&'static str, fn(&mut Rng) -> Vec<u8>);

pub const MAKERS: [Maker; 5] = [
    ("generated sets", generated),
    ("raw bytes", raw),
    ("truncations", truncated),
    ("concatenations", concatenated),
    ("mutations", mutated),
];

/// A set, one in three whole, the others damaged.
pub fn generated(rng: &mut Rng) -> Vec<u8> {
    match rng.one_in(3) {
        true => whole(rng),
        false => damaged(rng),
    }
}

/// Bytes of one kind; mostly with the head of an image, and often with an end of reel.
pub fn raw(rng: &mut Rng) -> Vec<u8> {
    let mut bytes = vec![0; rng.below(300)];
    match rng.below(4) {
        0 => rng.fill(&mut bytes, Rng::byte),
        1 => rng.fill(&mut bytes, |rng| rng.pick(&[0, 0, 0, 1, 2, 80, 0xFF])),
        2 => rng.fill(&mut bytes, Rng::a_character),
        _ => rng.fill(&mut bytes, |rng| rng.pick(b"\0\0\0P\xFF\xFF\xFFVOL1HDREFU 04^")),
    }
    if !rng.one_in(4) {
        bytes.splice(0..0, *HEAD);
    }
    if rng.one_in(2) {
        bytes.extend(END_OF_REEL);
    }
    bytes
}

/// The front of a set, cut at any byte or between two items; some then end a reel.
pub fn truncated(rng: &mut Rng) -> Vec<u8> {
    let mut image = generated(rng);
    let length = match rng.one_in(3) {
        true => rng.below(image.len() + 1),
        false => between_items(rng, &image),
    };
    image.truncate(length);
    if rng.one_in(2) {
        image.extend(END_OF_REEL);
    }
    image
}

/// The front of a set and the back of another, cut at any byte, between two items, or not at all.
pub fn concatenated(rng: &mut Rng) -> Vec<u8> {
    let (one, other) = (generated(rng), generated(rng));
    let (front, back) = match rng.below(4) {
        0 => (one.len(), 0),
        1 => (one.len(), HEAD.len().min(other.len())),
        2 => (rng.below(one.len() + 1), rng.below(other.len() + 1)),
        _ => (between_items(rng, &one), between_items(rng, &other)),
    };
    [&one[..front], &other[back..]].concat()
}

/// A place where an item begins or the image ends.
fn between_items(rng: &mut Rng, image: &[u8]) -> usize {
    let mut places = vec![image.len()];
    if let Ok(mut tape) = Tape::open(image) {
        places.push(tape.at());
        while let Ok(Some(_)) = tape.next_item() {
            places.push(tape.at());
        }
    }
    rng.pick(&places)
}

/// A whole set with up to 16 changes that know nothing of sets.
pub fn mutated(rng: &mut Rng) -> Vec<u8> {
    let mut image = whole(rng);
    let changes = if rng.one_in(2) { 1 } else { rng.between(1, 16) };
    for _ in 0..changes {
        mutate(rng, &mut image);
    }
    image
}

fn mutate(rng: &mut Rng, image: &mut Vec<u8>) {
    if image.is_empty() {
        return;
    }
    let at = rng.below(image.len());
    let end = (at + rng.between(1, 90)).min(image.len());
    let to = rng.below(image.len() - (end - at) + 1);
    match rng.below(8) {
        0 => image[at] ^= 1 << rng.below(8),
        1 => image[at] = rng.byte(),
        2 => image[at] = rng.pick(b"\0\x01\x50\x7F\x80\xFF 019^"),
        3 => image[at] = image[at].wrapping_add(rng.pick(&[1, 0xFF])),
        4 => drop(image.drain(at..end)),
        5 => drop(image.splice(to..to, image[at..end].to_vec())),
        6 => image.copy_within(at..end, to),
        _ => image.swap(at, end - 1),
    }
}
