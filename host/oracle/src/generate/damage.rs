//! Makes damaged sets: most are refused, each number of the reader and many places among the reasons.

use super::dates::date;
use super::whole::{set_of, whole_pieces};
use super::{image_of, Piece, Rng};
use crate::block::PAD;
use crate::label::{
    kind_of, Field, Kind, Label, BLOCK_COUNT, BLOCK_LENGTH, DATES, FILE_ACCESS, FORMAT,
    OFFSET_LENGTH, RECORD_LENGTH, SECTION, SEQUENCE, VOLUME_ACCESS, VOLUME_ID,
};
use crate::tape::Tape;

/// Where the fields of labels begin and end, in all layouts.
const EDGES: [usize; 26] = [
    1, 3, 4, 5, 6, 10, 11, 12, 15, 16, 24, 25, 28, 32, 36, 40, 42, 48, 51, 52, 53, 54, 55, 61, 74,
    80,
];

/// Six bytes that are no date: the first byte, the day or a digit is wrong.
const WRONG_DATES: [&[u8]; 5] = [b"100001", b" 85000", b" 85367", b"0 0001", b" 8533X"];

/// The image of a set with one to three damages; some turn out to be harmless.
pub fn damaged(rng: &mut Rng) -> Vec<u8> {
    let (mut pieces, damages) = match rng.below(250) {
        0..=1 => (set_of(rng, 65, 1), rng.below(2)),
        2..=3 => (set_of(rng, 1, 17), rng.below(2)),
        _ => (whole_pieces(rng), rng.pick(&[1, 1, 1, 1, 2, 3])),
    };
    let in_bytes = if rng.one_in(8) { damages } else { 0 };
    for _ in in_bytes..damages {
        damage_pieces(rng, &mut pieces);
    }
    let mut image = image_of(&pieces);
    for _ in 0..in_bytes {
        damage_bytes(rng, &mut image);
    }
    image
}

fn damage_bytes(rng: &mut Rng, image: &mut Vec<u8>) {
    if image.is_empty() {
        return;
    }
    let at = rng.below(image.len());
    match rng.below(10) {
        0 => image[at] = rng.byte(),
        1 => image[at] = rng.digit(),
        2 => image.truncate(at),
        3 => image.truncate(image.len() - at.min(4)),
        4 => (0..rng.between(1, 6)).for_each(|_| image.push(0)),
        5 => (0..rng.between(1, 6)).for_each(|_| image.push(0xFF)),
        6 => image[at % 6] = rng.pick(&[0, 1, 2, b'T', b'G']),
        7 => image.insert(at, rng.pick(b"\x00\x01\xFF0 ^")),
        _ => damage_length(rng, image),
    }
}

/// One byte of the length of an item.
fn damage_length(rng: &mut Rng, image: &mut [u8]) {
    let mut lengths = Vec::new();
    if let Ok(mut tape) = Tape::open(image) {
        lengths.push(tape.at());
        while let Ok(Some(_)) = tape.next_item() {
            lengths.push(tape.at());
        }
    }
    let at = lengths.get(rng.below(lengths.len() + 1)).map(|start| start + rng.below(3));
    if let Some(byte) = at.and_then(|at| image.get_mut(at)) {
        *byte = rng.pick(&[0, 1, 2, byte.wrapping_add(1), byte.wrapping_sub(1), 0xFF]);
    }
}

fn damage_pieces(rng: &mut Rng, pieces: &mut Vec<Piece>) {
    match rng.below(23) {
        0..=3 => damage_order(rng, pieces),
        4..=11 => damage_label(rng, pieces),
        12..=14 => damage_section(rng, pieces),
        15..=17 => damage_dates(rng, pieces),
        _ => damage_block(rng, pieces),
    }
}

/// Items dropped, doubled, swapped and put in.
fn damage_order(rng: &mut Rng, pieces: &mut Vec<Piece>) {
    if pieces.len() < 2 {
        return;
    }
    let (at, other) = (rng.below(pieces.len()), rng.below(pieces.len()));
    let next = (at + 1) % pieces.len();
    match rng.below(9) {
        0 => drop(pieces.remove(at)),
        1 => pieces.insert(at, pieces[at].clone()),
        2 => pieces.swap(at, other),
        3 => pieces.swap(at, next),
        4 => pieces.insert(at, Piece::TapeMark),
        5 => pieces.insert(at, Piece::EndOfReel),
        6 => pieces.insert(at, Piece::Label(any_label(rng))),
        7 => pieces.insert(at, pieces[other].clone()),
        _ => {
            let reel = pieces.clone();
            let keep = rng.between(1, reel.len());
            pieces.extend_from_slice(&reel[..keep]);
        }
    }
}

/// An optional label, or one that only looks like it.
fn any_label(rng: &mut Rng) -> Label {
    let mut label = [b' '; 80];
    let name: &[u8; 3] = rng.pick(&[b"VOL", b"UVL", b"HDR", b"UHL", b"EOF", b"EOV", b"UTL"]);
    label[..3].copy_from_slice(name);
    label[3] = if rng.one_in(5) { rng.byte() } else { rng.digit() };
    label
}

fn places(pieces: &[Piece], wanted: impl Fn(&Piece) -> bool) -> Vec<usize> {
    (0..pieces.len()).filter(|&at| wanted(&pieces[at])).collect()
}

fn pick_label<'p>(
    rng: &mut Rng,
    pieces: &'p mut [Piece],
    wanted: impl Fn(Kind) -> bool,
) -> Option<&'p mut Label> {
    let suits = |piece: &Piece| match piece {
        Piece::Label(label) => kind_of(label).is_some_and(&wanted),
        _ => false,
    };
    let places = places(pieces, suits);
    if places.is_empty() {
        return None;
    }
    match &mut pieces[rng.pick(&places)] {
        Piece::Label(label) => Some(label),
        _ => None,
    }
}

/// One label: a byte of one field, a digit, accessibility, a count, a length of its block.
fn damage_label(rng: &mut Rng, pieces: &mut [Piece]) {
    let way = rng.below(11);
    let fielded = |kind| match kind {
        Kind::Volume(n) | Kind::Installation(n) => n == 1,
        Kind::Header(n) | Kind::Trailer(_, n) => n <= 2,
        _ => true,
    };
    let wanted = |kind| match way {
        0 => matches!(kind, Kind::Volume(1)),
        1 => matches!(kind, Kind::Header(1) | Kind::Trailer(_, 1)),
        2 => matches!(kind, Kind::Trailer(_, 1)),
        3 | 4 => matches!(kind, Kind::Header(2) | Kind::Trailer(_, 2)),
        _ => fielded(kind),
    };
    let names = places(pieces, |piece| matches!(piece, Piece::Label(l) if l.starts_with(b"VOL1")));
    let first_volume = names.first().map(|&at| pieces[at].clone());
    let Some(label) = pick_label(rng, pieces, wanted) else { return };
    let at = if rng.one_in(2) { rng.pick(&EDGES) - 1 } else { rng.below(80) };
    match way {
        0 => match first_volume {
            Some(Piece::Label(first)) if rng.one_in(2) => {
                VOLUME_ID.put(label, VOLUME_ID.of(&first));
            }
            _ => VOLUME_ACCESS.put(label, &[rng.a_character()]),
        },
        1 => FILE_ACCESS.put(label, &[rng.a_character()]),
        2 => nudge(rng, label, BLOCK_COUNT),
        3 => {
            let field = rng.pick(&[BLOCK_LENGTH, RECORD_LENGTH, OFFSET_LENGTH]);
            nudge(rng, label, field);
        }
        4 => FORMAT.put(label, &[rng.pick(b"FDSU ")]),
        5 => label[at] = rng.byte(),
        6 => label[at] = rng.digit(),
        7 => label[at] = rng.a_character(),
        8 => label[rng.below(4)] = rng.pick(b"VOLHDREFU123456789"),
        9 => {
            let digits = places_of_digits(label);
            if !digits.is_empty() {
                label[rng.pick(&digits)] = rng.digit();
            }
        }
        _ => resize_label(rng, pieces),
    }
}

fn places_of_digits(label: &Label) -> Vec<usize> {
    (27..60).filter(|&at| label[at].is_ascii_digit()).collect()
}

/// A block where a label is due, but not of 80 bytes.
fn resize_label(rng: &mut Rng, pieces: &mut [Piece]) {
    let labels = places(pieces, |piece| matches!(piece, Piece::Label(_)));
    if labels.is_empty() {
        return;
    }
    let at = rng.pick(&labels);
    if let Piece::Label(label) = &pieces[at] {
        let mut block = label.to_vec();
        block.resize(rng.pick(&[1, 79, 81, 160]), b' ');
        pieces[at] = Piece::Block(block);
    }
}

/// Another number in a field of digits, mostly near the old one.
fn nudge(rng: &mut Rng, label: &mut Label, field: Field) {
    let old = field.number(label).unwrap_or(0) as usize;
    let limit = 10_usize.pow(field.width as u32);
    let new = match rng.below(6) {
        0 => rng.below(limit),
        1 => 0,
        2 => old + limit - 1,
        3 => old / 2,
        _ => old + rng.between(1, 3),
    };
    field.put(label, format!("{:0width$}", new % limit, width = field.width).as_bytes());
}

/// The places of the headers and trailers with this number.
fn headers_and_trailers(pieces: &[Piece], number: u8) -> Vec<usize> {
    let wanted = |piece: &Piece| match piece {
        Piece::Label(label) => match kind_of(label) {
            Some(Kind::Header(n) | Kind::Trailer(_, n)) => n == number,
            _ => false,
        },
        _ => false,
    };
    places(pieces, wanted)
}

/// Headers and trailers changed alike, so that only a rule about the whole set can tell; of dates, which
/// belong to a section, none can.
fn damage_section(rng: &mut Rng, pieces: &mut [Piece]) {
    let second = rng.one_in(2);
    let labels = headers_and_trailers(pieces, 1 + u8::from(second));
    if labels.len() < 2 {
        return;
    }
    let seed = rng.number();
    let way = rng.below(6);
    let bp = if second { rng.between(5, 15) } else { rng.between(5, 53) };
    let byte = rng.a_character();
    // Header and trailer of one section, of all from there on, or of the whole set.
    let from = rng.below(labels.len() / 2) * 2;
    let chosen = match rng.below(3) {
        0 => &labels[..],
        1 => &labels[from..],
        _ => &labels[from..(from + 2).min(labels.len())],
    };
    for &at in chosen {
        let Piece::Label(label) = &mut pieces[at] else { continue };
        let same = &mut Rng::new(seed);
        match (second, way) {
            (false, 0) => nudge(same, label, SECTION),
            (false, 1) => nudge(same, label, SEQUENCE),
            (true, 0) => nudge(same, label, BLOCK_LENGTH),
            (true, 1 | 2) => nudge(same, label, RECORD_LENGTH),
            (true, 3) => nudge(same, label, OFFSET_LENGTH),
            _ if label[bp - 1].is_ascii_digit() => label[bp - 1] = same.digit(),
            _ => label[bp - 1] = byte,
        }
    }
}

/// Dates of one header or trailer, of a later section where there is one: those of another label, which may
/// be of any section, new ones, or wrong ones.
fn damage_dates(rng: &mut Rng, pieces: &mut [Piece]) {
    let labels = headers_and_trailers(pieces, 1);
    let is_later =
        |&at: &usize| matches!(&pieces[at], Piece::Label(label) if SECTION.of(label) != b"0001");
    let later: Vec<usize> = labels.iter().copied().filter(is_later).collect();
    let chosen = if later.is_empty() { &labels } else { &later };
    if chosen.is_empty() {
        return;
    }
    let Piece::Label(another) = pieces[rng.pick(&labels)] else { return };
    let Piece::Label(label) = &mut pieces[rng.pick(chosen)] else { return };
    let way = rng.below(3);
    for field in rng.pick(&[&DATES[..1], &DATES[1..], &DATES[..]]) {
        match way {
            0 => field.put(label, rng.pick(&WRONG_DATES)),
            1 => field.put(label, &date(rng)),
            _ => field.put(label, field.of(&another)),
        }
    }
}

/// One data block: control words, padding, length, order; or a block less with the count that suits.
fn damage_block(rng: &mut Rng, pieces: &mut Vec<Piece>) {
    let blocks = places(pieces, |piece| matches!(piece, Piece::Block(_)));
    if blocks.is_empty() {
        return damage_order(rng, pieces);
    }
    let place = rng.pick(&blocks);
    let way = rng.below(14);
    if way == 0 {
        pieces.swap(place, rng.pick(&blocks));
        return;
    }
    if way == 1 {
        pieces.remove(place);
        return recount(pieces, place);
    }
    let Piece::Block(block) = &mut pieces[place] else { return };
    let digits: Vec<usize> = (0..block.len()).filter(|&at| block[at].is_ascii_digit()).collect();
    let at = match digits.is_empty() {
        true => rng.below(block.len()),
        false => rng.pick(&digits[..digits.len().min(12)]),
    };
    match way {
        2..=4 => block[at] = rng.pick(b"012345"),
        5 => block[at] = rng.digit(),
        6 => block[at] = rng.byte(),
        7 => block.truncate(at.max(1)),
        8 => block.extend_from_slice(&b"^^^^X"[rng.below(4)..]),
        9 => block.fill(PAD),
        // Without offset bytes this is the indicator of an S file.
        10 | 11 => block[0] = rng.pick(b"0123"),
        12 => block
            .extend_from_slice(rng.pick(&["00005", "10005", "20005", "30005", "0004"]).as_bytes()),
        _ => {
            let tail = rng.below(block.len());
            let byte = rng.pick(b"^^X");
            block[tail..].fill(byte);
        }
    }
}

/// Sets the count of the trailer behind this place to the blocks that are left before it.
fn recount(pieces: &mut [Piece], place: usize) {
    let is_block = |piece: &&Piece| matches!(piece, Piece::Block(_));
    let before = pieces[..place].iter().rev().take_while(is_block).count();
    let behind = pieces[place..].iter().take_while(is_block).count();
    let count = format!("{:06}", before + behind);
    if let Some(Piece::Label(label)) = pieces.get_mut(place + behind + 1) {
        BLOCK_COUNT.put(label, count.as_bytes());
    }
}
