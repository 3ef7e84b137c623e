//! States of a walk, real ones and ones that no walk reaches: archive and oracle take the same step
//! from each.

use crate::records::answer_of;
use crate::twins::Twins;
use crate::{archive, images, shown};
use oracle::block::Shape;
use oracle::generate::{image_of, whole, Piece, Rng};
use oracle::label::Label;
use oracle::tape::{item_in, Item, HEAD};
use oracle::{Found, Walk};
use std::fmt;

/// Steps from states of one image.
const STATES: u64 = 200;
/// States of one image that others are made from.
const KEPT: usize = 400;

/// How often each answer came.
#[derive(Default)]
pub struct Tally {
    pub images: u64,
    pub in_image: u64,
    pub joined: u64,
    pub too_short: u64,
    pub no_step: u64,
    /// States from which the records were counted too.
    pub counted: u64,
    /// States from which several steps were taken at once too.
    pub rows: u64,
}

impl Tally {
    pub fn states(&self) -> u64 {
        self.in_image + self.joined + self.too_short + self.no_step
    }

    #[track_caller]
    pub fn assert_complete(&self, least: u64) {
        let least = [self.in_image, self.joined, self.too_short, self.no_step]
            .into_iter()
            .all(|count| count >= least);
        assert!(least, "each answer: {self}");
    }
}

impl fmt::Display for Tally {
    fn fmt(&self, f: &mut fmt::Formatter) -> fmt::Result {
        let Tally { images, in_image, joined, too_short, no_step, counted, rows } = self;
        write!(f, "{} states in {images} images; in the image: {in_image}, ", self.states())?;
        write!(f, "joined: {joined}, 10: {too_short}, 13: {no_step}; ")?;
        write!(f, "counted from {counted}, steps at once from {rows}")
    }
}

/// So many states, from images of all kinds.
pub fn compare(seed: u64, count: u64) -> Tally {
    let rng = &mut Rng::new(seed);
    let mut tally = Tally::default();
    let mut twins = Twins::new(120_000);
    while tally.states() < count {
        let image = image(rng);
        tally.images += 1;
        let known = places(&image);
        // States that have a step, and those behind them, are the more worth a shift.
        let mut live = Vec::new();
        for _ in 0..STATES {
            let from = if live.is_empty() || rng.one_in(4) { &known } else { &live };
            let walk = state(rng, &image, from);
            if rng.one_in(8) {
                let (counted, due) = (archive::count(walk, &image), walk.count(&image));
                assert_eq!(counted, due, "{walk:?} in {}", shown(&image));
                tally.counted += 1;
            }
            if rng.one_in(8) {
                assert_row(rng, &image, walk);
                tally.rows += 1;
            }
            if let Some(behind) = agreed(rng, &image, walk, &mut twins, &mut tally) {
                if live.len() < KEPT {
                    live.extend([walk, walk, behind]);
                }
            }
        }
    }
    tally
}

/// Steps at once are the oracle's steps one by one, up to the first that gives no part of the image; the
/// lists, which need not be of one length, keep what stands behind.
fn assert_row(rng: &mut Rng, image: &[u8], from: Walk) {
    let old = [7; 12];
    let (mut starts, mut lens) = (old, old);
    let (some, others) = (rng.below(12), rng.below(12));
    let row = archive::steps(from, image, &mut starts[..some], &mut lens[..others]);
    let (mut due_starts, mut due_lens, mut walk, mut count) = (old, old, from, 0);
    while count < some.min(others) {
        let Ok((Found::InImage { start, len }, behind)) = walk.step(image, &mut []) else { break };
        (due_starts[count], due_lens[count], walk) = (start as u64, len as u64, behind);
        count += 1;
    }
    let (row, due) = ((row, starts, lens), ((count, walk), due_starts, due_lens));
    assert_eq!(row, due, "{from:?} with lists of {some} and {others} in {}", shown(image));
}

/// The step of both; where it gives a record, the walk behind it.
fn agreed(
    rng: &mut Rng,
    image: &[u8],
    walk: Walk,
    twins: &mut Twins,
    tally: &mut Tally,
) -> Option<Walk> {
    let mut len = rng.pick(&[0, 1, 5, 12, 40, 40, 40, 400]);
    // A joined record is asked for again with a buffer that just holds it, or just does not.
    for more in [0, 1, 2] {
        let (one, other) = twins.lend(len);
        let step = archive::step(walk, image, one);
        let due = walk.step(image, other);
        assert_eq!(step, due, "{walk:?} with {len} bytes in {}", shown(image));
        twins.assert_alike(step.map_or(0, |(found, _)| answer_of(found)));
        match step {
            Ok((Found::Joined { len: own }, _)) if more == 0 && own > 0 => len = own,
            Ok((Found::Joined { .. }, _)) if more == 1 => len -= 1,
            Err(10) if more == 0 => len = 100_000,
            _ => {
                tally.count(step);
                return step.ok().map(|(_, behind)| behind);
            }
        }
        tally.count(step);
    }
    None
}

impl Tally {
    fn count(&mut self, step: Result<(Found, Walk), u32>) {
        match step {
            Ok((Found::InImage { .. }, _)) => self.in_image += 1,
            Ok((Found::Joined { .. }, _)) => self.joined += 1,
            Err(10) => self.too_short += 1,
            Err(13) => self.no_step += 1,
            other => panic!("no answer of a step: {other:?}"),
        }
    }
}

fn image(rng: &mut Rng) -> Vec<u8> {
    match rng.below(10) {
        0..=2 => whole(rng),
        3 => images::generated(rng),
        4 => images::mutated(rng),
        5 => rng.pick(&[images::concatenated, images::raw, text])(rng),
        _ => crossing(rng),
    }
}

/// Bytes that are nearly all control words and padding.
fn text(rng: &mut Rng) -> Vec<u8> {
    let mut bytes = vec![0; rng.below(200)];
    rng.fill(&mut bytes, |rng| rng.pick(b"000000011235^^^^A\0\0\0\x06\x0A"));
    bytes
}

/// One file's data over two or three reels, or over 21 of which most are empty, of labels that are names alone; items are missing, doubled,
/// swapped or of another length or name.
fn crossing(rng: &mut Rng) -> Vec<u8> {
    let (mut pieces, mut open) = (Vec::new(), false);
    data(rng, &mut pieces, &mut open);
    let reels = if rng.one_in(40) { 20 } else { rng.between(1, 2) };
    for reel in 0..reels {
        pieces.push(Piece::TapeMark);
        labels(rng, &mut pieces, &["EOV1", "EOV2"], "EOV3", "UTL1");
        pieces.extend([Piece::TapeMark, Piece::TapeMark, Piece::EndOfReel]);
        labels(rng, &mut pieces, &["VOL1"], "VOL2", "");
        labels(rng, &mut pieces, &[], "UVL1", "");
        labels(rng, &mut pieces, &["HDR1", "HDR2"], "HDR3", "UHL1");
        pieces.push(Piece::TapeMark);
        if reels < 20 || reel == 19 {
            data(rng, &mut pieces, &mut open);
        }
    }
    if rng.one_in(2) {
        for _ in 0..rng.between(1, 2) {
            disturb(rng, &mut pieces);
        }
    }
    let mut image = image_of(&pieces);
    if rng.one_in(8) {
        image.truncate(image.len() - rng.below(image.len() - HEAD.len()));
    }
    image
}

fn named(name: &str) -> Piece {
    let mut label = [b'?'; 80];
    label[..4].copy_from_slice(name.as_bytes());
    Piece::Label(label)
}

/// The labels that must be there, then optional ones from this one on, and user labels.
fn labels(rng: &mut Rng, pieces: &mut Vec<Piece>, must: &[&str], option: &str, user: &str) {
    pieces.extend(must.iter().map(|name| named(name)));
    let few = rng.pick(&[0, 0, 1, 2, 7, 8]);
    let first = option.as_bytes()[3];
    for number in (first..=b'9').take(few) {
        let mut name = option.as_bytes().to_vec();
        name[3] = number;
        pieces.push(named(std::str::from_utf8(&name).expect("a name")));
    }
    if !user.is_empty() {
        let few = rng.pick(&[0, 0, 1, 2, 9]);
        pieces.extend((0..few).map(|_| named(user)));
    }
}

/// Up to two blocks of an S file, mostly in turn.
fn data(rng: &mut Rng, pieces: &mut Vec<Piece>, open: &mut bool) {
    for _ in 0..rng.below(3) {
        let mut block = Vec::new();
        for _ in 0..rng.pick(&[1, 1, 2]) {
            if *open && !block.is_empty() && !rng.one_in(8) {
                break;
            }
            let in_turn = if *open { b"23" } else { b"01" };
            let indicator = if rng.one_in(8) { rng.pick(b"0123") } else { rng.pick(in_turn) };
            *open = matches!(indicator, b'1' | b'2');
            let len = rng.below(12);
            block.push(indicator);
            block.extend(format!("{:04}", len + 5).as_bytes());
            block.extend((0..len).map(|_| rng.a_character()));
        }
        block.extend(vec![b'^'; rng.pick(&[0, 0, 0, 1, 4])]);
        pieces.push(Piece::Block(block));
    }
}

fn disturb(rng: &mut Rng, pieces: &mut Vec<Piece>) {
    let (at, other) = (rng.below(pieces.len()), rng.below(pieces.len()));
    match rng.below(7) {
        0 if pieces.len() > 1 => drop(pieces.remove(at)),
        1 => pieces.insert(at, pieces[other].clone()),
        2 => pieces.swap(at, other),
        3 => pieces.insert(at, Piece::TapeMark),
        4 => pieces.insert(at, Piece::EndOfReel),
        5 => {
            if let Piece::Label(label) = &mut pieces[at] {
                label[rng.below(4)] = rng.pick(b"0123456789VOLHDREFUT:");
            }
        }
        _ => {
            if let Piece::Label(label) = &pieces[at] {
                let mut block = label.to_vec();
                block.resize(rng.pick(&[1, 79, 81]), b' ');
                pieces[at] = Piece::Block(block);
            }
        }
    }
}

/// States at the items of an image, by the shapes of its own HDR2 labels or by another.
fn places(image: &[u8]) -> Vec<Walk> {
    let mut shape = Shape { format: b'S', block: 99_999, record: 99_999, offset: 0 };
    let mut places = Vec::new();
    let mut at = HEAD.len();
    while let Some(item) = image.get(at..).and_then(item_in) {
        let walk = |at: usize, left: usize| Walk {
            format: shape.format.into(),
            size: shape.record as u32,
            offset: shape.offset as u64,
            at: at as u64,
            left: left as u64,
        };
        places.push(walk(at, 0));
        if let Item::Block(block) = item {
            let left = block.len().saturating_sub(shape.offset);
            places.push(walk(at + item.len() - left, left));
            match <&Label>::try_from(block) {
                Ok(label) if label.starts_with(b"HDR2") => shape = Shape::of(label),
                _ => {}
            }
        }
        at += item.len();
    }
    let format = shape.format.into();
    places.push(Walk { format, size: 10, offset: 0, at: at as u64, left: 0 });
    places
}

/// A known state, or one near it, or anything.
fn state(rng: &mut Rng, image: &[u8], known: &[Walk]) -> Walk {
    let mut walk = rng.pick(known);
    match rng.below(10) {
        0..=2 => {}
        3..=6 => shift(rng, image, &mut walk),
        7..=8 => (0..rng.between(2, 5)).for_each(|_| shift(rng, image, &mut walk)),
        _ => walk = anything(rng, image),
    }
    walk
}

/// A format, or a byte or another number that is none.
fn format(rng: &mut Rng) -> u32 {
    let format = u32::from(rng.pick(b"FDS"));
    match rng.below(8) {
        0 => rng.byte().into(),
        1 => format + 256,
        2 => u32::MAX,
        _ => format,
    }
}

fn shift(rng: &mut Rng, image: &[u8], walk: &mut Walk) {
    match rng.below(5) {
        0 => walk.format = format(rng),
        1 => walk.size = near(rng, u64::from(walk.size), image).min(u64::from(u32::MAX)) as u32,
        2 => walk.offset = near(rng, walk.offset, image),
        3 => walk.at = near(rng, walk.at, image),
        _ => walk.left = near(rng, walk.left, image),
    }
}

/// A number near the old one, near the image's length, small, or as great as can be.
fn near(rng: &mut Rng, old: u64, image: &[u8]) -> u64 {
    let (few, length) = (rng.below(12) as u64, image.len() as u64);
    match rng.below(14) {
        0..=2 => old.wrapping_add(1 + few % 3),
        3..=5 => old.wrapping_sub(1 + few % 3),
        6 => old.wrapping_add(few),
        7 => few,
        8 => 0,
        9 => length.wrapping_sub(old).wrapping_add(few % 2),
        10 => (length + 1).wrapping_sub(few),
        11 => u64::MAX - few,
        12 => rng.pick(&[u64::from(u32::MAX), 1 << 32, 1 << 63, (1 << 63) - 1, 99_999, 9_999]),
        _ => rng.below(image.len() + 1) as u64,
    }
}

fn anything(rng: &mut Rng, image: &[u8]) -> Walk {
    let mut number = |limit: u64| match rng.below(4) {
        0 => rng.number(),
        1 => u64::MAX,
        _ => rng.number() % limit,
    };
    let length = image.len() as u64 + 1;
    let (size, offset, at, left) = (number(40) as u32, number(10), number(length), number(60));
    Walk { format: rng.pick(b"FDSU").into(), size, offset, at, left }
}
