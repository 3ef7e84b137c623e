//! Rewriting: archive and oracle on the same images, and on different images of one meaning.

use crate::archive;
use crate::shown;
use crate::writing::{Both, Tally};
use cases::dates::differ;
use oracle::block::{Shape, PAD};
use oracle::generate::{image_of, large, names, redate, whole, Large, Piece, Rng};
use oracle::label::{kind_of, Field, Kind, Label, FREE, IMPLEMENTATION, VOLUME_ID};
use oracle::tape::{item_in, Item, HEAD};
use oracle::{meaning, rewrite, Written};
use std::fmt;

/// So many images of a maker, on reels that are mostly legal.
pub fn compare(maker: fn(&mut Rng) -> Vec<u8>, seed: u64, count: u64) -> Tally {
    let rng = &mut Rng::new(seed);
    let mut both = Both::new(3_000_000);
    for _ in 0..count {
        let image = maker(rng);
        let (quota, names) = reels(rng);
        rewritten(&mut both, &image, quota, &names);
    }
    both.tally
}

#[track_caller]
fn rewritten(both: &mut Both, image: &[u8], quota: u64, names: &[u8]) -> Written {
    both.agreed(
        |out| archive::rewrite(image, quota, names, out),
        |out| rewrite(image, quota, names, out),
        || format!("quota {quota}, names {names:?}, {}", shown(image)),
    )
}

/// A quota and reel names; one in eight is illegal.
fn reels(rng: &mut Rng) -> (u64, Vec<u8>) {
    let few = rng.between(1, 20) as u64;
    let mut quota = rng.pick(&[1, few, few, 999_999]);
    let count = rng.pick(&[1, 4, 16, 16]);
    let mut names = names(rng, count);
    match rng.below(48) {
        0 => quota = 0,
        1 => quota = rng.pick(&[1_000_000, u64::MAX]),
        2 => names = oracle::generate::names(rng, 17),
        3 => names.clear(),
        4 => drop(names.pop()),
        5 => names.extend_from_within(..6),
        _ => {}
    }
    (quota, names)
}

/// What became of sets and their disguises.
pub struct Disguised {
    pub tally: Tally,
    /// Disguises that differed from their set.
    pub different: u64,
    /// Sets that were rewritten, and whose disguise had other dates in a later section.
    pub redated: u64,
}

impl fmt::Display for Disguised {
    fn fmt(&self, f: &mut fmt::Formatter) -> fmt::Result {
        let Disguised { tally, different, redated } = self;
        write!(f, "{tally}; {different} pairs of different images, ")?;
        write!(f, "{redated} of them rewritten from other dates in later sections")
    }
}

/// Whole sets and disguises of them, each in another way of the same meaning: the normal form is one, and
/// it is its own normal form.
pub fn compare_disguised(seed: u64, count: u64) -> Disguised {
    let rng = &mut Rng::new(seed);
    let mut both = Both::new(3_000_000);
    let [mut one, mut other] = [(); 2].map(|()| vec![0; 3_000_000]);
    let (mut different, mut redated) = (0, 0);
    for _ in 0..count {
        let image = whole(rng);
        let disguise = disguised(rng, &image);
        assert_eq!(meaning(&image), meaning(&disguise), "{}", shown(&image));
        different += u64::from(image != disguise);
        let (quota, names) = reels(rng);
        let written = rewritten(&mut both, &image, quota, &names);
        assert_eq!(written, rewritten(&mut both, &disguise, quota, &names));
        if !written.answer.is_done() {
            continue;
        }
        redated += u64::from(differ(&image, &disguise));
        archive::rewrite(&image, quota, &names, &mut one);
        archive::rewrite(&disguise, quota, &names, &mut other);
        assert!(one[..written.len] == other[..written.len], "one normal form: {}", shown(&image));
        let again = archive::rewrite(&one[..written.len], quota, &names, &mut other);
        assert_eq!(again, written);
        assert!(one[..written.len] == other[..written.len], "its own: {}", shown(&image));
    }
    Disguised { tally: both.tally, different, redated }
}

/// A set of about so many bytes, whole, on the reels that it needs and on one less.
pub fn large_sets(kind: Large, size: usize) -> Tally {
    let rng = &mut Rng::new(1);
    let mut both = Both::new(size + size / 4);
    let image = large(kind, size);
    let names = names(rng, 16);
    for quota in [999_999, 100_000, 5_000, 100, 1] {
        for reels in [1, 2, 15, 16] {
            rewritten(&mut both, &image, quota, &names[..6 * reels]);
        }
    }
    both.tally
}

/// An accepted set with another look: other reel names, owners and free fields, other dates of later sections,
/// other offset bytes, more or less padding, no optional labels.
fn disguised(rng: &mut Rng, image: &[u8]) -> Vec<u8> {
    let bare = rng.one_in(2);
    let mut pieces = Vec::new();
    let mut shape = None;
    let mut data = false;
    let (mut at, mut reel) = (HEAD.len(), rng.below(1_000));
    while let Some(item) = image.get(at..).and_then(item_in) {
        at += item.len();
        match item {
            Item::Block(block) if data => pieces.push(Piece::Block(padded(rng, shape, block))),
            Item::Block(block) => {
                let label: &Label = block.try_into().expect("a label");
                let kind = kind_of(label).expect("a kind");
                if kind == Kind::Header(2) {
                    shape = Some(Shape::of(label));
                }
                reel += usize::from(kind == Kind::Volume(1));
                pieces.extend(dressed(rng, label, kind, reel, bare).map(Piece::Label));
            }
            Item::TapeMark => {
                data = !data && is_behind_headers(&pieces);
                pieces.push(Piece::TapeMark);
            }
            Item::EndOfReel => pieces.push(Piece::EndOfReel),
        }
    }
    redate(rng, &mut pieces);
    image_of(&pieces)
}

fn is_behind_headers(pieces: &[Piece]) -> bool {
    let Some(Piece::Label(label)) = pieces.last() else { return false };
    matches!(kind_of(label), Some(Kind::Header(_) | Kind::UserHeader))
}

/// The label with another content where that has no meaning; none where it has no meaning at all.
fn dressed(rng: &mut Rng, label: &Label, kind: Kind, reel: usize, bare: bool) -> Option<Label> {
    let mut label = *label;
    match kind {
        Kind::Volume(1) => {
            VOLUME_ID.put(&mut label, format!("D{reel:05}").as_bytes());
            for field in [Field { bp: 25, width: 13 }, Field { bp: 38, width: 14 }] {
                let mut bytes = vec![b' '; field.width];
                rng.fill(&mut bytes, Rng::a_character);
                field.put(&mut label, &bytes);
            }
        }
        Kind::Header(1) | Kind::Trailer(_, 1) => {
            let mut bytes = [b' '; 13];
            rng.fill(&mut bytes, Rng::a_character);
            IMPLEMENTATION.put(&mut label, &bytes);
        }
        Kind::Header(2) | Kind::Trailer(_, 2) => {
            let mut bytes = [b' '; 35];
            rng.fill(&mut bytes, Rng::byte);
            FREE.put(&mut label, &bytes);
        }
        _ if bare => return None,
        _ => {}
    }
    Some(label)
}

/// The data block with other offset bytes and other padding.
fn padded(rng: &mut Rng, shape: Option<Shape>, block: &[u8]) -> Vec<u8> {
    let shape = shape.expect("a file has begun");
    let mut end = 0;
    oracle::block::cut(&shape, block, |unit| end = unit.start + unit.len);
    let mut block = block[..end].to_vec();
    rng.fill(&mut block[..shape.offset], Rng::byte);
    let room = shape.block - block.len();
    let padding = rng.pick(&[0, 0, 1, 7]).min(room);
    block.resize(block.len() + padding, PAD);
    block
}
