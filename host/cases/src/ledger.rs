//! The LEDGER set of document 01, written out by hand, and ways to change it.

use oracle::generate::Piece;

pub use Piece::{EndOfReel, TapeMark};

/// The format, B and R of the LEDGER file.
pub const LEDGER: &str = "F0002000010";

/// A label of SPACEs with these fields, each led by its BP.
pub fn label(fields: &[(usize, &str)]) -> Piece {
    let mut label = [b' '; 80];
    for &(bp, text) in fields {
        label[bp - 1..bp - 1 + text.len()].copy_from_slice(text.as_bytes());
    }
    Piece::Label(label)
}

/// A label of which only the name matters.
pub fn optional(name: &str) -> Piece {
    label(&[(1, name)])
}

pub fn block(bytes: impl AsRef<[u8]>) -> Piece {
    Piece::Block(bytes.as_ref().to_vec())
}

pub fn volume(name: &str) -> Piece {
    label(&[(1, "VOL1"), (5, name), (80, "4")])
}

pub fn first(name: &str, section: &str, sequence: &str, count: &str) -> Piece {
    label(&[
        (1, name),
        (5, "LEDGER"),
        (22, "SET001"),
        (28, section),
        (32, sequence),
        (36, "000100 85335 00000"),
        (55, count),
    ])
}

/// `shape` is the format, B and R, such as `F0002000010`.
pub fn second(name: &str, shape: &str, offset: &str) -> Piece {
    label(&[(1, name), (5, shape), (51, offset)])
}

/// How a section ends: the first three bytes of its trailers.
pub const FILE: &str = "EOF";
pub const VOLUME: &str = "EOV";

/// One section: headers, blocks, trailers, and the marks behind each.
pub fn section(
    number: usize,
    sequence: usize,
    (shape, offset): (&str, &str),
    blocks: &[&[u8]],
    end: &str,
) -> Vec<Piece> {
    let (number, sequence) = (format!("{number:04}"), format!("{sequence:04}"));
    let count = format!("{:06}", blocks.len());
    let mut section =
        vec![first("HDR1", &number, &sequence, "000000"), second("HDR2", shape, offset), TapeMark];
    section.extend(blocks.iter().map(block));
    section.extend([
        TapeMark,
        first(&format!("{end}1"), &number, &sequence, &count),
        second(&format!("{end}2"), shape, offset),
        TapeMark,
    ]);
    section
}

/// One reel with these sections.
pub fn reel(name: &str, sections: &[Vec<Piece>]) -> Vec<Piece> {
    [&[volume(name)][..], &sections.concat(), &[TapeMark, EndOfReel]].concat()
}

/// One reel with one file of one section: this many items stand before its blocks.
pub const BLOCKS_FROM: u32 = 4;

pub fn set_of(shape: &str, offset: &str, blocks: &[&[u8]]) -> Vec<Piece> {
    reel("GATE01", &[section(1, 1, (shape, offset), blocks, FILE)])
}

/// The whole set of document 01: items 0 VOL1, 1 HDR1, 2 HDR2, 3 mark, 4 block, 5 mark, 6 EOF1,
/// 7 EOF2, 8 mark, 9 mark, 10 end of reel.
pub fn base() -> Vec<Piece> {
    set_of(LEDGER, "00", &[b"0123456789"])
}

/// The base with a label of each optional kind put in.
pub fn base_with_options() -> Vec<Piece> {
    let mut set = base();
    set.splice(8..8, ["EOF3", "UTL1"].map(optional));
    set.splice(3..3, ["HDR3", "UHL1"].map(optional));
    set.splice(1..1, ["VOL2", "UVL1"].map(optional));
    set
}

/// The base as two reels: the first ends with EOV behind its block, the second has no block.
pub fn two_reels() -> Vec<Piece> {
    let shape = (LEDGER, "00");
    [
        reel("GATE01", &[section(1, 1, shape, &[b"0123456789"], VOLUME)]),
        reel("GATE02", &[section(2, 1, shape, &[], FILE)]),
    ]
    .concat()
}

/// A file without blocks over `count` reels; `name` gives the name of each.
pub fn reels(count: usize, name: impl Fn(usize) -> String) -> Vec<Piece> {
    let one = |number| {
        let end = if number == count { FILE } else { VOLUME };
        reel(&name(number), &[section(number, 1, (LEDGER, "00"), &[], end)])
    };
    (1..=count).flat_map(one).collect()
}

/// So many files on one reel, all without blocks.
pub fn files(count: usize) -> Vec<Piece> {
    let one = |sequence| section(1, sequence, (LEDGER, "00"), &[], FILE);
    reel("GATE01", &(1..=count).map(one).collect::<Vec<_>>())
}

/// The set with this text put into the label that is this item.
pub fn changed(mut set: Vec<Piece>, item: usize, bp: usize, text: &str) -> Vec<Piece> {
    match &mut set[item] {
        Piece::Label(label) => label[bp - 1..bp - 1 + text.len()].copy_from_slice(text.as_bytes()),
        other => panic!("item {item} is no label but {other:?}"),
    }
    set
}

/// The set with these changes, each an item, a BP and a text.
pub fn with(set: Vec<Piece>, changes: &[(usize, usize, &str)]) -> Vec<Piece> {
    changes.iter().fold(set, |set, &(item, bp, text)| changed(set, item, bp, text))
}

/// The base with these changes.
pub fn base_with(changes: &[(usize, usize, &str)]) -> Vec<Piece> {
    with(base(), changes)
}

/// The set with these items put in before item `at`.
pub fn plus(mut set: Vec<Piece>, at: usize, items: &[Piece]) -> Vec<Piece> {
    set.splice(at..at, items.iter().cloned());
    set
}

/// The base with these optional labels put in before item `at`.
pub fn base_plus(at: usize, names: &[&str]) -> Vec<Piece> {
    let labels: Vec<Piece> = names.iter().map(|name| optional(name)).collect();
    plus(base(), at, &labels)
}

/// The set with this item in place of another.
pub fn replaced(mut set: Vec<Piece>, item: usize, by: Piece) -> Vec<Piece> {
    set[item] = by;
    set
}

/// The set with the label that is this item as a block of another length.
pub fn resized(mut set: Vec<Piece>, item: usize, length: usize) -> Vec<Piece> {
    if let Piece::Label(label) = &set[item] {
        let mut bytes = label.to_vec();
        bytes.resize(length, b' ');
        set[item] = Piece::Block(bytes);
    }
    set
}

/// The first items of the set.
pub fn cut(mut set: Vec<Piece>, items: usize) -> Vec<Piece> {
    set.truncate(items);
    set
}

/// The set without this item.
pub fn without(mut set: Vec<Piece>, item: usize) -> Vec<Piece> {
    set.remove(item);
    set
}
