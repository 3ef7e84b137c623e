//! Tape files of the SIMH magtape form, images, and how each is put into the other (P1 of document 02).

pub mod from;
pub mod to;

use crate::ledger::*;
use oracle::generate::{image_of, Piece, Simh};
use oracle::tape::MOST_BYTES;

/// Tape files and the image that has the same items: each is put into the other.
pub struct Pair {
    pub what: &'static str,
    pub simh: Simh,
    pub image: Vec<u8>,
}

impl Pair {
    fn of(what: &'static str, items: &[Piece]) -> Pair {
        Pair { what, simh: Simh::of(items), image: image_of(items) }
    }
}

pub fn pairs() -> Vec<Pair> {
    let mut pairs = vec![one_reel(), three_reels()];
    pairs.extend(whole_sets());
    pairs.extend(what_no_set_is());
    pairs.extend(blocks());
    pairs
}

/// Written out by hand: a block of three bytes, one of two, a mark and the end.
fn one_reel() -> Pair {
    let tape = b"\x03\0\0\0ABC\0\x03\0\0\0\x02\0\0\0DE\x02\0\0\0\0\0\0\0\xFF\xFF\xFF\xFF";
    let image = b"TGI\0\x01\0\0\x03ABC\0\0\x02DE\0\0\0\xFF\xFF\xFF";
    let simh = Simh { tape: tape.to_vec(), lengths: vec![30] };
    Pair { what: "one reel", simh, image: image.to_vec() }
}

/// Written out by hand: the second reel has no items but its end.
fn three_reels() -> Pair {
    let tape =
        b"\0\0\0\0\xFF\xFF\xFF\xFF\xFF\xFF\xFF\xFF\x01\0\0\0\xFF\0\x01\0\0\0\xFF\xFF\xFF\xFF";
    let image = b"TGI\0\x01\0\0\0\xFF\xFF\xFF\xFF\xFF\xFF\0\0\x01\xFF\xFF\xFF\xFF";
    let simh = Simh { tape: tape.to_vec(), lengths: vec![8, 4, 14] };
    Pair { what: "three reels", simh, image: image.to_vec() }
}

fn whole_sets() -> [Pair; 3] {
    [
        Pair::of("the set of document 01", &base()),
        Pair::of("a set on two reels", &two_reels()),
        Pair::of("a set on 16 reels", &reels(16, |number| format!("GATE{number:02}"))),
    ]
}

/// Items in good framing, which `check` refuses with 3 to 8.
fn what_no_set_is() -> [Pair; 8] {
    let out_of_turn = set_of("S0002000010", "00", &[b"20005"]);
    [
        Pair::of("an end of reel", &[EndOfReel]),
        Pair::of("16 ends of reels", &vec![EndOfReel; 16]),
        Pair::of("3: no VOL1", &without(base(), 0)),
        Pair::of("4: HDR1 BP 74", &base_with(&[(1, 74, "X")])),
        Pair::of("5: HDR1 BP 54", &base_with(&[(1, 54, "X")])),
        Pair::of("6: a count", &base_with(&[(6, 55, "000002")])),
        Pair::of("7: a block of padding", &set_of(LEDGER, "00", &[b"^^^^"])),
        Pair::of("8: segments out of turn", &out_of_turn),
    ]
}

fn blocks() -> [Pair; 4] {
    let words = [&[0xFF; 4][..], &[0; 4], &[0xFF; 5], &[3, 0, 0, 0]].map(block);
    let lengths = [1, 2, 3, 255, 256, 257, 65_535, 65_536, 99_998, 99_999];
    let every_length: Vec<Piece> = lengths.iter().map(|&length| block(vec![7; length])).collect();
    [
        Pair::of("blocks that are words", &[&words[..], &[EndOfReel]].concat()),
        Pair::of("blocks of every length", &[&every_length[..], &[EndOfReel]].concat()),
        Pair::of("marks alone", &[TapeMark, TapeMark, EndOfReel, TapeMark, EndOfReel]),
        Pair::of("an image of the most bytes", &long(0)),
    ]
}

/// One reel of blocks whose image has the most bytes that an image may have, and so many more.
fn long(more: usize) -> Vec<Piece> {
    let most = block(vec![b'L'; 99_999]);
    let last = MOST_BYTES - (5 + 167 * 100_002 + 3 + 3) + more;
    [&vec![most; 167][..], &[block(vec![b'M'; last]), EndOfReel]].concat()
}
