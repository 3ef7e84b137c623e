//! Makes whole sets: everything that the rules allow and that has no meaning, too.

use super::dates::redate;
use super::file::{blocks, facts, shape};
use super::{image_of, Piece, Rng};
use crate::label::{
    End, Field, Label, BLOCK_COUNT, FREE, IMPLEMENTATION, NAME, OFFSET_LENGTH, SECTION,
};
use crate::sheet::{first_label, second_label, trailer_names, volume_label};

/// The image of a set that is accepted.
pub fn whole(rng: &mut Rng) -> Vec<u8> {
    image_of(&whole_pieces(rng))
}

/// The items of a set that is accepted.
pub fn whole_pieces(rng: &mut Rng) -> Vec<Piece> {
    let (files, reels) = match rng.below(200) {
        0 => (64, 3),
        1..=3 => (rng.between(5, 64), 2),
        4..=7 => (rng.between(1, 3), 16),
        8..=20 => (rng.between(1, 6), rng.between(2, 8)),
        _ => (rng.between(1, 3), rng.between(1, 3)),
    };
    set_of(rng, files, reels)
}

/// A set of so many files on up to so many reels, be they too many for a set or not.
pub fn set_of(rng: &mut Rng, files: usize, reels: usize) -> Vec<Piece> {
    let mut set = [b' '; 6];
    let letters = rng.below(7);
    rng.fill(&mut set[..letters], Rng::a_character);
    let volume = rng.below(100_000);
    let optional = if rng.one_in(2) { Optional::Some } else { Optional::None };
    let making = Making { rng, pieces: Vec::new(), set, volume, optional, reels, reel: 0 };
    let mut pieces = making.files(files);
    redate(rng, &mut pieces);
    pieces
}

/// A set of so many files on up to so many reels, with every optional label that a set may have. All sections
/// of a file have the same dates, so that a library without P2 of document 02 can be timed on it too.
pub fn set_with_all_labels(rng: &mut Rng, files: usize, reels: usize) -> Vec<Piece> {
    let (set, optional) = (*b"LABELS", Optional::All);
    let making = Making { rng, pieces: Vec::new(), set, volume: 1, optional, reels, reel: 0 };
    making.files(files)
}

/// Which of the optional labels are made.
enum Optional {
    None,
    Some,
    All,
}

struct Making<'r> {
    rng: &'r mut Rng,
    pieces: Vec<Piece>,
    set: [u8; 6],
    /// Number of the first volume.
    volume: usize,
    optional: Optional,
    /// Most reels, and reels begun.
    reels: usize,
    reel: usize,
}

/// The headers of the section in the making, its number and its blocks so far.
struct Section {
    first: Label,
    second: Label,
    number: usize,
    blocks: usize,
}

impl Making<'_> {
    fn files(mut self, files: usize) -> Vec<Piece> {
        self.begin_reel();
        for sequence in 1..=files {
            self.file(sequence, files);
        }
        self.end_reel();
        self.pieces
    }

    fn mark(&mut self) {
        self.pieces.push(Piece::TapeMark);
    }

    fn label(&mut self, label: Label) {
        self.pieces.push(Piece::Label(label));
    }

    /// Often nothing, else a-characters.
    fn characters(&mut self, label: &mut Label, field: Field) {
        if self.rng.one_in(3) {
            let mut bytes = vec![b' '; field.width];
            self.rng.fill(&mut bytes, Rng::a_character);
            field.put(label, &bytes);
        }
    }

    /// Labels with these three bytes, numbered from `first`, or by any a-characters where it is 0.
    fn optional(&mut self, name: &[u8; 3], first: u8) {
        let most = if first == 0 { 9 } else { usize::from(10 - first) };
        let labels = match self.optional {
            Optional::None => 0,
            Optional::Some if self.rng.one_in(2) => 0,
            Optional::Some if !self.rng.one_in(6) => self.rng.below(3).min(most),
            Optional::Some | Optional::All => most,
        };
        for i in 0..labels {
            let mut label = [b' '; 80];
            if self.rng.one_in(2) {
                self.rng.fill(&mut label, Rng::byte);
            }
            label[..3].copy_from_slice(name);
            label[3] = if first == 0 { self.rng.a_character() } else { b'0' + first + i as u8 };
            self.label(label);
        }
    }

    fn begin_reel(&mut self) {
        let name = format!("V{:05}", (self.volume + self.reel) % 100_000);
        let mut label = volume_label(name.as_bytes());
        self.characters(&mut label, Field { bp: 25, width: 13 });
        self.characters(&mut label, Field { bp: 38, width: 14 });
        self.reel += 1;
        self.label(label);
        self.optional(b"VOL", 2);
        self.optional(b"UVL", 1);
    }

    fn end_reel(&mut self) {
        self.mark();
        self.pieces.push(Piece::EndOfReel);
    }

    fn file(&mut self, sequence: usize, files: usize) {
        let shape = shape(self.rng);
        let facts = facts(self.rng, &shape);
        let blocks = blocks(self.rng, &shape, if files > 6 { 1 } else { 5 });
        let first = first_label(b"HDR1", &facts, &self.set, 1, sequence as u64, 0);
        let mut second = second_label(b"HDR2", &facts);
        OFFSET_LENGTH.put(&mut second, format!("{:02}", shape.offset).as_bytes());
        let mut section = Section { first, second, number: 1, blocks: 0 };
        self.headers(&mut section);
        // A set on 16 reels or more uses them all; its last file sees to that.
        let uses_all = sequence == files && self.reels >= 16;
        for block in blocks {
            self.change_reels(&mut section, if uses_all { 2 } else { 6 });
            self.pieces.push(Piece::Block(block));
            section.blocks += 1;
        }
        self.change_reels(&mut section, if uses_all { 1 } else { 6 });
        self.trailers(End::File, &section);
    }

    /// Goes on to the next reel, or the next but one, so that sections without blocks occur.
    fn change_reels(&mut self, section: &mut Section, one_in: usize) {
        while self.reel < self.reels && self.rng.one_in(one_in) {
            self.trailers(End::Volume, section);
            self.end_reel();
            self.begin_reel();
            section.number += 1;
            section.blocks = 0;
            SECTION.put(&mut section.first, format!("{:04}", section.number).as_bytes());
            self.headers(section);
        }
    }

    fn headers(&mut self, section: &mut Section) {
        self.characters(&mut section.first, IMPLEMENTATION);
        self.free(&mut section.second);
        self.label(section.first);
        self.label(section.second);
        self.optional(b"HDR", 3);
        self.optional(b"UHL", 0);
        self.mark();
    }

    fn trailers(&mut self, end: End, section: &Section) {
        let (one, two) = trailer_names(end);
        let (mut first, mut second) = (section.first, section.second);
        NAME.put(&mut first, one);
        NAME.put(&mut second, two);
        BLOCK_COUNT.put(&mut first, format!("{:06}", section.blocks).as_bytes());
        self.characters(&mut first, IMPLEMENTATION);
        self.free(&mut second);
        self.mark();
        self.label(first);
        self.label(second);
        self.optional(&[one[0], one[1], one[2]], 3);
        self.optional(b"UTL", 0);
        self.mark();
    }

    fn free(&mut self, second: &mut Label) {
        if self.rng.one_in(4) {
            let mut bytes = [0; 35];
            self.rng.fill(&mut bytes, Rng::byte);
            FREE.put(second, &bytes);
        }
    }
}
