//! Makes tape files of the SIMH magtape form (P1 of document 02): whole ones, of sets and of any items, and
//! ones that are damaged in every way.

mod damage;

pub use damage::{damaged_simh, Damage};

use super::whole::whole_pieces;
use super::{Piece, Rng};
use std::ops::Range;

/// Tape files end to end, and the lengths that are handed in with them.
#[derive(Clone, Debug, Default, PartialEq, Eq)]
pub struct Simh {
    pub tape: Vec<u8>,
    pub lengths: Vec<u64>,
}

impl Simh {
    /// The tape files of these items, a file for each end of reel.
    pub fn of(pieces: &[Piece]) -> Simh {
        joined(&files_of(pieces))
    }

    /// Where this file stands; none where the lengths don't say.
    fn place(&self, file: usize) -> Option<Range<usize>> {
        let add = |sum: u64, &length: &u64| sum.checked_add(length);
        let start = self.lengths.get(..file)?.iter().try_fold(0, add)?;
        let end = start.checked_add(*self.lengths.get(file)?)?;
        (end <= self.tape.len() as u64).then_some(start as usize..end as usize)
    }
}

/// An item as a tape file has it, part by part: a mark and an end have a leading word alone.
#[derive(Clone)]
struct Record {
    leading: u32,
    block: Vec<u8>,
    pad: Vec<u8>,
    trailing: Option<u32>,
}

impl Record {
    fn word(word: u32) -> Record {
        Record { leading: word, block: Vec::new(), pad: Vec::new(), trailing: None }
    }

    fn block(block: &[u8]) -> Record {
        let length = block.len() as u32;
        let pad = vec![0; block.len() % 2];
        Record { leading: length, block: block.to_vec(), pad, trailing: Some(length) }
    }

    fn of(piece: &Piece) -> Record {
        match piece {
            Piece::TapeMark => Record::word(0),
            Piece::EndOfReel => Record::word(u32::MAX),
            Piece::Label(label) => Record::block(label),
            Piece::Block(block) => Record::block(block),
        }
    }

    fn put(&self, tape: &mut Vec<u8>) {
        tape.extend(self.leading.to_le_bytes());
        tape.extend(&self.block);
        tape.extend(&self.pad);
        tape.extend(self.trailing.iter().flat_map(|word| word.to_le_bytes()));
    }
}

type Files = Vec<Vec<Record>>;

fn files_of(pieces: &[Piece]) -> Files {
    let reels = pieces.split_inclusive(|piece| *piece == Piece::EndOfReel);
    reels.map(|reel| reel.iter().map(Record::of).collect()).collect()
}

fn joined(files: &Files) -> Simh {
    let mut simh = Simh::default();
    for file in files {
        let start = simh.tape.len();
        file.iter().for_each(|record| record.put(&mut simh.tape));
        simh.lengths.push((simh.tape.len() - start) as u64);
    }
    simh
}

/// Tape files that are good, of a set or of any items; some are none, or more than a set may have.
pub fn whole_simh(rng: &mut Rng) -> Simh {
    joined(&whole_files(rng))
}

fn whole_files(rng: &mut Rng) -> Files {
    files_of(&if rng.one_in(3) { whole_pieces(rng) } else { any_pieces(rng) })
}

/// Any items, in reels that end; some are no reel, or more than a set may have.
pub fn any_pieces(rng: &mut Rng) -> Vec<Piece> {
    let reels = match rng.below(30) {
        0 => 0,
        1 => 16,
        2 => rng.between(17, 20),
        3..=5 => rng.between(5, 15),
        _ => rng.between(1, 4),
    };
    let mut pieces = Vec::new();
    for _ in 0..reels {
        let items = rng.below(7);
        pieces.extend((0..items).map(|_| any_piece(rng)));
        pieces.push(Piece::EndOfReel);
    }
    pieces
}

fn any_piece(rng: &mut Rng) -> Piece {
    let len = match rng.below(100) {
        0..=29 => return Piece::TapeMark,
        30 => rng.pick(&[99_998, 99_999]),
        31..=32 => rng.between(1, 5_000),
        33..=66 => rng.between(1, 3),
        _ => rng.between(1, 40),
    };
    let byte = rng.byte();
    let mut block = vec![byte; len];
    // Bytes that could be those of words, or any.
    match rng.below(3) {
        0 if len <= 40 => rng.fill(&mut block, |rng| rng.pick(&[0, 0, 1, 3, 0xFE, 0xFF, 0xFF])),
        1 if len <= 40 => rng.fill(&mut block, Rng::byte),
        _ => {}
    }
    Piece::Block(block)
}
