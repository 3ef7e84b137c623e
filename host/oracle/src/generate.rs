//! Makes sets, order sheets and tape files from a seed, whole and damaged, small for tests and large for
//! benchmarks.

mod damage;
mod dates;
mod file;
mod order;
mod simh;
mod whole;

pub use damage::damaged;
pub use dates::redate;
pub use order::{illegal_order, large, large_order, legal_order, many_files, names, Large};
pub use simh::{any_pieces, damaged_simh, whole_simh, Damage, Simh};
pub use whole::{set_with_all_labels, whole, whole_pieces};

use crate::label::Label;
use crate::tape::{END_OF_REEL, HEAD, TAPE_MARK};

/// The splitmix64 sequence: small, and the same on every machine.
#[derive(Clone)]
pub struct Rng(u64);

impl Rng {
    pub fn new(seed: u64) -> Rng {
        Rng(seed)
    }

    pub fn number(&mut self) -> u64 {
        self.0 = self.0.wrapping_add(0x9E37_79B9_7F4A_7C15);
        let mut z = self.0;
        z = (z ^ (z >> 30)).wrapping_mul(0xBF58_476D_1CE4_E5B9);
        z = (z ^ (z >> 27)).wrapping_mul(0x94D0_49BB_1331_11EB);
        z ^ (z >> 31)
    }

    /// A number under `limit`, which is 1 or more.
    pub fn below(&mut self, limit: usize) -> usize {
        (self.number() % limit as u64) as usize
    }

    pub fn between(&mut self, low: usize, high: usize) -> usize {
        low + self.below(high - low + 1)
    }

    pub fn one_in(&mut self, n: usize) -> bool {
        self.below(n) == 0
    }

    pub fn pick<T: Copy>(&mut self, choices: &[T]) -> T {
        choices[self.below(choices.len())]
    }

    pub fn byte(&mut self) -> u8 {
        self.number() as u8
    }

    pub fn digit(&mut self) -> u8 {
        b'0' + self.below(10) as u8
    }

    pub fn a_character(&mut self) -> u8 {
        self.pick(br##" !"%&'()*+,-./0123456789:;<=>?ABCDEFGHIJKLMNOPQRSTUVWXYZ_"##)
    }

    pub fn fill(&mut self, bytes: &mut [u8], mut one: impl FnMut(&mut Rng) -> u8) {
        bytes.iter_mut().for_each(|byte| *byte = one(self));
    }
}

/// An item of a set in the making.
#[derive(Clone, Debug, PartialEq, Eq)]
pub enum Piece {
    TapeMark,
    EndOfReel,
    Label(Label),
    Block(Vec<u8>),
}

/// The image of these items.
pub fn image_of(pieces: &[Piece]) -> Vec<u8> {
    let mut image = HEAD.to_vec();
    for piece in pieces {
        match piece {
            Piece::TapeMark => image.extend_from_slice(&TAPE_MARK),
            Piece::EndOfReel => image.extend_from_slice(&END_OF_REEL),
            Piece::Label(label) => put_block(&mut image, label),
            Piece::Block(block) => put_block(&mut image, block),
        }
    }
    image
}

fn put_block(image: &mut Vec<u8>, block: &[u8]) {
    image.extend_from_slice(&(block.len() as u32).to_be_bytes()[1..]);
    image.extend_from_slice(block);
}
