//! Tape files of the SIMH magtape form: archive and oracle on the same files and on the same images, with
//! buffers of every length.

use crate::images::MAKERS;
use crate::twins::Twins;
use crate::writing::{Both, Tally};
use crate::{archive, shown};
use oracle::generate::{any_pieces, damaged_simh, image_of, whole_simh, Damage, Piece, Rng, Simh};
use oracle::tape::MOST_BYTES;
use oracle::{Tapes, Written};
use std::collections::BTreeMap;
use std::fmt;

/// What became of tape files.
pub struct Torn {
    pub tally: Tally,
    /// Files with one kind of damage that were refused with 15.
    pub by: BTreeMap<Damage, u64>,
}

impl fmt::Display for Torn {
    fn fmt(&self, f: &mut fmt::Formatter) -> fmt::Result {
        write!(f, "{}; 15 by one damage:", self.tally)?;
        self.by.iter().try_for_each(|(damage, count)| write!(f, " {damage:?} {count}"))
    }
}

/// So many tape files: whole ones, ones of any words and, most of all, damaged ones.
pub fn compare_files(seed: u64, count: u64) -> Torn {
    let rng = &mut Rng::new(seed);
    let mut both = Both::new(3_000_000);
    let mut by = BTreeMap::new();
    for _ in 0..count {
        let (simh, damages) = match rng.below(8) {
            0..=1 => (whole_simh(rng), Vec::new()),
            2 => (words(rng), Vec::new()),
            _ => damaged_simh(rng),
        };
        let written = from_simh(&mut both, &simh);
        if let ([damage], 15) = (&damages[..], written.answer.number) {
            *by.entry(*damage).or_default() += 1;
        }
    }
    Torn { tally: both.tally, by }
}

/// Files of any words, some of which are blocks; some have no end, or are cut at any byte.
fn words(rng: &mut Rng) -> Simh {
    let (mut tape, mut lengths) = (Vec::new(), Vec::new());
    for _ in 0..rng.below(4) {
        let words = (0..rng.below(9)).map(|_| rng.pick(&[0, 0, 1, 2, 3, 4, 4, 8, u32::MAX]));
        let mut file: Vec<u8> = words.flat_map(u32::to_le_bytes).collect();
        match rng.below(4) {
            0 => file.truncate(rng.below(file.len() + 1)),
            1..=2 => file.extend([0xFF; 4]),
            _ => {}
        }
        lengths.push(file.len() as u64);
        tape.extend(file);
    }
    Simh { tape, lengths }
}

/// The answer on these tape files, the same in buffers of every length but for 10.
#[track_caller]
pub fn from_simh(both: &mut Both, Simh { tape, lengths }: &Simh) -> Written {
    both.agreed(
        |out| archive::from_simh(tape, lengths, out),
        |out| oracle::from_simh(tape, lengths, out),
        || format!("lengths {lengths:?}, {}", shown(tape)),
    )
}

/// A tape file of blocks of this length, up to 50,000, and of one more, whose image has so many bytes more
/// than the most, or less.
pub fn edge(block: usize, more: isize) -> Simh {
    let items = MOST_BYTES.checked_add_signed(more).expect("near the most") - 5 - 3;
    let blocks = (items - 4) / (3 + block);
    let last = items - blocks * (3 + block) - 3;
    let record = |length| Simh::of(&[Piece::Block(vec![b'E'; length])]).tape;
    let tape = [record(block).repeat(blocks), record(last), vec![0xFF; 4]].concat();
    Simh { lengths: vec![tape.len() as u64], tape }
}

/// So many images: half of any items, half of every maker of images.
pub fn compare_images(seed: u64, count: u64) -> Tally {
    let rng = &mut Rng::new(seed);
    let mut back = Back::new(4_000_000);
    for _ in 0..count {
        let image = match rng.one_in(2) {
            true => image_of(&any_pieces(rng)),
            false => rng.pick(&MAKERS).1(rng),
        };
        back.to_simh(&image);
    }
    back.tally
}

/// Archive and oracle, and their buffers of bytes and of lengths.
pub struct Back {
    bytes: Twins,
    lengths: Twins<u64>,
    scratch: Vec<u8>,
    pub tally: Tally,
}

impl Back {
    /// For tape files of up to so many bytes.
    pub fn new(most: usize) -> Back {
        let (bytes, scratch) = (Twins::new(most), vec![0; most]);
        let lengths = Twins::of(50, |at| u64::MAX / (at as u64 + 2));
        Back { bytes, lengths, scratch, tally: Tally::default() }
    }

    /// The answers where bytes or lengths are none, one short, exact and more; the last one.
    #[track_caller]
    pub fn to_simh(&mut self, image: &[u8]) -> Tapes {
        let due = oracle::to_simh(image, &mut self.scratch, &mut [0; 16]);
        assert_ne!(due.answer.number, 10, "the buffer that finds the length has room");
        self.tally.given += 1;
        let rooms = match (due.len, due.files) {
            (0, _) => [(0, 0), (0, 20), (500, 0), (500, 1), (5_000, 16), (5_000, 50)],
            (len, files) => [
                (0, 0),
                (len - 1, files),
                (len, files - 1),
                (len, files),
                (len + 33, files),
                (len + 100_009, 50),
            ],
        };
        rooms.map(|(bytes, lengths)| self.agreed(image, bytes, lengths))[rooms.len() - 1]
    }

    #[track_caller]
    fn agreed(&mut self, image: &[u8], bytes: usize, lengths: usize) -> Tapes {
        let (one, other) = self.bytes.lend(bytes.min(self.scratch.len()));
        let (list, other_list) = self.lengths.lend(lengths);
        let tapes = archive::to_simh(image, one, list);
        let due = oracle::to_simh(image, other, other_list);
        if tapes != due {
            let shown = shown(image);
            panic!("archive {tapes:?}, oracle {due:?}, in {bytes} and {lengths}, on {shown}");
        }
        self.bytes.assert_alike(tapes.len);
        self.lengths.assert_alike(tapes.files);
        *self.tally.numbers.entry(tapes.answer.number).or_default() += 1;
        tapes
    }
}
