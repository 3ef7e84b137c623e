//! Records by number and by walk: archive and oracle on the same sets, with buffers of every length.

use crate::twins::Twins;
use crate::{archive, shown};
use oracle::generate::Rng;
use oracle::{meaning, Answer, File, Found, Walk};
use std::collections::BTreeMap;
use std::fmt;

/// How often each answer came.
#[derive(Default)]
pub struct Tally {
    pub sets: u64,
    pub in_image: u64,
    pub joined: u64,
    pub numbers: BTreeMap<u32, u64>,
}

impl Tally {
    fn count(&mut self, found: Found) {
        match found {
            Found::InImage { .. } => self.in_image += 1,
            Found::Joined { .. } => self.joined += 1,
            Found::Refused(answer) => self.refused(answer.number),
        }
    }

    fn refused(&mut self, number: u32) {
        *self.numbers.entry(number).or_default() += 1;
    }

    /// Each kind of answer came at least so often.
    #[track_caller]
    pub fn assert_complete(&self, numbers: impl IntoIterator<Item = u32>, least: u64) {
        let came = |number| self.numbers.get(&number).is_some_and(|&count| count >= least);
        let all = self.in_image >= least && self.joined >= least;
        assert!(all && numbers.into_iter().all(came), "each answer:\n{self}");
    }
}

impl fmt::Display for Tally {
    fn fmt(&self, f: &mut fmt::Formatter) -> fmt::Result {
        let Tally { sets, in_image, joined, numbers } = self;
        write!(f, "{sets} images; in the image: {in_image}, joined: {joined}")?;
        numbers.iter().try_for_each(|(number, count)| write!(f, ", {number}: {count}"))
    }
}

/// Every record of every file by number, and by walk.
pub fn compare(maker: fn(&mut Rng) -> Vec<u8>, seed: u64, count: u64) -> Tally {
    let rng = &mut Rng::new(seed);
    let mut both = Both { twins: Twins::new(100_100), tally: Tally::default() };
    for _ in 0..count {
        let image = maker(rng);
        both.tally.sets += 1;
        match meaning(&image) {
            Some(meaning) => both.set(&image, &meaning.files),
            None => both.refused(rng, &image),
        }
    }
    both.tally
}

struct Both {
    twins: Twins,
    tally: Tally,
}

const MOST: u64 = u64::MAX;

impl Both {
    fn set(&mut self, image: &[u8], files: &[File]) {
        let behind = files.len() as u64 + 1;
        for file in [0, behind, behind + 1, MOST] {
            for record in [0, 1, MOST] {
                self.missing(image, file, record);
            }
            self.begin(image, file);
        }
        for (number, file) in (1..).zip(files) {
            let behind = file.records.len() as u64 + 1;
            for record in [0, behind, behind + 1, MOST] {
                self.missing(image, number, record);
            }
            for (record, bytes) in (1..).zip(&file.records) {
                self.lengths(bytes, |both, len| both.record(image, number, record, len));
            }
            self.walk(image, number, file);
        }
    }

    fn missing(&mut self, image: &[u8], file: u64, record: u64) {
        for len in [0, 20] {
            let found = self.record(image, file, record, len);
            assert_eq!(found, Err(13), "file {file}, record {record} of {}", shown(image));
        }
    }

    /// A refused set has no records: its own number comes first.
    fn refused(&mut self, rng: &mut Rng, image: &[u8]) {
        for _ in 0..3 {
            let small = rng.below(4) as u64;
            let (file, record) = (rng.pick(&[1, 1, small, MOST]), rng.pick(&[1, 1, small, MOST]));
            let found = self.record(image, file, record, rng.pick(&[0, 7, 300]));
            assert!(matches!(found, Err(1..=9)), "{found:?} of {}", shown(image));
            assert_eq!(self.begin(image, file), None);
        }
    }

    /// The record with buffers of no bytes, one short, exact, and longer. It comes in all or, where it
    /// must be joined, in those that hold it.
    fn lengths(
        &mut self,
        bytes: &[u8],
        mut get: impl FnMut(&mut Both, usize) -> Result<(bool, Vec<u8>), u32>,
    ) {
        for len in [0, bytes.len().saturating_sub(1), bytes.len(), bytes.len() + 9] {
            match get(self, len) {
                Ok((_, found)) => assert!(found == bytes, "the record of the meaning"),
                Err(number) => assert_eq!((number, len < bytes.len()), (10, true), "too short"),
            }
        }
    }

    /// The record that both hand out, and whether it was joined; or the number of the refusal.
    fn record(
        &mut self,
        image: &[u8],
        file: u64,
        record: u64,
        len: usize,
    ) -> Result<(bool, Vec<u8>), u32> {
        let (one, other) = self.twins.lend(len);
        let found = archive::record(image, file, record, one);
        let due = oracle::record(image, file, record, other);
        assert_eq!(found, due, "file {file}, record {record}, {len} bytes, {}", shown(image));
        self.tally.count(found);
        let taken = taken(image, found, one);
        self.twins.assert_alike(answer_of(found));
        taken
    }

    fn begin(&mut self, image: &[u8], file: u64) -> Option<Walk> {
        let (begun, due) = (archive::begin(image, file), oracle::begin(image, file));
        assert_eq!(begun, due, "file {file} of {}", shown(image));
        if let Err(Answer { number, .. }) = begun {
            self.tally.refused(number);
        }
        begun.ok().map(|begun| begun.walk)
    }

    /// The walk hands out the records in order, then 13, and 13 again.
    fn walk(&mut self, image: &[u8], number: u64, file: &File) {
        let mut walk = self.begin(image, number).expect("the file is there");
        let all = file.records.iter().map(|record| record.len() as u64);
        let facts = (file.records.len() as u64, all.sum());
        assert_eq!(archive::count(walk, image), facts, "file {number} of {}", shown(image));
        for bytes in &file.records {
            let mut moved = walk;
            self.lengths(bytes, |both, len| {
                let (found, behind) = both.step(image, walk, len)?;
                moved = behind;
                Ok(found)
            });
            walk = moved;
        }
        assert_eq!(archive::count(walk, image), (0, 0), "behind the last record");
        for len in [0, 0, 50] {
            assert_eq!(self.step(image, walk, len), Err(13), "behind the last record");
        }
    }

    fn step(
        &mut self,
        image: &[u8],
        walk: Walk,
        len: usize,
    ) -> Result<((bool, Vec<u8>), Walk), u32> {
        let (one, other) = self.twins.lend(len);
        let step = archive::step(walk, image, one);
        assert_eq!(step, walk.step(image, other), "{walk:?}, {len} bytes, {}", shown(image));
        let found = match step {
            Ok((found, _)) => found,
            Err(number) => Found::Refused(Answer::without_place(number)),
        };
        self.tally.count(found);
        let taken = taken(image, found, one);
        self.twins.assert_alike(answer_of(found));
        step.and_then(|(_, walk)| Ok((taken?, walk)))
    }
}

/// The record, and whether it was joined.
fn taken(image: &[u8], found: Found, join: &[u8]) -> Result<(bool, Vec<u8>), u32> {
    match found {
        Found::InImage { start, len } => Ok((false, image[start..start + len].to_vec())),
        Found::Joined { len } => Ok((true, join[..len].to_vec())),
        Found::Refused(answer) => Err(answer.number),
    }
}

/// The bytes of the buffer that an answer may change.
pub fn answer_of(found: Found) -> usize {
    match found {
        Found::Joined { len } => len,
        _ => 0,
    }
}
