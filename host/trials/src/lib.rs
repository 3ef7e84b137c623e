//! The proved archive and the oracle on the same images: they must agree on each.

pub mod archive;
pub mod beside;
pub mod images;
pub mod listing;
pub mod records;
pub mod rewriting;
pub mod simh;
pub mod states;
pub mod twins;
pub mod writing;

use cases::tally::Tally;
use oracle::generate::Rng;
use oracle::Answer;

/// The answer of both; where they differ, the image is shown in hexadecimal.
#[track_caller]
pub fn agreed(image: &[u8]) -> Answer {
    let (archive, oracle) = (archive::check(image), oracle::check(image));
    assert_eq!(archive, oracle, "archive and oracle on {}", shown(image));
    archive
}

/// The image in hexadecimal.
pub fn shown(image: &[u8]) -> Hex<'_> {
    Hex(image)
}

pub struct Hex<'a>(&'a [u8]);

impl std::fmt::Display for Hex<'_> {
    fn fmt(&self, f: &mut std::fmt::Formatter) -> std::fmt::Result {
        self.0.iter().try_for_each(|byte| write!(f, "{byte:02X}"))
    }
}

/// The answers on so many images of a maker, all agreed on.
#[track_caller]
pub fn compare(maker: fn(&mut Rng) -> Vec<u8>, seed: u64, count: u64) -> Tally {
    let rng = &mut Rng::new(seed);
    let mut tally = Tally::default();
    for _ in 0..count {
        let image = maker(rng);
        tally.count(&image, agreed(&image));
    }
    tally
}
