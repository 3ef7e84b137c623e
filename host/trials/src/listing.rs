//! Listings: archive and oracle on the same images.

use crate::writing::{Both, Tally};
use crate::{archive, shown};
use oracle::generate::Rng;
use oracle::{Answer, Written};

/// The listings of so many images, with buffers of every length.
pub fn compare(maker: fn(&mut Rng) -> Vec<u8>, seed: u64, count: u64) -> Tally {
    let rng = &mut Rng::new(seed);
    let mut both = Both::new(10_000);
    for _ in 0..count {
        let image = maker(rng);
        let text = oracle::listing(&image);
        let put = |out: &mut [u8]| match out.get_mut(..text.len()) {
            Some(front) => {
                front.copy_from_slice(&text);
                Written { answer: Answer::DONE, len: text.len() }
            }
            None => Written { answer: Answer::without_place(10), len: 0 },
        };
        both.agreed(|out| archive::listing(&image, out), put, || shown(&image).to_string());
    }
    both.tally
}
