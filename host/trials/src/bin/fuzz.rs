//! `fuzz SECONDS SEED`: archive and oracle on raw bytes, truncations, concatenations and mutations
//! for so long; prints how many, and fails at the first image on which they differ.

use cases::tally::Tally;
use oracle::generate::Rng;
use std::process::ExitCode;
use std::time::{Duration, Instant};
use trials::{agreed, images::MAKERS};

/// Images between two looks at the clock.
const ROUND: u32 = 1_000;

fn main() -> ExitCode {
    let arguments: Vec<_> = std::env::args().skip(1).map(|word| word.parse().ok()).collect();
    let [Some(seconds), Some(seed)] = arguments[..] else {
        eprintln!("usage: fuzz SECONDS SEED");
        return ExitCode::from(2);
    };
    fuzz(Duration::from_secs(seconds), seed);
    ExitCode::SUCCESS
}

fn fuzz(time: Duration, seed: u64) {
    let (start, rng) = (Instant::now(), &mut Rng::new(seed));
    let mut tallies = MAKERS.map(|_| Tally::default());
    let mut bytes = 0;
    while start.elapsed() < time {
        for ((_, make), tally) in MAKERS.iter().zip(&mut tallies) {
            for _ in 0..ROUND {
                let image = make(rng);
                bytes += image.len();
                tally.count(&image, agreed(&image));
            }
        }
    }
    for ((name, _), tally) in MAKERS.iter().zip(&tallies) {
        println!("{name}: {tally}");
    }
    let images: u64 = tallies.iter().map(Tally::total).sum();
    let seconds = start.elapsed().as_secs();
    println!("{images} images of {bytes} bytes in {seconds} seconds, seed {seed}: no difference");
}
