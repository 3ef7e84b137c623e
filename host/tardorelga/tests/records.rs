//! Records by number and by walk: the archive and the oracle hand out the same parts and leave the
//! same buffers, from fixed seeds.

use cases::walks;
use trials::{archive, images, records, states};

/// Every record of every file, with joining buffers of no bytes, one short, exact and longer; files and
/// records that are not there; and the walk over each file, to 13 and once more.
#[test]
fn every_record_of_generated_sets() {
    let tally = records::compare(images::generated, 6, 4_000);
    println!("records: {tally}");
    tally.assert_complete((1..=10).chain([13]), 20);
}

/// Sets that are whole but for what has no meaning.
#[test]
fn every_record_of_whole_sets() {
    let tally = records::compare(oracle::generate::whole, 7, 2_000);
    println!("records: {tally}");
    tally.assert_complete([10, 13], 1_000);
}

/// States of a walk that are real, nearly real, random and extreme, in whole, damaged and random
/// images: no step traps, and each is the oracle's.
#[test]
fn steps_from_any_state() {
    let tally = states::compare(8, 10_000_000);
    println!("steps: {tally}");
    tally.assert_complete(50_000);
}

#[test]
fn steps_with_known_answers() {
    walks::run(archive::step);
}
