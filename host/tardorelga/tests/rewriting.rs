//! Rewriting: the archive and the oracle give the same number and the same image, from fixed seeds.

use cases::rewriting;
use oracle::generate::{whole, Large};
use trials::rewriting::{compare, compare_disguised, large_sets};
use trials::{archive, images};

#[test]
fn images_with_known_answers() {
    rewriting::run(archive::rewrite);
}

#[test]
fn generated_sets() {
    let tally = compare(images::generated, 51, 10_000);
    println!("rewritten: {tally}");
    assert!((0..=12).all(|number| tally.of(number) > 50), "{tally}");
}

#[test]
fn whole_sets() {
    let tally = compare(whole, 52, 5_000);
    println!("rewritten: {tally}");
    assert!([0, 9, 10, 11, 12].iter().all(|&number| tally.of(number) > 100), "{tally}");
}

/// Two images of one meaning have one normal form, which is its own.
#[test]
fn images_of_one_meaning() {
    let disguised = compare_disguised(53, 3_000);
    println!("of one meaning: {disguised}");
    assert!(disguised.different > 2_900 && disguised.tally.of(0) > 3_000, "{disguised}");
    assert!(disguised.redated > 500, "{disguised}");
}

#[test]
fn large_images() {
    for kind in Large::ALL {
        println!("{kind:?}: {}", large_sets(kind, 2_000_000));
    }
}
