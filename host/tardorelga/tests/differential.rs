//! The archive and the oracle give the same answers, place and all, on sets and on bytes that are
//! no sets, from fixed seeds.

use trials::{compare, images};

/// Every number and every place of 4, 5 and 6 is among the answers; so are sections with other dates.
#[test]
fn generated_sets() {
    let tally = compare(images::generated, 1, 100_000);
    println!("generated sets: {tally}");
    tally.assert_complete(100);
}

#[test]
fn raw_bytes() {
    println!("raw bytes: {}", compare(images::raw, 2, 100_000));
}

#[test]
fn truncations() {
    let tally = compare(images::truncated, 3, 20_000);
    println!("truncations: {tally}");
    tally.assert_dates(1);
}

#[test]
fn concatenations() {
    let tally = compare(images::concatenated, 4, 20_000);
    println!("concatenations: {tally}");
    tally.assert_dates(1);
}

#[test]
fn mutations() {
    let tally = compare(images::mutated, 5, 20_000);
    println!("mutations: {tally}");
    tally.assert_dates(1);
}
