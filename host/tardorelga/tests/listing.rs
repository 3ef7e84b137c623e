//! The listing: the archive and the oracle give the same, from fixed seeds.

use cases::ledger::{base, files};
use oracle::generate::image_of;
use trials::{archive, images, listing};

#[test]
fn listings_of_generated_sets() {
    let tally = listing::compare(images::generated, 41, 20_000);
    println!("listings: {tally}");
    assert!(tally.of(0) > 10_000 && tally.of(10) > 10_000, "{tally}");
}

#[test]
fn listings_of_other_bytes() {
    println!("listings of raw bytes: {}", listing::compare(images::raw, 42, 10_000));
    println!("listings of mutations: {}", listing::compare(images::mutated, 43, 10_000));
}

/// The listing of 64 files is the longest that has few digits.
#[test]
fn known_listings() {
    let mut text = vec![0; 5_000];
    let mut lines = |image: &[u8]| {
        let written = archive::listing(image, &mut text);
        assert!(written.answer.is_done());
        String::from_utf8(text[..written.len].to_vec()).expect("text")
    };
    let heading = "SEQ FILE              FMT RECORDS BYTES\n";
    let ledger = format!("{heading}0001 LEDGER            F 1 10\n");
    assert_eq!(lines(&image_of(&base())), ledger);
    let many: String = (1..=64).map(|n| format!("{n:04} LEDGER            F 0 0\n")).collect();
    assert_eq!(lines(&image_of(&files(64))), format!("{heading}{many}"));
    assert_eq!(lines(b""), "refused 1 at item 0 byte 0\n");
    assert_eq!(lines(&image_of(&files(65))), "refused 9 at item 449 byte 0\n");
}
