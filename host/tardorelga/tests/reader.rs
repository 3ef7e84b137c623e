//! The records program, fed on standard input: what its reader hands out is what the oracle says that the records are.

mod program;

use cases::ledger::{base, base_with, files, reel, section, FILE, LEDGER};
use oracle::generate::{image_of, whole, Rng};
use oracle::listing::MOST_INPUT;
use oracle::{listing_of_input, meaning, record, Found, Meaning};
use program::{of_length, written, TOO_LONG};
use std::fs;
use std::path::Path;
use trials::images;

/// The records of a set, each on a line.
fn lines(set: &Meaning) -> Vec<u8> {
    let records = set.files.iter().flat_map(|file| &file.records);
    records.flat_map(|record| [record, &b"\n"[..]].concat()).collect()
}

/// What the oracle says that the program writes; of a refused input it is the line that the listing is.
fn expected(input: &[u8]) -> Vec<u8> {
    match meaning(input) {
        Some(set) if input.len() <= MOST_INPUT => lines(&set),
        _ => listing_of_input(input),
    }
}

#[track_caller]
fn agrees(input: &[u8]) {
    assert_eq!(written("records", input), expected(input));
}

#[track_caller]
fn writes(input: &[u8], lines: &[&str]) {
    let text: String = lines.iter().map(|line| format!("{line}\n")).collect();
    assert_eq!(String::from_utf8(written("records", input)).expect("text"), text);
}

fn sample(name: &str) -> Vec<u8> {
    let path = Path::new(env!("CARGO_MANIFEST_DIR")).join("../../samples").join(name);
    fs::read(&path).unwrap_or_else(|trouble| panic!("{}: {trouble}", path.display()))
}

#[test]
fn the_set_of_document_01() {
    writes(&image_of(&base()), &["0123456789"]);
    writes(&image_of(&base_with(&[(6, 55, "000002")])), &["refused 6 at item 6 byte 55"]);
}

/// The second message stands in segments on three reels, the third is empty; the last two are of another file.
#[test]
fn records_joined_over_reels() {
    let first = ["LINE OPEN", "FLOOD AT THE LOWER GATE, SEND HELP", "", "LINE CLOSED"];
    let second = ["NIGHT SHIFT", "DONE"];
    writes(&sample("messages.tgi"), &[&first[..], &second].concat());
}

#[test]
fn samples() {
    for name in ["ledger", "messages", "new-year", "options"] {
        agrees(&sample(&format!("{name}.tgi")));
    }
    for number in 1..=9 {
        let image = sample(&format!("refused-{number}.tgi"));
        agrees(&image);
        assert!(written("records", &image).starts_with(format!("refused {number} ").as_bytes()));
    }
}

#[test]
fn inputs_that_are_no_sets() {
    writes(b"", &["refused 1 at item 0 byte 0"]);
    writes(&[0; 60_000], &["refused 1 at item 0 byte 0"]);
    writes(&[0; 60_001], &[TOO_LONG]);
    writes(&vec![0; 20_000_000], &[TOO_LONG]);
}

#[test]
fn inputs_of_the_most_bytes() {
    writes(&of_length(60_000), &[&"A".repeat(59_562)]);
    writes(&of_length(60_001), &[TOO_LONG]);
    writes(&of_length(90_000), &[TOO_LONG]);
}

#[test]
fn many_files() {
    let one = |sequence| section(1, sequence, (LEDGER, "00"), &[b"0123456789"], FILE);
    let full = reel("GATE01", &(1..=64).map(one).collect::<Vec<_>>());
    writes(&image_of(&full), &["0123456789"; 64]);
    writes(&image_of(&files(64)), &[]);
    writes(&image_of(&files(65)), &["refused 9 at item 449 byte 0"]);
}

#[test]
fn generated_inputs() {
    let rng = &mut Rng::new(62);
    for (_, make) in images::MAKERS {
        for _ in 0..40 {
            agrees(&make(rng));
        }
    }
}

/// Whether a record of the set stands in several blocks, so that it is joined.
fn joins(image: &[u8]) -> bool {
    let set = meaning(image).expect("it is accepted");
    let mut join = vec![0; image.len()];
    (1..).zip(&set.files).any(|(number, file)| {
        let mut found =
            (1..=file.records.len() as u64).map(|r| record(image, number, r, &mut join));
        found.any(|found| matches!(found, Found::Joined { .. }))
    })
}

/// Sets that are whole: in many of them records are joined.
#[test]
fn generated_sets() {
    let rng = &mut Rng::new(63);
    let sets: Vec<Vec<u8>> = (0..300).map(|_| whole(rng)).collect();
    sets.iter().for_each(|set| agrees(set));
    let joined = sets.iter().filter(|set| set.len() <= MOST_INPUT && joins(set)).count();
    println!("sets with joined records: {joined} of {}", sets.len());
    assert!(joined >= 50);
}
