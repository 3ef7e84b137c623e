//! The listing program, fed on standard input: what it writes is what the oracle lists.

mod program;

use cases::ledger::{base, base_with, files};
use oracle::generate::{image_of, Rng};
use oracle::listing_of_input;
use program::{of_length, written, TOO_LONG};
use trials::images;

#[track_caller]
fn listed(input: &[u8]) -> String {
    String::from_utf8(written("list", input)).expect("text")
}

#[track_caller]
fn lists(input: &[u8], lines: &[&str]) {
    let text: String = lines.iter().map(|line| format!("{line}\n")).collect();
    assert_eq!(listed(input), text);
}

const HEADING: &str = "SEQ FILE              FMT RECORDS BYTES";

#[test]
fn the_set_of_document_01() {
    lists(&image_of(&base()), &[HEADING, "0001 LEDGER            F 1 10"]);
    let miscounted = image_of(&base_with(&[(6, 55, "000002")]));
    lists(&miscounted, &["refused 6 at item 6 byte 55"]);
}

#[test]
fn inputs_that_are_no_sets() {
    lists(b"", &["refused 1 at item 0 byte 0"]);
    lists(&[0; 60_000], &["refused 1 at item 0 byte 0"]);
    lists(&[0; 60_001], &[TOO_LONG]);
    lists(&vec![0; 20_000_000], &[TOO_LONG]);
}

#[test]
fn inputs_of_the_most_bytes() {
    lists(&of_length(59_999), &[HEADING, "0001 LEDGER            F 1 59561"]);
    lists(&of_length(60_000), &[HEADING, "0001 LEDGER            F 1 59562"]);
    lists(&of_length(60_001), &[TOO_LONG]);
    lists(&of_length(90_000), &[TOO_LONG]);
}

#[test]
fn many_files() {
    let lines: Vec<String> = (1..=64).map(|n| format!("{n:04} LEDGER            F 0 0")).collect();
    let lines: Vec<&str> = [HEADING].into_iter().chain(lines.iter().map(String::as_str)).collect();
    lists(&image_of(&files(64)), &lines);
    lists(&image_of(&files(65)), &["refused 9 at item 449 byte 0"]);
}

#[test]
fn generated_inputs() {
    let rng = &mut Rng::new(61);
    for (_, make) in images::MAKERS {
        for _ in 0..40 {
            let input = make(rng);
            assert_eq!(listed(&input).as_bytes(), listing_of_input(&input));
        }
    }
}
