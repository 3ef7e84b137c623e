//! Rewriting: images whose normal forms and refusals are known from the papers.

use crate::ledger::*;
use crate::writing::{data_blocks, order};
use oracle::generate::{image_of, names, Piece, Rng};
use oracle::tape::{HEAD, MOST_BYTES};
use oracle::{check, Answer, Written};

/// A rewriter: image, quota, names, output.
pub trait Rewrite: Fn(&[u8], u64, &[u8], &mut [u8]) -> Written {}

impl<F: Fn(&[u8], u64, &[u8], &mut [u8]) -> Written> Rewrite for F {}

/// Holds the rewriter to every case.
pub fn run(rewrite: impl Rewrite) {
    the_set_of_document_01(&rewrite);
    reading_numbers_come_first(&rewrite);
    illegal_reels(&rewrite);
    what_has_no_meaning(&rewrite);
    dates_of_section_0001(&rewrite);
    the_longest_record(&rewrite);
    a_normal_form_over_the_limit(&rewrite);
}

/// The normal form, made in a buffer that just holds it.
#[track_caller]
fn normal(rewrite: &impl Rewrite, image: &[u8], quota: u64, names: &[u8]) -> Vec<u8> {
    let mut out = vec![0xEE; 1_000_000];
    let written = rewrite(image, quota, names, &mut out);
    assert_eq!(written.answer, Answer::DONE);
    assert!(out[written.len..].iter().all(|&byte| byte == 0xEE), "bytes behind the image stay");
    let mut exact = vec![0xEE; written.len];
    assert_eq!(rewrite(image, quota, names, &mut exact), written, "a buffer that just holds it");
    assert!(exact == out[..written.len]);
    exact
}

#[track_caller]
fn refused(rewrite: &impl Rewrite, image: &[u8], quota: u64, names: &[u8], room: usize) -> Answer {
    let mut out = vec![0xEE; room];
    let written = rewrite(image, quota, names, &mut out);
    assert_eq!(written.len, 0);
    assert!(out.iter().all(|&byte| byte == 0xEE), "a refusal changes no byte");
    written.answer
}

fn number(number: u32) -> Answer {
    Answer::new(number, 0, 0)
}

fn the_set_of_document_01(rewrite: &impl Rewrite) {
    let image = image_of(&base());
    assert_eq!(normal(rewrite, &image, 1, b"GATE01"), image, "it is its own normal form");
    assert_eq!(normal(rewrite, &image_of(&base_with_options()), 1, b"GATE01"), image);
    assert_eq!(refused(rewrite, &image, 1, b"GATE01", 447), number(10), "one byte too short");
    let other = changed(base(), 0, 5, "OTHER_");
    assert_eq!(normal(rewrite, &image, 9, b"OTHER_"), image_of(&other), "on another reel");
    let two = image_of(&two_reels());
    assert_eq!(normal(rewrite, &two, 1, b"GATE01"), image, "an empty section is left out");
}

fn reading_numbers_come_first(rewrite: &impl Rewrite) {
    let miscounted = image_of(&base_with(&[(6, 55, "000002")]));
    assert_eq!(refused(rewrite, &miscounted, 0, b"", 0), Answer::new(6, 6, 55));
    let seventeen = names(&mut Rng::new(1), 17);
    assert_eq!(refused(rewrite, &miscounted, 0, &seventeen, 0), Answer::new(6, 6, 55));
    assert_eq!(refused(rewrite, b"", 1, b"GATE01", 9), number(1));
    assert_eq!(refused(rewrite, &vec![0; MOST_BYTES + 1], 1, b"GATE01", 9), number(9));
}

fn illegal_reels(rewrite: &impl Rewrite) {
    let image = image_of(&base());
    let of = |quota, names: &[u8]| refused(rewrite, &image, quota, names, 500).number;
    assert_eq!((of(0, b"GATE01"), of(1_000_000, b"GATE01"), of(u64::MAX, b"GATE01")), (11, 11, 11));
    assert_eq!(
        (of(1, b""), of(1, b"GATE0"), of(1, b"GATE0^"), of(1, b"GATE01GATE0")),
        (11, 11, 11, 11)
    );
    assert_eq!(of(1, b"GATE01GATE01"), 11, "two equal names");
    assert_eq!(of(0, &names(&mut Rng::new(1), 17)), 9, "17 names are 9 before any 11");
    let two = image_of(&set_of("F0001000010", "00", &[b"0123456789", b"9876543210"]));
    assert_eq!(refused(rewrite, &two, 1, b"GATE01", 900), number(12), "two reels are needed");
}

fn what_has_no_meaning(rewrite: &impl Rewrite) {
    let joined = image_of(&set_of("S0002000010", "05", &[b"?????10005^", b"^^^^^30005^"]));
    let blocks = data_blocks(&normal(rewrite, &joined, 1, b"OTHER1"));
    assert_eq!(blocks, [b"00005"], "empty segments become one");
    let padded = image_of(&set_of("F0002000004", "02", &[b"--ABCD^^", b"??EFGH"]));
    let blocks = data_blocks(&normal(rewrite, &padded, 1, b"OTHER1"));
    assert_eq!(blocks, [b"ABCDEFGH"], "offsets and padding are left out");
}

/// Every section is written with them, whatever dates the later ones had.
fn dates_of_section_0001(rewrite: &impl Rewrite) {
    const DATES: &str = " 86001 91001";
    let reel = |number, end| {
        let shape = ("F0001000010", "00");
        reel(&format!("GATE0{number}"), &[section(number, 1, shape, &[b"0123456789"], end)])
    };
    let set = [reel(1, VOLUME), reel(2, FILE)].concat();
    let normal = |set: &[Piece]| normal(rewrite, &image_of(set), 1, b"GATE01GATE02");
    assert_eq!(normal(&set), image_of(&set), "it is its own normal form");
    // HDR1 and its trailer, of section 0001 and of section 0002.
    let dated = |set: &[Piece], labels: [usize; 2]| {
        with(set.to_vec(), &labels.map(|item| (item, 42, DATES)))
    };
    let (first, later) = (dated(&set, [1, 6]), dated(&set, [12, 17]));
    assert_eq!(normal(&later), image_of(&set), "those of section 0002 are left out");
    assert_eq!(normal(&first), image_of(&dated(&first, [12, 17])), "those of section 0001");
}

/// There is no joining buffer: the longest record goes from segment to segment.
fn the_longest_record(rewrite: &impl Rewrite) {
    let order = order("S0010699999", &[&[b'^'; 99_999], b"A"]);
    let mut image = vec![0; 200_000];
    let written = order.sheet().write(&mut image);
    image.truncate(written.len);
    assert_eq!(normal(rewrite, &image, 999_999, b"GATE01"), image);
}

const SHORT_RECORDS: &str = "S0001800007";

/// An accepted image of 16.5 million bytes, each block a record of 7 bytes where B is 18.
pub fn one_record_a_block() -> Vec<u8> {
    let begin = |reel: &str, section| -> Vec<Piece> {
        let headers =
            [first("HDR1", section, "0001", "000000"), second("HDR2", SHORT_RECORDS, "00")];
        [&[volume(reel)][..], &headers, &[TapeMark]].concat()
    };
    let end = |one, two, section| -> Vec<Piece> {
        let trailers = [first(one, section, "0001", "550000"), second(two, SHORT_RECORDS, "00")];
        [&[TapeMark][..], &trailers, &[TapeMark, TapeMark, EndOfReel]].concat()
    };
    let items = |pieces: &[Piece]| image_of(pieces)[HEAD.len()..].to_vec();
    let half = b"\x00\x00\x0C00012ABCDEFG".repeat(550_000);
    [
        image_of(&begin("GATE01", "0001")),
        half.clone(),
        items(&end("EOV1", "EOV2", "0001")),
        items(&begin("GATE02", "0002")),
        half,
        items(&end("EOF1", "EOF2", "0002")),
    ]
    .concat()
}

/// The writer fills each block with a second segment, so that the normal form is longer.
fn a_normal_form_over_the_limit(rewrite: &impl Rewrite) {
    let image = one_record_a_block();
    assert_eq!(check(&image), Answer::DONE);
    let names = names(&mut Rng::new(1), 16);
    let of = |quota, room| refused(rewrite, &image, quota, &names, room);
    assert_eq!(of(999_999, MOST_BYTES), number(14));
    assert_eq!(of(999_999, 0), number(14), "14 goes before 10");
    assert_eq!(of(1_000, 0), number(12), "12 goes before 14");
}
