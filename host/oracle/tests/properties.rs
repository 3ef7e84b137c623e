//! Laws that hold for every set and sheet the generator makes, from fixed seeds.

use cases::dates::{dates, differ, other_dates};
use cases::labels::headers;
use cases::tally::Tally;
use oracle::generate::{
    damaged, illegal_order, image_of, large, legal_order, many_files, names, redate,
    set_with_all_labels, whole, whole_pieces, Large, Piece, Rng,
};
use oracle::label::{SECTION, SEQUENCE};
use oracle::*;
use std::collections::BTreeMap;

#[test]
fn whole_sets_are_accepted_up_to_every_limit() {
    let rng = &mut Rng::new(11);
    let (mut full, mut many_reels, mut joined_over_reels) = (0, 0, 0);
    let mut kinds = BTreeMap::new();
    for _ in 0..20_000 {
        let pieces = whole_pieces(rng);
        let image = image_of(&pieces);
        assert_eq!(check(&image), Answer::DONE);
        let ends = pieces.iter().filter(|piece| **piece == Piece::EndOfReel).count();
        let segments = |piece: &Piece| matches!(piece, Piece::Block(b) if b.starts_with(b"20"));
        full += u32::from(meaning(&image).unwrap().files.len() == 64);
        many_reels += u32::from(ends == 16);
        joined_over_reels += u32::from(ends > 1 && pieces.iter().any(segments));
        other_dates(&image).into_iter().for_each(|other| *kinds.entry(other).or_insert(0) += 1);
    }
    let seen = (full, many_reels, joined_over_reels);
    assert!(full > 50 && many_reels > 200 && joined_over_reels > 500, "{seen:?}");
    // Neither date is another, creation, expiration, both.
    assert_eq!(kinds.len(), 4);
    assert!(kinds.values().all(|&sections| sections > 1_000), "{kinds:?}");
}

#[test]
fn damaged_sets_give_every_number_at_many_places() {
    let rng = &mut Rng::new(12);
    let mut tally = Tally::default();
    for _ in 0..100_000 {
        let image = damaged(rng);
        tally.count(&image, check(&image));
    }
    tally.assert_complete(100);
}

#[test]
fn the_container_is_judged_first() {
    let rng = &mut Rng::new(13);
    for _ in 0..20_000 {
        let image = damaged(rng);
        let (framed, checked) = (framing(&image), check(&image));
        if framed.is_done() {
            assert!(!matches!(checked.number, 1 | 2));
        } else {
            assert_eq!(framed, checked);
        }
    }
}

#[test]
fn what_is_written_is_accepted_and_means_its_sheet() {
    let rng = &mut Rng::new(14);
    let mut out = vec![0; 2_000_000];
    let mut numbers = [0; 15];
    for _ in 0..10_000 {
        let order = legal_order(rng);
        let written = order.sheet().write(&mut out);
        numbers[written.answer.number as usize] += 1;
        if written.answer.is_done() {
            let image = &out[..written.len];
            assert_eq!(check(image), Answer::DONE);
            let read = Order::of_image(image, order.quota, &order.names);
            assert_eq!(read, Ok(order));
        } else {
            assert_eq!(written.answer, Answer::new(12, 0, 0), "{order:?}");
        }
    }
    assert!(numbers[0] > 5_000 && numbers[12] > 500, "{numbers:?}");
}

#[test]
fn illegal_sheets_are_refused_or_legal_after_all() {
    let rng = &mut Rng::new(15);
    let mut out = vec![0; 2_000_000];
    let mut numbers = [0; 15];
    for _ in 0..10_000 {
        let written = illegal_order(rng).sheet().write(&mut out);
        numbers[written.answer.number as usize] += 1;
        if written.answer.is_done() {
            assert_eq!(check(&out[..written.len]), Answer::DONE);
        }
    }
    assert!(numbers[9] > 100 && numbers[11] > 4_000, "{numbers:?}");
}

#[test]
fn rewriting_keeps_the_meaning_and_is_idempotent() {
    let rng = &mut Rng::new(16);
    let (mut once, mut twice) = (vec![0; 2_000_000], vec![0; 2_000_000]);
    for _ in 0..10_000 {
        let image = whole(rng);
        let quota = rng.between(1, 20) as u64;
        let names = names(rng, 16);
        let first = rewrite(&image, quota, &names, &mut once);
        if first.answer.number == 12 {
            continue;
        }
        assert_eq!(first.answer, Answer::DONE);
        let normal = &once[..first.len];
        assert_eq!(meaning(normal), meaning(&image));
        assert_eq!(rewrite(normal, quota, &names, &mut twice), first);
        assert!(normal == &twice[..first.len]);
        let by_sheet = Order::with_meaning(&meaning(&image).unwrap(), quota, &names);
        assert_eq!(by_sheet.sheet().write(&mut twice), first);
        assert!(normal == &twice[..first.len]);
    }
}

/// The meaning and the walk of each file of an accepted set have the dates of its section 0001.
fn assert_dates_of_section_0001(image: &[u8], files: &[File]) {
    let mut begun = headers(image);
    begun.retain(|header| SECTION.of(header) == b"0001");
    assert_eq!(begun.len(), files.len());
    for (number, (header, file)) in (1..).zip(begun.into_iter().zip(files)) {
        assert_eq!(dates(header), [file.creation(), file.expiration()]);
        let first = begin(image, number).expect("the file is there").first;
        assert_eq!(image[first..first + 80], header[..]);
    }
}

/// Every section of a written set has the dates of its file; gives the number of later sections.
fn later_sections_written(image: &[u8], files: &[File]) -> usize {
    let headers = headers(image);
    for header in &headers {
        let file = &files[SEQUENCE.number(header).expect("digits") as usize - 1];
        assert_eq!(dates(header), [file.creation(), file.expiration()]);
    }
    headers.len() - files.len()
}

/// Sets that differ only in the dates of later sections have one meaning, one listing and one normal form
/// (P2 of document 02).
#[test]
fn dates_of_later_sections_have_no_meaning() {
    let rng = &mut Rng::new(18);
    let (mut one, mut other) = (vec![0; 2_000_000], vec![0; 2_000_000]);
    let (mut different, mut rewritten, mut later_sections) = (0, 0, 0);
    for _ in 0..10_000 {
        let mut pieces = whole_pieces(rng);
        let image = image_of(&pieces);
        redate(rng, &mut pieces);
        let redated = image_of(&pieces);
        let differs = differ(&image, &redated);
        assert_eq!(image != redated, differs, "in dates alone");
        different += u32::from(differs);
        let Meaning { files, .. } = meaning(&image).expect("accepted");
        assert_eq!(meaning(&redated), meaning(&image));
        assert_dates_of_section_0001(&redated, &files);
        assert_eq!(listing(&redated), listing(&image));
        let (quota, names) = (rng.between(1, 3) as u64, names(rng, 16));
        let written = rewrite(&image, quota, &names, &mut one);
        assert_eq!(rewrite(&redated, quota, &names, &mut other), written);
        if written.answer.is_done() {
            let normal = &one[..written.len];
            assert!(normal == &other[..written.len]);
            rewritten += u32::from(differs);
            later_sections += later_sections_written(normal, &files);
        }
    }
    let seen = (different, rewritten, later_sections);
    assert!(different > 2_000 && rewritten > 2_000 && later_sections > 5_000, "{seen:?}");
}

#[test]
fn records_by_number_are_those_of_the_meaning() {
    let rng = &mut Rng::new(17);
    let mut join = vec![0; 100_000];
    for _ in 0..1_000 {
        let image = whole(rng);
        for (f, file) in (1..).zip(meaning(&image).unwrap().files) {
            for (r, expected) in (1..).zip(&file.records) {
                match record(&image, f, r, &mut join) {
                    Found::InImage { start, len } => {
                        assert_eq!(&image[start..start + len], expected)
                    }
                    Found::Joined { len } => assert_eq!(&join[..len], expected),
                    Found::Refused(answer) => panic!("{answer:?}"),
                }
            }
            let behind = record(&image, f, file.records.len() as u64 + 1, &mut join);
            assert_eq!(behind, Found::Refused(Answer::new(13, 0, 0)));
        }
    }
}

#[test]
fn large_images_are_accepted() {
    for kind in Large::ALL {
        let image = large(kind, 1_000_000);
        assert!(image.len() > 950_000 && image.len() < 1_100_000, "{kind:?}: {}", image.len());
        assert_eq!(check(&image), Answer::DONE);
    }
}

#[test]
fn sets_that_are_nearly_all_labels_are_accepted() {
    for image in [many_files(true), many_files(false)] {
        assert_eq!(check(&image), Answer::DONE);
        assert_eq!(meaning(&image).unwrap().files.len(), 64);
        let (vol1, all) = (b"VOL1", image.windows(4));
        assert_eq!(all.filter(|four| four == vol1).count(), 16);
    }
    let pieces = set_with_all_labels(&mut Rng::new(1), 64, 16);
    assert_eq!(check(&image_of(&pieces)), Answer::DONE);
    let labels = |name: &str| {
        let named =
            |piece: &&Piece| matches!(piece, Piece::Label(l) if l.starts_with(name.as_bytes()));
        pieces.iter().filter(named).count()
    };
    let (files, later) = (64, labels("EOV1"));
    assert_eq!((labels("VOL1"), later), (16, 15));
    for (name, first, due) in [
        ("VOL", 2, 16),
        ("UVL", 1, 16),
        ("HDR", 3, files + later),
        ("EOF", 3, files),
        ("EOV", 3, later),
    ] {
        for number in first..=9 {
            assert_eq!(labels(&format!("{name}{number}")), due, "{name}{number}");
        }
    }
    assert_eq!((labels("UHL"), labels("UTL")), (9 * (files + later), 9 * (files + later)));
}
