//! Every byte of every label with every value, and the lengths in HDR2 at their limits.

use cases::ledger::*;
use oracle::generate::{image_of, Piece};
use oracle::Answer;
use trials::agreed;

/// The places of the labels, as items.
fn labels(set: &[Piece]) -> Vec<usize> {
    (0..set.len()).filter(|&item| matches!(set[item], Piece::Label(_))).collect()
}

/// The answers where this byte of this label has each of the 256 values.
fn answers(set: &[Piece], item: usize, bp: usize) -> Vec<Answer> {
    let mut image = image_of(set);
    let at = image_of(&set[..item]).len() + 3 + bp - 1;
    let mut with = |value| {
        image[at] = value;
        agreed(&image)
    };
    (0..=255).map(&mut with).collect()
}

/// Archive and oracle agree on every value of every byte of every label.
fn agree_on_every_byte(set: Vec<Piece>) {
    assert_eq!(agreed(&image_of(&set)), Answer::DONE);
    for item in labels(&set) {
        for bp in 1..=80 {
            answers(&set, item, bp);
        }
    }
}

#[test]
fn every_byte_of_every_label() {
    agree_on_every_byte(base_with_options());
}

#[test]
fn every_byte_of_labels_on_two_reels() {
    agree_on_every_byte(two_reels());
}

/// Section 0002 has dates of its own.
#[test]
fn every_byte_of_labels_on_two_reels_of_two_dates() {
    let dates = " 86001 91001";
    agree_on_every_byte(with(two_reels(), &[(12, 42, dates), (16, 42, dates)]));
}

#[test]
fn every_byte_of_labels_of_two_files() {
    agree_on_every_byte(files(2));
}

#[test]
fn every_byte_of_labels_of_d_and_s_files() {
    agree_on_every_byte(set_of("D0002000010", "04", &[b"????0005X"]));
    agree_on_every_byte(set_of("S0002000010", "00", &[b"10007AB", b"30006C"]));
}

/// Counted from document 01's table of VOL1, without a look at the oracle.
#[test]
fn values_that_vol1_allows() {
    let accepted =
        |bp| answers(&base(), 0, bp).into_iter().filter(|&answer| answer == Answer::DONE).count();
    for bp in 1..=80 {
        let allowed = match bp {
            5..=10 | 25..=51 => 57,
            _ => 1,
        };
        assert_eq!(accepted(bp), allowed, "BP {bp}");
    }
    let at_11 = answers(&base(), 0, 11);
    let closed = at_11.iter().filter(|&&answer| answer == Answer::new(5, 0, 11)).count();
    assert_eq!(closed, 56, "a-characters other than SPACE");
}

#[test]
fn labels_of_other_lengths() {
    let set = base_with_options();
    for item in labels(&set) {
        for length in [1, 79, 81, 160] {
            let image = image_of(&resized(set.clone(), item, length));
            assert_eq!(agreed(&image), Answer::new(3, item as u32, 0), "{length} bytes");
        }
    }
}

/// A file without blocks, of this shape.
fn shaped(format: char, block: usize, record: usize, offset: usize) -> Answer {
    let shape = format!("{format}{block:05}{record:05}");
    agreed(&image_of(&set_of(&shape, &format!("{offset:02}"), &[])))
}

/// B just under, at and over what R and O need, for every O.
#[test]
fn lengths_at_their_limits() {
    let wrong = Answer::new(4, 2, 11);
    for offset in 0..=99 {
        for record in [1, 2, 4, 5, 6, 7, 10, 9_999, 10_000, 99_900, 99_998, 99_999] {
            for (format, needed) in [('F', record), ('D', record), ('S', 6)] {
                let least = (needed + offset).max(2);
                for block in (least - 1..=least + 1).filter(|&block| block <= 99_999) {
                    let fits = needed + offset <= block && (format != 'D' || record >= 5);
                    let due = if fits { Answer::DONE } else { wrong };
                    let answer = shaped(format, block, record, offset);
                    assert_eq!(answer, due, "{format}, B {block}, R {record}, O {offset}");
                }
            }
        }
    }
}

#[test]
fn lengths_of_zero() {
    for format in ['F', 'D', 'S'] {
        assert_eq!(shaped(format, 0, 10, 0), Answer::new(4, 2, 6), "B 0");
        assert_eq!(shaped(format, 0, 0, 0), Answer::new(4, 2, 6), "B 0 and R 0");
        assert_eq!(shaped(format, 99_999, 0, 0), Answer::new(4, 2, 11), "R 0");
    }
}
