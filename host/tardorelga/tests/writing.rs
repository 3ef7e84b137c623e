//! Writing order sheets: the archive and the oracle give the same number and leave the same buffer,
//! from fixed seeds.

use cases::writing;
use oracle::generate::{illegal_order, large_order, legal_order, Large};
use oracle::tape::MOST_BYTES;
use trials::archive;
use trials::writing::{compare, Both, Edge};

#[test]
fn sheets_with_known_answers() {
    writing::run(&writing::cases(), archive::write);
}

#[test]
fn legal_sheets() {
    let tally = compare(legal_order, 21, 30_000);
    println!("legal sheets: {tally}");
    assert!(tally.of(0) > 10_000 && tally.of(10) > 10_000 && tally.of(12) > 5_000, "{tally}");
}

#[test]
fn illegal_sheets() {
    let tally = compare(illegal_order, 22, 40_000);
    println!("illegal sheets: {tally}");
    assert!([0, 9, 10, 11, 12].iter().all(|&number| tally.of(number) > 1_000), "{tally}");
}

/// Every byte of the set identifier, of a file's fields and of a name with every value, for each format.
#[test]
fn every_byte_of_every_field() {
    let mut both = Both::new(2_000);
    for shape in ["F0002000010", "D0002000014", "S0002000010"] {
        let sheet = writing::order(shape, &[b"0123456789"]);
        for at in 0..58 {
            for value in 0..=255 {
                let mut sheet = sheet.clone();
                match at {
                    0..6 => sheet.set[at] = value,
                    6..52 => sheet.files[at - 6] = value,
                    _ => sheet.names[at - 52] = value,
                }
                both.write(&sheet);
            }
        }
    }
    println!("every byte of every field: {}", both.tally);
    assert!(both.tally.of(0) > 1_000 && both.tally.of(11) > 30_000, "{}", both.tally);
}

/// Images of exactly the most bytes, one byte less and one or more over: 14 goes before 10, and 12
/// before 14.
#[test]
fn images_of_the_most_bytes() {
    let mut both = Both::new(MOST_BYTES + 100);
    let mut scratch = vec![0; MOST_BYTES];
    // A sheet at the edge has two files more.
    for kind in Large::ALL.into_iter().filter(|kind| kind.files() == 1) {
        let edge = Edge::new(kind, &mut scratch);
        for (more, number) in [(-1, 0), (0, 0), (1, 14), (2, 14), (500, 14)] {
            let mut order = edge.over(more);
            assert_eq!(both.write(&order).answer.number, number, "{kind:?}, {more} over");
            order.quota = 1;
            assert_eq!(both.write(&order).answer.number, 12, "{kind:?}, {more} over");
        }
        let far_over = large_order(kind, 2 * MOST_BYTES);
        assert_eq!(both.write(&far_over).answer.number, 14, "{kind:?}, twice the most");
    }
    println!("images of the most bytes: {}", both.tally);
}
