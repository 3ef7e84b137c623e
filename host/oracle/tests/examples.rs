//! The worked examples of document 01: the whole LEDGER set and its listing.

use cases::ledger::*;
use oracle::generate::image_of;
use oracle::{check, listing, listing_of_input, meaning, record, write, Answer, Found};

const FACTS: &[u8; 46] = b"LEDGER           000100 85335 00000F0002000010";

#[test]
fn the_whole_set() {
    let image = image_of(&base());
    assert_eq!(image.len(), 448);
    assert_eq!(check(&image), Answer::DONE);
    let meaning = meaning(&image).expect("accepted");
    assert_eq!(&meaning.set, b"SET001");
    let file = &meaning.files[0];
    assert_eq!(&file.facts, FACTS);
    assert_eq!((file.identifier(), file.generation()), (&b"LEDGER           "[..], &b"0001"[..]));
    assert_eq!((file.version(), file.format()), (&b"00"[..], b'F'));
    assert_eq!((file.creation(), file.expiration()), (&b" 85335"[..], &b" 00000"[..]));
    assert_eq!((file.block_length(), file.record_length()), (&b"00020"[..], &b"00010"[..]));
    assert_eq!(file.records, [b"0123456789"]);
}

#[test]
fn the_writer_makes_it() {
    let mut out = [0xEE; 450];
    let written = write(b"SET001", FACTS, &[1], &[10], b"0123456789", 1, b"GATE01", &mut out);
    assert_eq!((written.answer, written.len), (Answer::DONE, 448));
    assert_eq!(out[..448], image_of(&base()));
    assert_eq!(out[448..], [0xEE; 2], "bytes behind the image stay");
}

#[test]
fn the_listing() {
    let heading = "SEQ FILE              FMT RECORDS BYTES\n";
    let text = |bytes| String::from_utf8(bytes).unwrap();
    let image = image_of(&base());
    assert_eq!(text(listing(&image)), format!("{heading}0001 LEDGER            F 1 10\n"));
    let miscounted = image_of(&base_with(&[(6, 55, "000002")]));
    assert_eq!(text(listing(&miscounted)), "refused 6 at item 6 byte 55\n");
    assert_eq!(text(listing_of_input(&[0; 60_001])), "refused 9 at item 0 byte 0\n");
    assert_eq!(text(listing_of_input(&[0; 60_000])), "refused 1 at item 0 byte 0\n");
    let empty = image_of(&set_of("S0002000010", "00", &[]));
    assert_eq!(text(listing(&empty)), format!("{heading}0001 LEDGER            S 0 0\n"));
    let joined = image_of(&set_of("S0002000010", "00", &[b"10007AB", b"30006C00005"]));
    assert_eq!(text(listing(&joined)), format!("{heading}0001 LEDGER            S 2 3\n"));
}

fn refused(number: u32) -> Found {
    Found::Refused(Answer::new(number, 0, 0))
}

#[test]
fn records_by_number() {
    let image = image_of(&base());
    let none = &mut [][..];
    assert_eq!(record(&image, 1, 1, none), Found::InImage { start: 260, len: 10 });
    assert_eq!(&image[260..270], b"0123456789");
    for (file, number) in [(0, 1), (1, 0), (0, 0), (2, 1), (1, 2), (u64::MAX, u64::MAX)] {
        assert_eq!(record(&image, file, number, none), refused(13), "{file} {number}");
    }
    let miscounted = image_of(&base_with(&[(6, 55, "000002")]));
    let own = Found::Refused(Answer::new(6, 6, 55));
    assert_eq!(record(&miscounted, 9, 9, none), own, "the image's own number comes first");
}

#[test]
fn joined_records() {
    let blocks: [&[u8]; 4] = [b"10007AB", b"30006C00006D", b"10005", b"30005"];
    let image = image_of(&set_of("S0002000010", "00", &blocks));
    let mut join = *b"-----";
    assert_eq!(record(&image, 1, 1, &mut join), Found::Joined { len: 3 });
    assert_eq!(&join, b"ABC--", "only the record's own bytes change");
    assert_eq!(record(&image, 1, 1, &mut join[..2]), refused(10));
    assert!(matches!(record(&image, 1, 2, &mut []), Found::InImage { len: 1, .. }));
    assert_eq!(&join, b"ABC--", "a record of one unit changes none");
    assert_eq!(
        record(&image, 1, 3, &mut []),
        Found::Joined { len: 0 },
        "empty, but of two segments"
    );
    assert_eq!(record(&image, 1, 4, &mut []), refused(13));
}
