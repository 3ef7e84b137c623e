//! The container: over-long, then 1, then 2 for the whole image.

use crate::ledger::base;
use crate::Case;
use oracle::generate::image_of;
use oracle::tape::{END_OF_REEL, HEAD};

pub fn cases() -> Vec<Case> {
    [heads(), items(), behind_a_set()].into_iter().flatten().collect()
}

fn heads() -> Vec<Case> {
    const HEAD_RULE: &str = "an image begins with TGI and version 1, high byte first";
    let one = |what, image: &[u8], reason| Case::image(what, image.to_vec(), (1, 0, 0), reason);
    let over = "over-long goes before all else";
    let longest = "16,777,215 bytes are not over-long, so the mark decides";
    vec![
        Case::image("16,777,216 bytes of zeros", vec![0; 16_777_216], (9, 0, 0), over),
        Case::image("16,777,215 bytes of zeros", vec![0; 16_777_215], (1, 0, 0), longest),
        one("no bytes", b"", "under five bytes is 1"),
        one("TGI and one byte", b"TGI\0", "under five bytes is 1"),
        one("TGJ", b"TGJ\0\x01\xFF\xFF\xFF", HEAD_RULE),
        one("version 2", b"TGI\0\x02\xFF\xFF\xFF", HEAD_RULE),
        one("version 257", b"TGI\x01\x01\xFF\xFF\xFF", HEAD_RULE),
        one("version 256", b"TGI\x01\0\xFF\xFF\xFF", HEAD_RULE),
    ]
}

fn items() -> Vec<Case> {
    let ends = |count: usize, more: &[u8]| [&END_OF_REEL.repeat(count)[..], more].concat();
    let case =
        |what, items: &[u8], due, reason| Case::image(what, [HEAD, items].concat(), due, reason);
    let bad = "a length is 0, 1 to 99,999 or 16,777,215";
    let seventeenth = "the first item of a 17th reel is 2, be it good, bad or cut";
    let first_of_all = "2 for the whole image comes before item 0, a mark that is not due";
    vec![
        case("a head alone", &[], (2, 0, 0), "no reel stands at the number after the last item"),
        case("one mark", &[0; 3], (2, 1, 0), "an image ends right behind an end of reel"),
        case("one end of reel", &END_OF_REEL, (3, 0, 0), "a reel begins with VOL1"),
        case("a mark, then length 100,000", b"\0\0\0\x01\x86\xA0", (2, 1, 0), first_of_all),
        case("length 100,000", b"\x01\x86\xA0", (2, 0, 0), bad),
        case("length 16,777,214", b"\xFF\xFF\xFE", (2, 0, 0), bad),
        case("a block of 2 with one byte", b"\0\0\x02A", (2, 0, 0), "an item cut short is 2"),
        case("a mark and two bytes", &[0; 5], (2, 1, 0), "two bytes left over are a cut item"),
        case("16 ends and one byte", &ends(16, &[0]), (2, 16, 0), seventeenth),
        case("17 ends", &ends(17, &[]), (2, 16, 0), seventeenth),
        case("16 ends and length 100,000", &ends(16, b"\x01\x86\xA0"), (2, 16, 0), seventeenth),
        case("16 ends", &ends(16, &[]), (3, 0, 0), "16 reels are not too many, but VOL1 is due"),
    ]
}

fn behind_a_set() -> Vec<Case> {
    let base = image_of(&base());
    let case =
        |what, more: &[u8], due, reason| Case::image(what, [&base, more].concat(), due, reason);
    let again = "a reel behind the one that ended the set is 3 at its first item";
    vec![
        case("the base and 00", &[0], (2, 11, 0), "a byte left over is a cut item"),
        case("the base and 000000", &[0; 3], (2, 12, 0), "no end of reel behind the mark"),
        case("the base twice, the head once", &base[HEAD.len()..], (3, 11, 0), again),
        case("the base twice", &base, (2, 11, 0), "TGI is no good length"),
    ]
}
