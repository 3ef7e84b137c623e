//! The order of a reel: a kind, a length or a mark that is not due is 3, never 4.

use crate::ledger::*;
use crate::{Case, ACCEPTED};
use oracle::generate::Piece;

pub fn cases() -> Vec<Case> {
    [whole_sets(), optional_labels(), user_labels(), not_due(), ends_of_reels(), behind_a_fault()]
        .into_iter()
        .flatten()
        .collect()
}

fn whole_sets() -> Vec<Case> {
    let Piece::Label(eof1) = first("EOF1", "0001", "0001", "000001") else { unreachable!() };
    let trailer_like = set_of("F0008000080", "00", &[&eof1]);
    let all_data = "between the marks every block is data, whatever it looks like";
    let sequence = "a next file has section 0001 and a sequence one higher";
    vec![
        Case::set("the set of document 01", base(), ACCEPTED, "every rule holds"),
        Case::set("two reels", two_reels(), ACCEPTED, "EOV ends a reel and the next goes on"),
        Case::set("two files", files(2), ACCEPTED, sequence),
        Case::set("one label of each kind", base_with_options(), ACCEPTED, "all are optional"),
        Case::set("a data block that is an EOF1 label", trailer_like, ACCEPTED, all_data),
    ]
}

fn optional_labels() -> Vec<Case> {
    const GAP: &str = "optional labels are numbered upward without a gap";
    let case = |what, at, labels: &[&str], due, reason| {
        Case::set(what, base_plus(at, labels), due, reason)
    };
    let headers = ["HDR3", "HDR4", "HDR5", "HDR6", "HDR7", "HDR8", "HDR9"];
    let over_nine = [&headers[..], &["HDR:"]].concat();
    let same_named = "optional trailers have the name of EOF1";
    let unequal = "no rule of document 01 asks for as many trailers as headers";
    vec![
        case("EOV3 behind EOF2", 8, &["EOV3"], (3, 8, 0), same_named),
        case("EOF3 without HDR3", 8, &["EOF3"], ACCEPTED, unequal),
        case("HDR4 without HDR3", 3, &["HDR4"], (3, 3, 0), GAP),
        case("EOF4 without EOF3", 8, &["EOF4"], (3, 8, 0), GAP),
        case("UVL2 without UVL1", 1, &["UVL2"], (3, 1, 0), GAP),
        case("VOL3 without VOL2", 1, &["VOL3"], (3, 1, 0), GAP),
        case("VOL2 twice", 1, &["VOL2", "VOL2"], (3, 2, 0), GAP),
        case("VOL2 behind UVL1", 1, &["UVL1", "VOL2"], (3, 2, 0), "VOL labels come before UVL"),
        case("HDR3 behind a UHL", 3, &["UHL1", "HDR3"], (3, 4, 0), "HDR labels come before UHL"),
        case("EOF3 behind a UTL", 8, &["UTL1", "EOF3"], (3, 9, 0), "EOF labels come before UTL"),
        case("HDR3 to HDR9", 3, &headers, ACCEPTED, "none is left out"),
        case("HDR: behind HDR9", 3, &over_nine, (3, 10, 0), "the numbers end with 9"),
    ]
}

fn user_labels() -> Vec<Case> {
    let case = |what, at, labels: &[&str], due, reason| {
        Case::set(what, base_plus(at, labels), due, reason)
    };
    let kind = "BP 1-3 make the kind, and BP 4 is a field of a-characters";
    let alike = "user labels are not numbered";
    vec![
        case("UHLa behind HDR2", 3, &["UHLa"], (4, 3, 4), kind),
        case("UTLa behind EOF2", 8, &["UTLa"], (4, 8, 4), kind),
        case("nine UHL alike", 3, &["UHL1"; 9], ACCEPTED, alike),
        case("a tenth UHL", 3, &["UHL1"; 10], (3, 12, 0), "nine are the most"),
        case("nine UTL alike", 8, &["UTL "; 9], ACCEPTED, alike),
        case("a tenth UTL", 8, &["UTL "; 10], (3, 17, 0), "nine are the most"),
        case("a UTL behind HDR2", 3, &["UTL1"], (3, 3, 0), "UTL stands behind trailers"),
    ]
}

fn not_due() -> Vec<Case> {
    let bare = vec![volume("GATE01"), TapeMark, TapeMark, EndOfReel];
    let behind_eov = plus(two_reels(), 9, &[first("HDR1", "0001", "0002", "000000")]);
    let length = "a label is a block of exactly 80 bytes";
    let mark_due = replaced(files(2), 10, block("X"));
    vec![
        Case::set("VOL1, mark, mark, end", bare, (3, 1, 0), "HDR1 is due behind VOL1"),
        Case::set("HDR1 behind EOV's mark", behind_eov, (3, 9, 0), "a second mark is due there"),
        Case::set("HDR1 of 81 bytes", resized(base(), 1, 81), (3, 1, 0), length),
        Case::set("HDR1 of 79 bytes", resized(base(), 1, 79), (3, 1, 0), length),
        Case::set("HDRA", base_with(&[(1, 4, "A")]), (3, 1, 0), "another kind is 3, never 4"),
        Case::set("a block where HDR3 or a mark is due", mark_due, (3, 10, 0), length),
        Case::set("no HDR2", without(base(), 2), (3, 2, 0), "HDR2 is not optional"),
    ]
}

fn ends_of_reels() -> Vec<Case> {
    let empty = "an empty reel is 3 at its end";
    let goes_on = "only EOF ends a set: 3 at the number after the last item";
    let empty_between = plus(two_reels(), 11, &[EndOfReel]);
    let empty_behind = plus(base(), 11, &[EndOfReel]);
    let in_data = replaced(base(), 5, EndOfReel);
    vec![
        Case::set("the last reel ends with EOV", cut(two_reels(), 11), (3, 11, 0), goes_on),
        Case::set("an empty reel between two", empty_between, (3, 11, 0), empty),
        Case::set("an empty reel behind the set", empty_behind, (3, 11, 0), empty),
        Case::set("an end of reel among the data", in_data, (3, 5, 0), "a mark ends the data"),
        Case::set("one mark at the end", without(base(), 9), (3, 9, 0), "a second mark is due"),
    ]
}

/// Sixteen reels of ten items each, with a fault at the VOL1 of the last and with one inside it: 2 of what follows goes first.
fn behind_a_fault() -> Vec<Case> {
    let sixteen = |item, text| changed(reels(16, |reel| format!("GATE{reel:02}")), item, 5, text);
    let (outside, inside) = (|| sixteen(150, "GATE01"), || sixteen(151, "LEDGES"));
    let good = "16 reels with an end each are well framed, whatever is wrong in them";
    let late = "2 goes before the fault, though it stands behind it";
    vec![
        Case::set("a name again on reel 16", outside(), (6, 150, 5), good),
        Case::set("another file on reel 16", inside(), (6, 151, 5), good),
        Case::set("a name again, and a mark", plus(outside(), 160, &[TapeMark]), (2, 160, 0), late),
        Case::set("another file, and a mark", plus(inside(), 160, &[TapeMark]), (2, 160, 0), late),
        Case::set("a name again, and no end", cut(outside(), 159), (2, 159, 0), late),
        Case::set("another file, and no end", cut(inside(), 159), (2, 159, 0), late),
    ]
}
