//! Fields of labels, accessibility and cross-checks: 4, 5 and 6 with the first BP of the lowest
//! wrong field.

use crate::ledger::*;
use crate::{Case, Due, ACCEPTED};

pub fn cases() -> Vec<Case> {
    let all = [volume_labels(), first_labels(), dates(), second_labels(), lengths()];
    let across = [trailers(), sections(), dates_of_sections(), volumes(), many_files()];
    all.into_iter().chain(across).flatten().collect()
}

/// The base with these changes.
fn case(what: &str, changes: &[(usize, usize, &str)], due: Due, reason: &'static str) -> Case {
    Case::set(what, base_with(changes), due, reason)
}

/// A file without blocks.
fn shaped(what: &str, shape: &str, offset: &str, due: Due, reason: &'static str) -> Case {
    Case::set(what, set_of(shape, offset, &[]), due, reason)
}

fn volume_labels() -> Vec<Case> {
    let lowest = "the lowest wrong field counts";
    vec![
        case("VOL1 BP 15 X", &[(0, 15, "X")], (4, 0, 12), "the field of SPACEs begins at BP 12"),
        case("VOL1 BP 11 X", &[(0, 11, "X")], (5, 0, 11), "the volume is not open to all"),
        case("VOL1 BP 11 x", &[(0, 11, "x")], (4, 0, 11), "accessibility is an a-character"),
        case("VOL1 BP 80 3", &[(0, 80, "3")], (4, 0, 80), "the label standard version is 4"),
        case("VOL1 BP 80 3, BP 38 a", &[(0, 80, "3"), (0, 38, "a")], (4, 0, 38), lowest),
        case("VOL1 BP 10 ^", &[(0, 10, "^")], (4, 0, 5), "a volume identifier has a-characters"),
        case("owner and implementation", &[(0, 25, "_Z")], ACCEPTED, "a-characters may be there"),
    ]
}

fn first_labels() -> Vec<Case> {
    let same_layout = "the accessibility of a trailer is 5, not 6: the smallest number counts";
    let zeros = "the count of HDR1 is ZEROs";
    vec![
        case("HDR1 BP 54 A, BP 74 X", &[(1, 54, "A"), (1, 74, "X")], (4, 1, 74), "4 before 5"),
        case("HDR1 BP 54 A, section 2", &[(1, 54, "A"), (1, 28, "0002")], (5, 1, 54), "5 before 6"),
        case("HDR1 BP 54 a", &[(1, 54, "a")], (4, 1, 54), "accessibility is an a-character"),
        case("section 0000", &[(1, 28, "0000")], (6, 1, 28), "0000 is digits, but not 0001"),
        case("section 000 ", &[(1, 28, "000 ")], (4, 1, 28), "a section has digits"),
        case("sequence 0002", &[(1, 32, "0002")], (6, 1, 32), "the first file has sequence 0001"),
        case("generation 0000", &[(1, 36, "0000")], (4, 1, 36), "a generation is 0001 to 9999"),
        case("HDR1 count 000001", &[(1, 55, "000001")], (4, 1, 55), zeros),
        case("HDR1 count 00000A", &[(1, 60, "A")], (4, 1, 55), "the place is the field's first BP"),
        case("EOF1 BP 54 A", &[(6, 54, "A")], (5, 6, 54), same_layout),
        case("EOF1 count 00001 ", &[(6, 55, "00001 ")], (4, 6, 55), "a count has digits"),
    ]
}

fn dates() -> Vec<Case> {
    let both = |date| [(1, 42, date), (6, 42, date)];
    let day = "a day is 001 to 366, in any year";
    vec![
        case("created  85366", &both(" 85366"), ACCEPTED, day),
        case("created  85367", &both(" 85367"), (4, 1, 42), day),
        case("created  85000", &both(" 85000"), (4, 1, 42), "only a year 00 may have day 000"),
        case("created 000000", &both("000000"), ACCEPTED, "0 and five ZEROs are a date"),
        case("created  00000", &both(" 00000"), ACCEPTED, "SPACE and five ZEROs are a date"),
        case("created 100001", &both("100001"), (4, 1, 42), "a date begins with SPACE or 0"),
        case("expires  85367", &[(1, 48, " 85367")], (4, 1, 48), day),
    ]
}

fn second_labels() -> Vec<Case> {
    let own_rule = "R 5 or more is a rule of the field alone";
    let all_three = "R is held against B and O only where all three are good";
    let lower = "BP 11 is lower than BP 53";
    let over_and_53 = changed(set_of("F0002000021", "00", &[]), 2, 53, "X");
    vec![
        shaped("D, R 3, O bad", "D0002000003", "0X", (4, 2, 11), own_rule),
        shaped("R over B, O bad", "F0002000021", "0X", (4, 2, 51), all_three),
        shaped("B 0", "F0000000010", "00", (4, 2, 6), "B is 1 or more"),
        shaped("R 0", "F0002000000", "00", (4, 2, 11), "R is 1 or more"),
        shaped("all wrong", "U0000000000", "XX", (4, 2, 5), "a format is F, D or S"),
        Case::set("R over B, BP 53 X", over_and_53, (4, 2, 11), lower),
        case("HDR2 BP 80 X", &[(2, 80, "X")], (4, 2, 53), "the field of SPACEs begins at BP 53"),
        case("HDR2 BP 16 any bytes", &[(2, 16, "\0^a")], ACCEPTED, "BP 16-50 is free"),
    ]
}

fn lengths() -> Vec<Case> {
    const F: &str = "F: R + O at most B";
    const D: &str = "D: R counts the control word, so R + O at most B, and R is 5 or more";
    const S: &str = "S: O + 6 at most B, and R is 1 or more, be it over B or not";
    const BAD: Due = (4, 2, 11);
    vec![
        shaped("F, R 20, O 0, B 20", "F0002000020", "00", ACCEPTED, F),
        shaped("F, R 21, O 0, B 20", "F0002000021", "00", BAD, F),
        shaped("F, R 20, O 1, B 20", "F0002000020", "01", BAD, F),
        shaped("F, R 99,999, O 0, B 99,999", "F9999999999", "00", ACCEPTED, F),
        shaped("D, R 17, O 4, B 20", "D0002000017", "04", BAD, D),
        shaped("D, R 16, O 4, B 20", "D0002000016", "04", ACCEPTED, D),
        shaped("D, R 20, O 0, B 20", "D0002000020", "00", ACCEPTED, D),
        shaped("D, R 4", "D0002000004", "00", BAD, D),
        shaped("D, R 5, O 0, B 5", "D0000500005", "00", ACCEPTED, D),
        shaped("S, B 5", "S0000500010", "00", BAD, S),
        shaped("S, B 6", "S0000600010", "00", ACCEPTED, S),
        shaped("S, B 6, O 1", "S0000600010", "01", BAD, S),
        shaped("S, R 0", "S0002000000", "00", BAD, S),
        shaped("S, R over B", "S0002099999", "00", ACCEPTED, S),
    ]
}

fn trailers() -> Vec<Case> {
    let own_rules = "R is held against B and O in EOF2 too, before equality";
    let equal = "a trailer equals its header";
    let free = "implementation fields and BP 16-50 are not compared";
    vec![
        case("EOF1 count 000002", &[(6, 55, "000002")], (6, 6, 55), "the section has one block"),
        case("EOF2 B 00005", &[(7, 6, "00005")], (4, 7, 11), own_rules),
        case("EOF2 B 00021", &[(7, 6, "00021")], (6, 7, 6), equal),
        case("EOF2 O 01", &[(7, 51, "01")], (6, 7, 51), equal),
        case("EOF2 format S", &[(7, 5, "S")], (6, 7, 5), equal),
        case("EOF1 section 0002", &[(6, 28, "0002")], (6, 6, 28), equal),
        case(
            "EOF1 expires 000000",
            &[(6, 48, "000000")],
            (6, 6, 48),
            "dates are compared as bytes",
        ),
        case("other implementation", &[(6, 61, "OTHER"), (7, 16, "X")], ACCEPTED, free),
    ]
}

fn gate(reel: usize) -> String {
    format!("GATE{reel:02}")
}

fn sections() -> Vec<Case> {
    let case = |what, item, bp, text, due, reason| {
        Case::set(what, changed(reels(2, gate), item, bp, text), due, reason)
    };
    let own_line = "the place is the field's own first BP, not that of the part compared";
    let equal = "the sections of a file are equal in this field";
    vec![
        case("another set identifier", 11, 22, "SET002", (6, 11, 22), own_line),
        case("another file identifier", 11, 5, "LEDGES", (6, 11, 5), equal),
        case("section 0001 again", 11, 28, "0001", (6, 11, 28), "section is one higher after EOV"),
        case("another sequence", 11, 32, "0002", (6, 11, 32), "sequence is the same after EOV"),
        case("another generation", 11, 36, "0002", (6, 11, 36), equal),
        case("another version", 11, 40, "01", (6, 11, 40), equal),
        case("another format", 12, 5, "S", (6, 12, 5), equal),
        case("another B", 12, 6, "00021", (6, 12, 6), equal),
        case("another R", 12, 11, "00011", (6, 12, 11), equal),
        case("another O", 12, 51, "01", (6, 12, 51), equal),
    ]
}

/// Both dates of HDR1 and EOV1 of section 0002, then of HDR1 and EOF1 of section 0003: items 11, 15, 21, 25.
fn dates_of_sections() -> Vec<Case> {
    // Section 0001 has these; the others are created or expire on another day, or both.
    const FIRST: &str = " 85335 00000";
    const CREATED: &str = " 86001 00000";
    const EXPIRES: &str = " 85335 91001";
    const BOTH: &str = "000366 91002";
    let case = |what, [hdr, eov, last_hdr, eof]: [&str; 4], due, reason| {
        let dates = [(11, 42, hdr), (15, 42, eov), (21, 42, last_hdr), (25, 42, eof)];
        Case::set(what, with(reels(3, gate), &dates), due, reason)
    };
    let own = "each section has dates of its own";
    let equal = "a trailer equals the header of its own section";
    let wrong = "a date of a later section is a date too";
    let bytes = "dates are compared as bytes";
    vec![
        case("another creation date", [FIRST, FIRST, CREATED, CREATED], ACCEPTED, own),
        case("another expiration date", [FIRST, FIRST, EXPIRES, EXPIRES], ACCEPTED, own),
        case("two other dates", [FIRST, FIRST, BOTH, BOTH], ACCEPTED, own),
        case("a middle creation date", [CREATED, CREATED, FIRST, FIRST], ACCEPTED, own),
        case("a middle expiration date", [EXPIRES, EXPIRES, FIRST, FIRST], ACCEPTED, own),
        case("alike but for section 0001", [BOTH, BOTH, BOTH, BOTH], ACCEPTED, own),
        case("three creation dates", [CREATED, CREATED, BOTH, BOTH], ACCEPTED, own),
        case("three expiration dates", [EXPIRES, EXPIRES, BOTH, BOTH], ACCEPTED, own),
        case("HDR1 alone created", [FIRST, FIRST, CREATED, FIRST], (6, 25, 42), equal),
        case("HDR1 alone expires", [FIRST, FIRST, EXPIRES, FIRST], (6, 25, 48), equal),
        case("middle HDR1 alone created", [CREATED, FIRST, FIRST, FIRST], (6, 15, 42), equal),
        case("middle HDR1 alone expires", [EXPIRES, FIRST, FIRST, FIRST], (6, 15, 48), equal),
        case("EOV1 alone created", [FIRST, CREATED, FIRST, FIRST], (6, 15, 42), equal),
        case("EOF1 alone expires", [FIRST, FIRST, FIRST, EXPIRES], (6, 25, 48), equal),
        case("EOV1 as section 0001", [BOTH, FIRST, BOTH, BOTH], (6, 15, 42), equal),
        case("EOV1 expires as section 0001", [EXPIRES, FIRST, BOTH, BOTH], (6, 15, 48), equal),
        case("EOF1 as section 0001", [CREATED, CREATED, BOTH, FIRST], (6, 25, 42), equal),
        case("EOF1 expires as section 0001", [BOTH, BOTH, EXPIRES, FIRST], (6, 25, 48), equal),
        case("EOF1 as section 0002", [CREATED, CREATED, BOTH, CREATED], (6, 25, 42), equal),
        case("EOF1 expires 0, HDR1 SPACE", [BOTH, BOTH, FIRST, " 85335000000"], (6, 25, 48), bytes),
        case("a wrong creation date", [FIRST, FIRST, " 86367 00000", BOTH], (4, 21, 42), wrong),
        case("a wrong expiration date", [FIRST, FIRST, " 86001 91000", BOTH], (4, 21, 48), wrong),
        case("a wrong middle date", ["186001 00000", FIRST, BOTH, BOTH], (4, 11, 42), wrong),
        case("a wrong date in EOF1", [BOTH, BOTH, BOTH, "000366 91367"], (4, 25, 48), "4 before 6"),
    ]
}

fn volumes() -> Vec<Case> {
    let differ = "volume identifiers in a set differ from each other";
    let one_name = reels(2, |_| gate(1));
    let far_apart = reels(3, |reel| gate(reel % 2));
    vec![
        Case::set("sixteen reels", reels(16, gate), ACCEPTED, "16 are the most"),
        Case::set("seventeen reels", reels(17, gate), (2, 160, 0), "16 are the most"),
        Case::set("two volumes of one name", one_name, (6, 10, 5), differ),
        Case::set("the first and third of one name", far_apart, (6, 20, 5), differ),
    ]
}

fn many_files() -> Vec<Case> {
    const ITS_OWN: &str = "4, 5 and 6 of the 65th HDR1 go before 9";
    let one_set = "one set identifier stands throughout";
    let may_differ = "a next file has its own fields";
    let next = changed(changed(files(2), 8, 5, "OTHER "), 12, 5, "OTHER ");
    let other_set = changed(files(2), 8, 22, "X");
    let at_65th = |bp, text| changed(files(65), 449, bp, text);
    vec![
        Case::set("64 files", files(64), ACCEPTED, "64 are the most"),
        Case::set("65 files", files(65), (9, 449, 0), "a 65th file is 9 at its HDR1"),
        Case::set("65 files, generation 0000", at_65th(36, "0000"), (4, 449, 36), ITS_OWN),
        Case::set("65 files, BP 54 X", at_65th(54, "X"), (5, 449, 54), ITS_OWN),
        Case::set("65 files, sequence 0064", at_65th(32, "0064"), (6, 449, 32), ITS_OWN),
        Case::set("a next file of another set", other_set, (6, 8, 22), one_set),
        Case::set("a next file of another name", next, ACCEPTED, may_differ),
    ]
}
