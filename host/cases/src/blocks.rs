//! Data blocks: what can't be cut is 7, what is out of turn is 8.

use crate::ledger::*;
use crate::{Case, ACCEPTED};
use oracle::generate::Piece;

/// Blocks put into a set of one file, and what they give: its records, or the number at the last
/// block.
pub struct Cut {
    shape: &'static str,
    offset: &'static str,
    blocks: Vec<String>,
    pub gives: Result<Vec<String>, u32>,
    reason: &'static str,
}

impl Cut {
    pub fn case(&self) -> Case {
        let Cut { shape, offset, blocks, .. } = self;
        let last = BLOCKS_FROM + blocks.len() as u32 - 1;
        let due = match self.gives {
            Ok(_) => ACCEPTED,
            Err(number) => (number, last, 0),
        };
        let bytes: Vec<&[u8]> = blocks.iter().map(|block| block.as_bytes()).collect();
        let what = format!("{shape}, offset {offset}, {blocks:.60?}");
        Case::set(&what, set_of(shape, offset, &bytes), due, self.reason)
    }
}

/// Cases of one shape.
struct Of(&'static str, &'static str);

impl Of {
    fn records(&self, blocks: &[&str], records: &[&str], reason: &'static str) -> Cut {
        let records = records.iter().map(|record| record.to_string()).collect();
        self.gives(blocks, Ok(records), reason)
    }

    fn refused(&self, blocks: &[&str], number: u32, reason: &'static str) -> Cut {
        self.gives(blocks, Err(number), reason)
    }

    fn gives(&self, blocks: &[&str], gives: Result<Vec<String>, u32>, reason: &'static str) -> Cut {
        let blocks = blocks.iter().map(|block| block.to_string()).collect();
        Cut { shape: self.0, offset: self.1, blocks, gives, reason }
    }
}

const F1: &str = "F0002000001";
const F4: &str = "F0002000004";
const D10: &str = "D0002000010";
const S10: &str = "S0002000010";

pub fn cuts() -> Vec<Cut> {
    [fixed(), variable(), segmented(), turns(), offsets()].into_iter().flatten().collect()
}

pub fn cases() -> Vec<Case> {
    let cuts = cuts();
    cuts.iter().map(Cut::case).chain(open_records()).chain(a_million_blocks()).collect()
}

fn fixed() -> Vec<Cut> {
    let (f1, f4) = (Of(F1, "00"), Of(F4, "00"));
    let longest = "A".repeat(99_999);
    let not_all = "a unit is not all circumflexes, and behind padding comes nothing else";
    let inside = "a circumflex inside a unit belongs to the record";
    vec![
        f4.records(&["ABCD^^"], &["ABCD"], "padding need not be a whole unit"),
        f4.records(&["AB^^CD^^"], &["AB^^", "CD^^"], inside),
        f4.records(&["ABCD^^^^"], &["ABCD"], "a unit of circumflexes is padding"),
        f4.records(&["ABCDEF^^"], &["ABCD", "EF^^"], inside),
        f4.records(&["ABCDABCDABCDABCDABCD"], &["ABCD"; 5], "a block is at most B bytes"),
        f4.refused(&["ABCDABCDABCDABCDABCD^"], 7, "a block is at most B bytes, padding too"),
        f4.refused(&["ABCD^^^^E"], 7, not_all),
        f4.refused(&["^^^^"], 7, "a block has one or more units"),
        f4.refused(&["^^^^ABCD"], 7, not_all),
        f4.refused(&["ABCDEF"], 7, "two bytes are no unit and no padding"),
        f1.refused(&["A^B"], 7, not_all),
        f1.records(&["AB^^"], &["A", "B"], "each byte is a unit up to the padding"),
        Of("F9999999999", "00").records(&[&longest], &[&longest], "R and B may be 99,999"),
    ]
}

fn variable() -> Vec<Cut> {
    let d = Of(D10, "00");
    let own = "the length says what belongs to the record, circumflexes too";
    vec![
        d.records(&["0007ABC0004"], &["ABC", ""], "a record may be empty"),
        d.records(&["0008AB^^"], &["AB^^"], own),
        d.records(&["0006AB^^"], &["AB"], own),
        d.records(&["0010ABCDEF"], &["ABCDEF"], "R counts the control word"),
        d.refused(&["0011ABCDEFG"], 7, "R counts the control word"),
        d.refused(&["0003"], 7, "a length counts its own four digits"),
        d.refused(&["0007AB"], 7, "the record goes past its block"),
        d.refused(&["0006AB^0004"], 7, "behind padding comes no unit"),
        d.refused(&["0004000"], 7, "three digits are no control word"),
        d.refused(&[" 004"], 7, "a control word is four digits"),
        d.refused(&["^^^^"], 7, "a block has one or more units"),
    ]
}

fn segmented() -> Vec<Cut> {
    let s = Of(S10, "00");
    let any_place = "for 7 any indicator 0 to 3 will do, so 7 is not due; 8 is";
    let padded = "padding may follow a 1 or a 2";
    vec![
        s.records(&["10007AB", "30006C"], &["ABC"], "1 begins a record and 3 ends it"),
        s.records(&["10007AB^^", "30006C00005"], &["ABC", ""], padded),
        s.records(&["10005", "20005", "30005"], &[""], "segments without bytes are accepted"),
        s.refused(&["20005X"], 7, "X is no unit and no padding, and 7 goes before 8"),
        s.refused(&["20005"], 8, any_place),
        s.refused(&["2000500004"], 7, "7 goes before 8 wherever the bad unit stands"),
        s.refused(&["40005"], 7, "an indicator is 0 to 3"),
        s.refused(&["00004"], 7, "a length counts its own five bytes"),
        s.refused(&["10006A", "3000620006C"], 7, "the first length runs to the end of the digits"),
    ]
}

fn turns() -> Vec<Cut> {
    let s = Of(S10, "00");
    let due = "the block behind a 1 or a 2 begins with 2 or 3";
    let last = "a 1 or 2 is the last unit of its block";
    let over = "a record, whole or joined, is at most R bytes";
    let four = ["00006A10006B", "20006C^", "30006D10006E", "30005"];
    vec![
        s.records(&four, &["A", "BCD", "E"], "a block may end one record and begin another"),
        s.records(&["10013ABCDEFGH", "30007IJ"], &["ABCDEFGHIJ"], over),
        s.refused(&["10013ABCDEFGH", "30008IJK"], 8, over),
        s.refused(&["00016ABCDEFGHIJK"], 8, over),
        s.refused(&["10006A", "00006B"], 8, due),
        s.refused(&["10006A", "10006B"], 8, due),
        s.refused(&["10007AB00005"], 8, last),
        s.refused(&["10006A30006B"], 8, last),
        s.refused(&["10006A", "20006B30006C"], 8, last),
        s.refused(&["10006A", "30006B30006C"], 8, "3 stands only where a record is open"),
    ]
}

fn offsets() -> Vec<Cut> {
    let f = Of(F4, "03");
    let none = "behind the offset there is no unit";
    vec![
        f.records(&["^^^ABCD"], &["ABCD"], "offset bytes are skipped, whatever they are"),
        Of(D10, "04").records(&["????0005X"], &["X"], "offset bytes are skipped"),
        f.refused(&["AB"], 7, "a block is at least O bytes"),
        f.refused(&["ABC"], 7, none),
        f.refused(&["ABC^^"], 7, none),
    ]
}

/// An S file over as many reels as there are lists of blocks.
pub fn over_reels(sections: &[&[&[u8]]]) -> Vec<Piece> {
    let one = |(at, blocks): (usize, &&[&[u8]])| {
        let end = if at + 1 == sections.len() { FILE } else { VOLUME };
        reel(&format!("GATE{at:02}"), &[section(at + 1, 1, (S10, "00"), blocks, end)])
    };
    sections.iter().enumerate().flat_map(one).collect()
}

fn open_records() -> Vec<Case> {
    let open = || over_reels(&[&[b"10006A"]]);
    let passes = over_reels(&[&[b"10006A"], &[], &[b"30006B"]]);
    let forgotten = over_reels(&[&[b"10006A"], &[], &[b"00006B"]]);
    let empty_end = over_reels(&[&[b"10006A"], &[]]);
    let at_eof = "a record open at EOF1 is 8, after that label's own 3 to 6";
    let over = "an open record passes over EOV and over an empty section";
    vec![
        Case::set("10006A, then EOF1", open(), (8, 6, 0), at_eof),
        Case::set("and a wrong count", changed(open(), 6, 55, "000002"), (6, 6, 55), at_eof),
        Case::set("and BP 54 A", changed(open(), 6, 54, "A"), (5, 6, 54), at_eof),
        Case::set("10006A, an empty section, 30006B", passes, ACCEPTED, over),
        Case::set("10006A, an empty section, 00006B", forgotten, (8, 25, 0), over),
        Case::set("10006A, an empty section, EOF1", empty_end, (8, 16, 0), at_eof),
    ]
}

fn a_million_blocks() -> Vec<Case> {
    let blocks = vec![&b"A"[..]; 1_000_000];
    let too_many = changed(set_of(F1, "00", &blocks[..999_999]), 1_000_004, 55, "000000");
    let too_many = plus(too_many, 4, &[block("A")]);
    let numbers = "counts are compared as numbers, not modulo a million";
    vec![
        Case::set("1,000,000 blocks", too_many, (6, 1_000_005, 55), numbers),
        Case::set("999,999 blocks", set_of(F1, "00", &blocks[1..]), ACCEPTED, "a count can say so"),
    ]
}
