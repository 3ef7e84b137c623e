//! Tape files whose images and refusals are known: 15 for all files, then 2, 14 and 10.

use super::{long, one_reel, pairs, Pair};
use crate::ledger::*;
use crate::Due;
use oracle::generate::{Piece, Simh};
use oracle::{Answer, Written};

/// A converter: tape files, their lengths, output.
pub trait FromSimh: Fn(&[u8], &[u64], &mut [u8]) -> Written {}

impl<F: Fn(&[u8], &[u64], &mut [u8]) -> Written> FromSimh for F {}

/// Tape files, the refusal that is due, and why.
pub struct Case {
    pub what: String,
    pub simh: Simh,
    pub answer: Answer,
    pub reason: &'static str,
}

impl Case {
    fn new(what: impl Into<String>, simh: Simh, due: Due, reason: &'static str) -> Case {
        Case { what: what.into(), simh, answer: Answer::new(due.0, due.1, due.2), reason }
    }

    /// 15 at this item.
    fn torn(what: impl Into<String>, simh: Simh, item: usize, reason: &'static str) -> Case {
        Case::new(what, simh, (15, item as u32, 0), reason)
    }
}

/// Holds the converter to every pair and every case.
#[track_caller]
pub fn run(from_simh: impl FromSimh) {
    pairs().iter().for_each(|pair| converts(pair, &from_simh));
    for Case { what, simh, answer, reason } in cases() {
        let what = format!("{what}, since {reason}");
        // With room for any image of these files, and without.
        refuses(&what, &simh, simh.tape.len() + 5, answer, &from_simh);
        refuses(&what, &simh, 0, answer, &from_simh);
    }
}

/// The image is made in a buffer that just holds it and in a longer one, of which the other bytes stay; in
/// shorter ones the number is 10.
#[track_caller]
fn converts(Pair { what, simh, image }: &Pair, from_simh: &impl FromSimh) {
    let done = Written { answer: Answer::DONE, len: image.len() };
    for behind in [0, 1, 300] {
        let mut out = vec![0xEE; image.len() + behind];
        assert_eq!(from_simh(&simh.tape, &simh.lengths, &mut out), done, "{what}");
        let (written, stays) = out.split_at(image.len());
        assert!(written == image, "{what}: the image");
        assert!(stays.iter().all(|&byte| byte == 0xEE), "{what}: bytes behind it stay");
    }
    for room in [image.len() - 1, 5, 0] {
        refuses(what, simh, room, Answer::new(10, 0, 0), from_simh);
    }
}

#[track_caller]
fn refuses(what: &str, simh: &Simh, room: usize, answer: Answer, from_simh: &impl FromSimh) {
    let mut out = vec![0xEE; room];
    let refused = Written { answer, len: 0 };
    assert_eq!(from_simh(&simh.tape, &simh.lengths, &mut out), refused, "{what}, in {room} bytes");
    assert!(out.iter().all(|&byte| byte == 0xEE), "{what}: a refusal changes no byte");
}

pub fn cases() -> Vec<Case> {
    let torn = [cuts(), borders(), leading(), no_ends(), trailing(), padding(), ends(), behind()];
    torn.into_iter().chain([sums(), counts(), over_long()]).flatten().collect()
}

/// Tape files of these bytes, each with its own length.
fn files(files: &[&[u8]]) -> Simh {
    Simh { tape: files.concat(), lengths: files.iter().map(|file| file.len() as u64).collect() }
}

const END: &[u8] = &[0xFF; 4];
const MARK: &[u8] = &[0; 4];
/// A mark and the end.
const SHORT: &[u8] = &[0, 0, 0, 0, 0xFF, 0xFF, 0xFF, 0xFF];
/// Where the items of [`one_reel`] end.
const ENDS: [usize; 4] = [12, 22, 26, 30];

/// The items that stand before this place of one reel, whole.
fn items_before(place: usize) -> usize {
    ENDS.iter().filter(|&&end| end <= place).count()
}

/// One reel with less than all its bytes, at every place: alone, and before and behind another file.
fn cuts() -> Vec<Case> {
    let reason = "a word or block is cut short by the file's end, or the end is missing";
    let tape = one_reel().simh.tape;
    let case = |place| {
        let (cut, item) = (&tape[..place], items_before(place));
        let [alone, before, behind] = [&[cut][..], &[cut, SHORT], &[SHORT, cut]].map(files);
        [
            Case::torn(format!("{place} of 30 bytes"), alone, item, reason),
            Case::torn(format!("{place} of 30 bytes, and a file"), before, item, reason),
            Case::torn(format!("{place} of 30 bytes behind a file"), behind, item + 2, reason),
        ]
    };
    let few = files(&[&[&99_999_u32.to_le_bytes(), SHORT].concat()]);
    let few = Case::torn("8 of 99,999 bytes", few, 0, reason);
    (0..30).flat_map(case).chain([few]).collect()
}

/// Two files with their border at every wrong place, and one file cut in two at every place.
fn borders() -> Vec<Case> {
    let reason = "no word goes over a file's end, and nothing stands behind the end of the medium";
    let tape = one_reel().simh.tape;
    let two = [&tape, SHORT].concat();
    let case = |place: usize| {
        let (simh, item) = (files(&[&two[..place], &two[place..]]), items_before(place));
        Case::torn(format!("a border at {place}, not 30"), simh, item, reason)
    };
    let split = |place: usize| {
        let (simh, item) = (files(&[&tape[..place], &tape[place..]]), items_before(place));
        Case::torn(format!("a file in two at {place}"), simh, item, reason)
    };
    let joined = Case::torn("two files as one", files(&[&two]), 4, reason);
    let wrong = (0..=38).filter(|&place| place != 30).map(case);
    wrong.chain((0..=30).map(split)).chain([joined]).collect()
}

const GAP: &str = "a gap is no good data";
const CLASS: &str = "a record of a class is no good data";
const OVER: &str = "a block has at most 99,999 bytes";
const OTHER: &str = "no other word leads anything";

/// Words that lead nothing in this form, each with the length that a reader might take it for.
const WRONG: [(u32, usize, &str); 21] = [
    (100_000, 100_000, OVER),
    (100_001, 100_001, OVER),
    (0x0002_0003, 131_075, OVER),
    (0x00FF_FFFE, 0, OVER),
    (0x00FF_FFFF, 0, "only in an image it ends a reel"),
    (0x0100_0000, 0, CLASS),
    (0x0100_0002, 2, CLASS),
    (0x0200_0003, 3, CLASS),
    (0x0300_0000, 3, "the low byte of a length comes first"),
    (0x7000_0002, 2, CLASS),
    (0x7FFF_FFFF, 0, CLASS),
    (0x8000_0000, 0, CLASS),
    (0x8000_0002, 2, CLASS),
    (0x8000_0003, 3, CLASS),
    (0x8001_869F, 99_999, CLASS),
    (0xFE00_0002, 2, CLASS),
    (0xFF00_0000, 0, OTHER),
    (0xFFFE_FFFF, 0, GAP),
    (0xFFFF_0000, 0, OTHER),
    (0xFFFF_8000, 0, OTHER),
    (0xFFFF_FFFE, 0, GAP),
];

/// Files and items that stand before a word, and how many items these are.
type Front<'a> = (&'a [&'a [u8]], &'a [u8], usize);

/// Each wrong word alone, and around the bytes that it may lead: as the first item, behind others and in a
/// second file.
fn leading() -> Vec<Case> {
    let two_items = [&one_reel().simh.tape[..12], MARK].concat();
    let fronts: [Front; 3] = [(&[], b"", 0), (&[], &two_items, 2), (&[SHORT], MARK, 3)];
    let mut cases = Vec::new();
    for (word, length, reason) in WRONG {
        let leading = word.to_le_bytes();
        let around = [&leading[..], &vec![0; length + length % 2], &leading].concat();
        for wrong in [&leading[..], &around] {
            for (before, front, item) in fronts {
                let file = [front, wrong, MARK, END].concat();
                let what = format!("{word:08X} as item {item}, {} bytes", wrong.len());
                cases.push(Case::torn(what, files(&[before, &[&file]].concat()), item, reason));
            }
        }
    }
    cases
}

/// An end of the medium with any one bit wrong.
fn no_ends() -> Vec<Case> {
    let case = |bit: u32| {
        let end = u32::to_le_bytes(!(1 << bit));
        let simh = files(&[&[MARK, &end].concat()]);
        Case::torn(format!("an end with bit {bit} wrong"), simh, 1, "only FFFFFFFF is the end")
    };
    (0..32).map(case).collect()
}

/// One reel with another byte at one place.
fn with_byte(place: usize, byte: u8) -> Simh {
    let mut simh = one_reel().simh;
    simh.tape[place] = byte;
    simh
}

/// Each byte of both trailing lengths with every other value.
fn trailing() -> Vec<Case> {
    let places = (8..12).map(|place| (place, 0)).chain((18..22).map(|place| (place, 1)));
    let good = one_reel().simh.tape;
    let case = |place, item, byte| {
        let what = format!("byte {byte:02X} at {place}, in a trailing length");
        Case::torn(what, with_byte(place, byte), item, "both lengths of a block are equal")
    };
    let others = |(place, item)| {
        let other = (0..=255).filter(|&byte| byte != good[place]);
        other.map(|byte| case(place, item, byte)).collect::<Vec<_>>()
    };
    places.flat_map(others).collect()
}

/// The pad byte with every other value; none, or one too many.
fn padding() -> Vec<Case> {
    let zero = "the pad byte is zero";
    let even = "data is padded to an even count, and not beyond it";
    let case = |byte| Case::torn(format!("pad byte {byte:02X}"), with_byte(7, byte), 0, zero);
    let other = |what, file: &[u8], item| Case::torn(what, files(&[file]), item, even);
    let none = b"\x03\0\0\0ABC\x03\0\0\0\xFF\xFF\xFF\xFF";
    let padded = b"\0\0\0\0\x02\0\0\0AB\0\x02\0\0\0\xFF\xFF\xFF\xFF";
    let three = b"\x01\0\0\0A\0\0\0\x01\0\0\0\xFF\xFF\xFF\xFF";
    let more = [
        other("three bytes without a pad byte", none, 0),
        other("two bytes with a pad byte", padded, 1),
        other("one byte with three pad bytes", three, 0),
    ];
    (1..=255).map(case).chain(more).collect()
}

/// Files without an end, of no bytes too: the number of the items read so far.
fn ends() -> Vec<Case> {
    let reason = "a missing end has the number of the items read so far";
    let case = |what, all: &[&[u8]], item| Case::torn(what, files(all), item, reason);
    vec![
        case("a mark alone", &[MARK], 1),
        case("a file of no bytes", &[b""], 0),
        case("two files of no bytes", &[b"", b""], 0),
        case("no bytes, then a file", &[b"", SHORT], 0),
        case("a file, then no bytes", &[SHORT, b""], 2),
        case("no bytes between two files", &[SHORT, b"", SHORT], 2),
        case("marks before a file", &[MARK, SHORT], 1),
        case("marks behind a file", &[SHORT, MARK], 3),
        case("marks behind two files", &[SHORT, SHORT, MARK], 5),
        case("16 files, the last of no bytes", &[&[END; 15][..], &[b""]].concat(), 15),
    ]
}

/// Bytes behind the end of the first, second and last file: the number of the next item.
fn behind() -> Vec<Case> {
    let reason = "bytes behind the end have the next item's number";
    let one = one_reel().simh.tape;
    let case = |more: &[u8]| {
        let all = |front: &[&[u8]], rest: &[&[u8]], item| {
            let torn = [SHORT, more].concat();
            let simh = files(&[front, &[&torn], rest].concat());
            Case::torn(format!("{more:?} behind the end {}", item - 1), simh, item, reason)
        };
        [
            all(&[], &[], 2),
            all(&[], &[SHORT], 2),
            all(&[SHORT], &[END, END], 4),
            all(&[&one, END], &[], 7),
            // A fault in a later file is not the first.
            all(&[], &[b""], 2),
        ]
    };
    [&[0][..], &[0xFF; 3], MARK, END, SHORT, &[1, 0, 0, 0, 7, 0, 1, 0, 0, 0]]
        .into_iter()
        .flat_map(case)
        .collect()
}

const HALF: u64 = 1 << 63;

/// Lengths that don't add up to 30, some of which overflow to it.
const SUMS: [&[u64]; 16] = [
    &[],
    &[0],
    &[0; 17],
    &[29],
    &[31],
    &[26, 5],
    &[30, 1],
    &[30 + (1 << 32)],
    &[u64::MAX],
    &[u64::MAX, 31],
    &[31, u64::MAX],
    &[HALF, HALF + 30],
    &[HALF + 30, HALF],
    &[30, HALF, HALF],
    &[u64::MAX, u64::MAX, 32],
    &[u64::MAX; 20],
];

fn sums() -> Vec<Case> {
    let reason = "lengths that don't add up to the buffer's are 15 at item 0";
    let case = |what: String, tape: &[u8], lengths: &[u64]| {
        let simh = Simh { tape: tape.to_vec(), lengths: lengths.to_vec() };
        Case::torn(what, simh, 0, reason)
    };
    let one = one_reel().simh.tape;
    let wrong = SUMS.map(|lengths| case(format!("30 bytes and {lengths:?}"), &one, lengths));
    let others = [
        case("no bytes and a length of 1".into(), b"", &[1]),
        case("no bytes, and lengths whose sum overflows to 0".into(), b"", &[HALF, HALF]),
        case("a mark without an end, and a length of 5".into(), MARK, &[5]),
    ];
    wrong.into_iter().chain(others).collect()
}

/// 2 is behind 15, which is looked for in every file.
fn counts() -> Vec<Case> {
    let number = "a set has 1 to 16 files";
    let first = "15 is looked for in all files before 2";
    let ends = |count: usize, more: &[&[u8]]| files(&[&vec![END; count][..], more].concat());
    let two = |what, simh| Case::new(what, simh, (2, 0, 0), number);
    let torn = |what, simh, item| Case::torn(what, simh, item, first);
    let cut = [MARK, &[1]].concat();
    let longer = [END, &[0]].concat();
    vec![
        two("no bytes and no lengths", Simh::default()),
        two("17 files", ends(17, &[])),
        two("300 files", ends(300, &[])),
        torn("a 17th file of no bytes", ends(16, &[b""]), 16),
        torn("a 17th file without an end", ends(16, &[MARK]), 17),
        torn("a 17th file cut short", ends(16, &[&cut]), 17),
        torn("a 17th file with a byte behind its end", ends(16, &[&longer]), 17),
        torn("an 18th file of no bytes", ends(17, &[b""]), 17),
        torn("a 301st file without an end", ends(300, &[MARK, END]), 301),
        torn("no bytes, then 16 files", files(&[&[&b""[..]], &[END; 16][..]].concat()), 0),
    ]
}

/// 14 is behind 15 and 2.
fn over_long() -> Vec<Case> {
    let over = "an image has at most 16,777,215 bytes";
    let first = "15, then 2, go before 14";
    let ends = |count| vec![EndOfReel; count];
    let of = |items: &[Vec<Piece>], behind: &[u8]| {
        let mut simh = Simh::of(&items.concat());
        simh.tape.extend(behind);
        *simh.lengths.last_mut().expect("a file") += behind.len() as u64;
        simh
    };
    let fourteen = |what, items: &[Vec<Piece>]| Case::new(what, of(items, &[]), (14, 0, 0), over);
    let torn = |what, items: &[Vec<Piece>], item| Case::torn(what, of(items, &[0]), item, first);
    let too_many = of(&[long(1), ends(16)], &[]);
    vec![
        fourteen("one byte too many", &[long(1)]),
        fourteen("an end too many", &[long(0), ends(1)]),
        fourteen("twice the most bytes", &[long(0), long(0)]),
        torn("a byte too many, and one behind the end", &[long(1)], 169),
        torn("twice the most bytes, and one behind the end", &[long(0), long(0)], 338),
        Case::new("17 files", too_many, (2, 0, 0), first),
        torn("17 files and a byte", &[long(1), ends(16)], 185),
    ]
}
