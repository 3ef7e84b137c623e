//! Steps of walks from states that are known, reached by a walk or not.

use crate::ledger::*;
use oracle::generate::image_of;
use oracle::{Found, Walk};

/// What a step gives: the record, with the place and length of what is left behind it; or the number.
pub type Step = Result<(Found, (u64, u64)), u32>;

pub struct Case {
    pub what: &'static str,
    pub image: Vec<u8>,
    pub walk: Walk,
    pub room: usize,
    pub gives: Step,
}

/// Holds the step to every case. With a refusal and with a record of one unit no byte of the buffer changes.
#[track_caller]
pub fn run(step: impl Fn(Walk, &[u8], &mut [u8]) -> Result<(Found, Walk), u32>) {
    for Case { what, image, walk, room, gives } in cases() {
        let mut join = vec![0xEE; room];
        let given = step(walk, &image, &mut join);
        let due = gives.map(|(found, (at, left))| (found, Walk { at, left, ..walk }));
        assert_eq!(given, due, "{what}");
        if !matches!(due, Ok((Found::Joined { .. }, _))) {
            assert!(join.iter().all(|&byte| byte == 0xEE), "{what}: no byte changes");
        }
    }
}

/// A state, by format, R, offset length, place and bytes left.
fn state((format, size): (impl Into<u32>, u32), offset: u64, at: u64, left: u64) -> Walk {
    Walk { format: format.into(), size, offset, at, left }
}

fn in_image(start: usize, len: usize, at: u64, left: u64) -> Step {
    Ok((Found::InImage { start, len }, (at, left)))
}

pub fn cases() -> Vec<Case> {
    [ledger_states(), other_places(), segment_states(), over_long()].into_iter().flatten().collect()
}

/// The LEDGER set: its block is the item at 257, the record's ten bytes stand at 260.
fn ledger_states() -> Vec<Case> {
    let case = |what, walk, gives| Case { what, image: image_of(&base()), walk, room: 9, gives };
    let (f, most) = ((b'F', 10), u64::MAX);
    let whole = in_image(260, 10, 270, 0);
    vec![
        case("the beginning", state(f, 0, 257, 0), whole),
        case("inside the block", state(f, 0, 260, 10), whole),
        case("behind the last record", state(f, 0, 270, 0), Err(13)),
        case("no format", state((b'U', 10), 0, 257, 0), Err(13)),
        case("format 0", state((0u8, 10), 0, 257, 0), Err(13)),
        case(
            "a format but for its high bytes",
            state((u32::from(b'F') + 256, 10), 0, 257, 0),
            Err(13),
        ),
        case("R 0", state((b'F', 0), 0, 257, 0), Err(13)),
        case("R one too great", state((b'F', 11), 0, 257, 0), Err(13)),
        case("the greatest R", state((b'F', u32::MAX), 0, 257, 0), Err(13)),
        case("another R", state((b'F', 4), 0, 260, 10), in_image(260, 4, 264, 6)),
        case("bytes left that are no unit and no padding", state((b'F', 4), 0, 268, 2), Err(13)),
        case("another offset", state((b'F', 7), 3, 257, 0), in_image(263, 7, 270, 0)),
        case("an offset as long as the block", state(f, 10, 257, 0), Err(13)),
        case("an offset longer than the block", state(f, 11, 257, 0), Err(13)),
        case("the greatest offset", state(f, most, 257, 0), Err(13)),
        case("the offset is of the next block", state(f, most, 260, 10), whole),
        case("D, where no control word stands", state((b'D', 10), 0, 260, 10), Err(13)),
        case("D, whose length is past the block", state((b'D', 999), 0, 260, 10), Err(13)),
        case("S, whose length is past the block", state((b'S', 9999), 0, 260, 10), Err(13)),
        case("the greatest place", state(f, 0, most, 0), Err(13)),
        case("all that is greatest", state((b'F', u32::MAX), most, most, most), Err(13)),
        case("a sum that overflows", state(f, 0, 260, most - 259), Err(13)),
        case("a block past the image", state(f, 0, 447, 2), Err(13)),
        case("a place past the image", state(f, 0, 449, 0), Err(13)),
        case("the end of the image", state(f, 0, 448, 0), Err(13)),
    ]
}

/// Places of the LEDGER set that are not in its data: every place is taken as one between two items in the
/// data of a file, or as one inside a block.
fn other_places() -> Vec<Case> {
    let case = |what, walk, gives| Case { what, image: image_of(&base()), walk, room: 0, gives };
    let label = (b'F', 80);
    vec![
        case("the head of the image", state(label, 0, 0, 0), Err(13)),
        case("VOL1 as a data block", state(label, 0, 5, 0), in_image(8, 80, 88, 0)),
        case("HDR1 as a data block", state(label, 0, 88, 0), in_image(91, 80, 171, 0)),
        case("the mark before the data", state(label, 0, 254, 0), Err(13)),
        case("the mark behind the data", state(label, 0, 270, 0), Err(13)),
        case("EOF1 as a data block", state(label, 0, 273, 0), in_image(276, 80, 356, 0)),
        case("the end of reel", state(label, 0, 445, 0), Err(13)),
        case("bytes of two items", state((b'F', 4), 0, 255, 8), in_image(255, 4, 259, 4)),
    ]
}

/// An S file of `10007AB^^` at 260 and `30006C00005` at 272.
fn segment_states() -> Vec<Case> {
    let blocks: [&[u8]; 2] = [b"10007AB^^", b"30006C00005"];
    let image = image_of(&set_of("S0002000010", "00", &blocks));
    let case = |what, walk, room, gives| Case { what, image: image.clone(), walk, room, gives };
    let s = (b'S', 10);
    let joined = Ok((Found::Joined { len: 3 }, (278, 5)));
    vec![
        case("a joined record", state(s, 0, 257, 0), 9, joined),
        case("a buffer that just holds it", state(s, 0, 257, 0), 3, joined),
        case("a buffer one byte too short", state(s, 0, 257, 0), 2, Err(10)),
        case("R that just allows it", state((b'S', 3), 0, 257, 0), 3, joined),
        case("a joined record over R", state((b'S', 2), 0, 257, 0), 9, Err(13)),
        case("13 goes before 10", state((b'S', 2), 0, 257, 0), 0, Err(13)),
        case("the record behind it", state(s, 0, 278, 5), 0, in_image(283, 0, 283, 0)),
        case("a wrong turn: 3 first", state(s, 0, 272, 11), 9, Err(13)),
        case("padding, then a wrong turn", state(s, 0, 267, 2), 9, Err(13)),
        case("no item behind what is left", state(s, 0, 260, 7), 9, Err(13)),
        case("an offset that the second block has not", state(s, 7, 260, 9), 9, Err(13)),
    ]
}

/// A step looks at the image and its own state alone: not at a head, and not at the length of the image.
fn over_long() -> Vec<Case> {
    let mut image = vec![0; 17_000_000];
    image.extend(b"\x00\x00\x060006AB");
    let walk = state((b'D', 6), 0, 17_000_000, 0);
    let gives = in_image(17_000_007, 2, 17_000_009, 0);
    vec![Case { what: "an image over its length, without a head", image, walk, room: 0, gives }]
}
