//! Order sheets whose answers are known from the papers: the blocks and reels made, and the refusals 9,
//! 11, 12, 14, 10 in this order.

use crate::ledger::*;
use oracle::generate::{image_of, names, Piece, Rng};
use oracle::tape::{Item, Tape};
use oracle::{check, Answer, Order, Sheet, Written};

/// What a sheet gives.
pub enum Gives {
    /// An image that has these data blocks.
    Blocks(Vec<Vec<u8>>),
    Image(Vec<u8>),
    Refusal(u32),
}

pub struct Case {
    pub what: String,
    pub order: Order,
    pub gives: Gives,
}

/// Holds the writer to every case; see [`hold`].
#[track_caller]
pub fn run(cases: &[Case], write: impl Fn(&Sheet, &mut [u8]) -> Written) {
    cases.iter().for_each(|case| hold(case, &write));
}

/// The image is made in a buffer that just holds it and in a longer one, of which the other bytes stay;
/// with one byte less the number is 10. A refusal changes no byte.
#[track_caller]
fn hold(case: &Case, write: &impl Fn(&Sheet, &mut [u8]) -> Written) {
    let Case { what, order, gives } = case;
    let mut out = vec![0xEE; 200_000];
    let written = write(&order.sheet(), &mut out);
    let image = match gives {
        Gives::Refusal(number) => {
            let refused = Written { answer: Answer::new(*number, 0, 0), len: 0 };
            assert_eq!(written, refused, "{what}");
            assert!(out.iter().all(|&byte| byte == 0xEE), "{what}: a refusal changes no byte");
            return;
        }
        Gives::Image(image) => image.clone(),
        Gives::Blocks(blocks) => {
            let image = out[..written.len].to_vec();
            assert_eq!(data_blocks(&image), *blocks, "{what}");
            image
        }
    };
    let done = Written { answer: Answer::DONE, len: image.len() };
    assert_eq!(written, done, "{what}");
    assert_eq!(check(&image), Answer::DONE, "{what}: what is written is accepted");
    assert!(out[..image.len()] == image, "{what}: the image");
    assert!(out[image.len()..].iter().all(|&byte| byte == 0xEE), "{what}: bytes behind it stay");
    let mut exact = vec![0xEE; image.len()];
    assert_eq!(write(&order.sheet(), &mut exact), done, "{what}: a buffer that just holds it");
    assert!(exact == image, "{what}: a buffer that just holds it");
    let mut short = vec![0xEE; image.len() - 1];
    let refused = Written { answer: Answer::new(10, 0, 0), len: 0 };
    assert_eq!(write(&order.sheet(), &mut short), refused, "{what}: one byte too short");
    assert!(short.iter().all(|&byte| byte == 0xEE), "{what}: one byte too short");
}

/// The blocks of an image of other lengths than a label's.
pub fn data_blocks(image: &[u8]) -> Vec<Vec<u8>> {
    let mut tape = Tape::open(image).expect("an image");
    let mut blocks = Vec::new();
    while let Ok(Some(item)) = tape.next_item() {
        match item {
            Item::Block(block) if block.len() != 80 => blocks.push(block.to_vec()),
            _ => {}
        }
    }
    blocks
}

pub fn cases() -> Vec<Case> {
    let made = [whole_set(), packed_blocks(), quota()];
    let refused = [names_and_quota(), fields(), records(), sums()];
    made.into_iter().chain(refused).flatten().collect()
}

/// A file as LEDGER, but of this shape.
fn begin(order: &mut Order, shape: &str, records: &[&[u8]]) {
    order.begin_file(format!("LEDGER           000100 85335 00000{shape}").as_bytes());
    records.iter().for_each(|record| order.push_record(record));
}

/// A sheet of one file on one reel.
pub fn order(shape: &str, records: &[&[u8]]) -> Order {
    let mut order = Order { set: b"SET001".to_vec(), quota: 999_999, ..Order::default() };
    order.names = b"GATE01".to_vec();
    begin(&mut order, shape, records);
    order
}

/// The sheet of document 01's whole set.
pub fn ledger() -> Order {
    Order { quota: 1, ..order(LEDGER, &[b"0123456789"]) }
}

fn ledger_with(change: impl Fn(&mut Order)) -> Order {
    let mut order = ledger();
    change(&mut order);
    order
}

fn refused(what: &str, order: Order, number: u32) -> Case {
    Case { what: what.into(), order, gives: Gives::Refusal(number) }
}

fn makes(shape: &str, records: &[&[u8]], blocks: &[&[u8]]) -> Case {
    let gives = Gives::Blocks(blocks.iter().map(|block| block.to_vec()).collect());
    Case { what: format!("{shape}, {records:.3?}"), order: order(shape, records), gives }
}

fn whole_set() -> Vec<Case> {
    let image = image_of(&base());
    assert_eq!((base().len(), image.len()), (11, 448));
    vec![Case { what: "the whole set".into(), order: ledger(), gives: Gives::Image(image) }]
}

fn packed_blocks() -> Vec<Case> {
    let long = [b'y'; 9_995];
    let segment = [&b"19999"[..], &long[1..]].concat();
    let unit = [&b"9999"[..], &long].concat();
    vec![
        makes("F0000500002", &[b"AB", b"CD", b"EF"], &[b"ABCD", b"EF"]),
        makes("F0000500002", &[], &[]),
        makes(
            "D0001000010",
            &[b"AB", b"", b"ABCDEF", b""],
            &[b"0006AB0004", b"0010ABCDEF", b"0004"],
        ),
        makes("S0001200020", &[b"ABCDEFGHIJ", b""], &[b"10012ABCDEFG", b"30008HIJ", b"00005"]),
        makes("S0001100010", &[b"A", b"", b"B"], &[b"00006A00005", b"00006B"]),
        makes("S0001100010", &[b"A", b"B"], &[b"00006A", b"00006B"]),
        makes("S0001200010", &[b"A", b"BC"], &[b"00006A10006B", b"30006C"]),
        makes("S0000600003", &[b"ABC"], &[b"10006A", b"20006B", b"30006C"]),
        makes("S2000010000", &[&long, b"z"], &[&segment, b"30006y00006z"]),
        makes("D1000010000", &[&long], &[&unit]),
        makes("D9999999999", &[&long], &[&unit]),
        makes("S0000699999", &[b"ABC"], &[b"10006A", b"20006B", b"30006C"]),
    ]
}

fn headers(section: &str, sequence: &str) -> [Piece; 3] {
    [first("HDR1", section, sequence, "000000"), second("HDR2", LEDGER, "00"), TapeMark]
}

/// The quota counts the blocks of the reel, over all its files; an empty file needs no other reel.
fn quota() -> Vec<Case> {
    let mut sheet = ledger();
    begin(&mut sheet, LEDGER, &[b"9876543210"]);
    begin(&mut sheet, LEDGER, &[]);
    sheet.names = b"GATE01GATE02".to_vec();
    let mut pieces = cut(base(), 9);
    pieces.extend(headers("0001", "0002"));
    pieces.extend([
        TapeMark,
        first("EOV1", "0001", "0002", "000000"),
        second("EOV2", LEDGER, "00"),
        TapeMark,
        TapeMark,
        EndOfReel,
        volume("GATE02"),
    ]);
    pieces.extend(headers("0002", "0002"));
    pieces.extend([
        block("9876543210"),
        TapeMark,
        first("EOF1", "0002", "0002", "000001"),
        second("EOF2", LEDGER, "00"),
        TapeMark,
    ]);
    pieces.extend(headers("0001", "0003"));
    pieces.extend([
        TapeMark,
        first("EOF1", "0001", "0003", "000000"),
        second("EOF2", LEDGER, "00"),
        TapeMark,
        TapeMark,
        EndOfReel,
    ]);
    let too_few = Order { names: b"GATE01".to_vec(), ..sheet.clone() };
    let image = Gives::Image(image_of(&pieces));
    vec![
        Case {
            what: "two blocks at quota 1, and an empty file".into(),
            order: sheet,
            gives: image,
        },
        refused("one name where two reels are needed", too_few, 12),
    ]
}

fn names_and_quota() -> Vec<Case> {
    let seventeen = names(&mut Rng::new(1), 17);
    let with_names = |names: &[u8]| ledger_with(|o| o.names = names.to_vec());
    let no_file = |names: &[u8]| Order {
        names: names.to_vec(),
        set: b"SET001".to_vec(),
        quota: 1,
        ..Order::default()
    };
    vec![
        refused("no names", with_names(b""), 11),
        refused("17 names", with_names(&seventeen), 9),
        refused("17 names and a byte", with_names(&[&seventeen[..], b"A"].concat()), 9),
        refused("17 equal names", with_names(&b"GATE01".repeat(17)), 9),
        refused("16 names and five bytes", with_names(&seventeen[..101]), 11),
        refused("17 names and no file", no_file(&seventeen), 9),
        refused("nothing but 17 names", Order { names: seventeen, ..Order::default() }, 9),
        refused("nothing at all", Order::default(), 11),
        refused("no file", no_file(b"GATE01"), 11),
        refused("an unused name must be legal", with_names(b"GATE01gate02"), 11),
        refused("two equal names", with_names(b"GATE01GATE02GATE01"), 11),
        refused("a name of five bytes", with_names(b"GATE0"), 11),
        refused("quota 0", ledger_with(|o| o.quota = 0), 11),
        refused("quota a million", ledger_with(|o| o.quota = 1_000_000), 11),
        refused("the greatest quota", ledger_with(|o| o.quota = u64::MAX), 11),
        refused("a set identifier of five bytes", ledger_with(|o| o.set.truncate(5)), 11),
        refused("a set identifier of seven bytes", ledger_with(|o| o.set.push(b' ')), 11),
        refused("a set identifier of other characters", ledger_with(|o| o.set[0] = b'^'), 11),
    ]
}

fn fields() -> Vec<Case> {
    let field = |at: usize, text: &str| {
        ledger_with(|o| o.files[at..at + text.len()].copy_from_slice(text.as_bytes()))
    };
    let many = |count: usize| ledger_with(|o| o.files = vec![0; 46 * count]);
    vec![
        refused("a file identifier of other characters", field(16, "a"), 11),
        refused("generation 0000", field(17, "0000"), 11),
        refused("a version of other characters", field(21, " 1"), 11),
        refused("created on day 000", field(23, " 85000"), 11),
        refused("expired on day 367", field(29, " 85367"), 11),
        refused("format U", field(35, "U"), 11),
        refused("B 00000", field(36, "00000"), 11),
        refused("R 00000", field(41, "00000"), 11),
        refused("R over B", field(41, "00021"), 11),
        refused("64 files, all wrong", many(64), 11),
        refused("65 files, legal or not", many(65), 9),
        refused("65 files and 45 bytes", ledger_with(|o| o.files = vec![0; 46 * 66 - 1]), 9),
        refused("64 files and 45 bytes", ledger_with(|o| o.files = vec![0; 46 * 65 - 1]), 11),
    ]
}

fn records() -> Vec<Case> {
    let longer = [0; 9_996];
    vec![
        refused("a record of padding alone", order("F0002000004", &[b"^^^^"]), 11),
        refused("a record not of R bytes", order("F0002000004", &[b"ABC"]), 11),
        refused("a record of no bytes", order("F0002000004", &[b""]), 11),
        refused("a D record over R - 4 bytes", order("D0002000010", &[b"ABCDEFG"]), 11),
        refused("a D record of 9,996 bytes", order("D1000010000", &[&longer]), 11),
        refused("a D record of 9,996 bytes, whatever R says", order("D9999999999", &[&longer]), 11),
        refused("D with R 4", order("D0002000004", &[]), 11),
        refused("S with B 5", order("S0000500010", &[]), 11),
        refused("an S record over R", order("S0002000003", &[b"ABCD"]), 11),
    ]
}

fn sums() -> Vec<Case> {
    let with = |counts: &[u64], lengths: &[u64], data: &[u8]| {
        ledger_with(|o| {
            (o.counts, o.lengths, o.data) = (counts.to_vec(), lengths.to_vec(), data.to_vec())
        })
    };
    let ten = b"0123456789";
    let wrapping = "lengths whose sum overflows to the data's length";
    let two_files = |counts: &[u64]| {
        let mut order = ledger_with(|o| o.counts = counts.to_vec());
        order.files.extend_from_within(..);
        order
    };
    let over_counts = two_files(&[2, u64::MAX]);
    vec![
        refused("a file cut short", ledger_with(|o| o.files.truncate(45)), 11),
        refused("a count too many", with(&[1, 0], &[10], ten), 11),
        refused("no count", with(&[], &[10], ten), 11),
        refused("a count too great", with(&[2], &[10], ten), 11),
        refused("a count too small", with(&[0], &[10], ten), 11),
        refused("a length too many", with(&[1], &[10, 0], ten), 11),
        refused("a length too few", with(&[1], &[], ten), 11),
        refused("a byte too many", with(&[1], &[10], b"0123456789A"), 11),
        refused("a byte too few", with(&[1], &[10], &ten[..9]), 11),
        refused(wrapping, with(&[2], &[u64::MAX, 11], ten), 11),
        refused("the greatest length", with(&[1], &[u64::MAX], ten), 11),
        refused("the greatest count", with(&[u64::MAX], &[10], ten), 11),
        refused("counts whose sum overflows to the number of lengths", over_counts, 11),
    ]
}
