//! Makes order sheets, legal ones and illegal ones of every kind, and large images from them.

use super::file::{bytes, facts, fixed_record, shape};
use super::Rng;
use crate::block::Shape;
use crate::sheet::Order;

/// So many reel names, all legal and different.
pub fn names(rng: &mut Rng, count: usize) -> Vec<u8> {
    let first = rng.below(90_000);
    let name = |i| format!("{}{:05}", (b'A' + (first % 26) as u8) as char, first + i);
    (0..count).map(name).collect::<String>().into_bytes()
}

/// A legal order sheet; its reel names may still be too few.
pub fn legal_order(rng: &mut Rng) -> Order {
    let mut order = Order { set: vec![b' '; 6], ..Order::default() };
    let letters = rng.below(7);
    rng.fill(&mut order.set[..letters], Rng::a_character);
    let files = match rng.below(60) {
        0 => 64,
        1..=4 => rng.between(4, 20),
        _ => rng.between(1, 3),
    };
    for _ in 0..files {
        let shape = shape(rng);
        order.begin_file(&facts(rng, &shape));
        for _ in 0..rng.below(if files > 3 { 3 } else { 12 }) {
            order.push_record(&record(rng, &shape));
        }
    }
    order.quota = match rng.below(4) {
        0 => 1,
        1 => rng.between(1, 4) as u64,
        2 => rng.between(1, 999_999) as u64,
        _ => 999_999,
    };
    let reels = if rng.one_in(2) { 16 } else { rng.between(1, 16) };
    order.names = names(rng, reels);
    order
}

fn record(rng: &mut Rng, shape: &Shape) -> Vec<u8> {
    let most = match shape.format {
        b'F' => return fixed_record(rng, shape.record),
        b'D' => (shape.record - 4).min(9_995),
        _ => shape.record,
    };
    let len = match rng.below(400) {
        0 => most,
        1..=50 => most.min(120),
        51..=99 => 0,
        _ => rng.below(most.min(40) + 1),
    };
    bytes(rng, len)
}

/// A legal order sheet with one to three things changed; a few stay legal.
pub fn illegal_order(rng: &mut Rng) -> Order {
    let mut order = legal_order(rng);
    for _ in 0..rng.pick(&[1, 1, 1, 2, 3]) {
        match rng.below(4) {
            0 => change_field(rng, &mut order),
            1 => change_names(rng, &mut order),
            2 => change_sums(rng, &mut order),
            _ => change_records(rng, &mut order),
        }
    }
    order
}

fn change_field(rng: &mut Rng, order: &mut Order) {
    let at = rng.below(order.files.len().max(1));
    let shape = at / 46 * 46 + rng.between(35, 45);
    match rng.below(8) {
        0..=2 => put(&mut order.files, at, rng.byte()),
        3 => put(&mut order.files, at, rng.digit()),
        4 => put(&mut order.files, shape, rng.pick(b"FDS0123456789 ")),
        5 => put(&mut order.set, rng.below(6), rng.byte()),
        6 => drop(order.set.pop()),
        _ => order.set.push(b' '),
    }
}

/// Another byte there, where there is one.
fn put(bytes: &mut [u8], at: usize, byte: u8) {
    if let Some(place) = bytes.get_mut(at) {
        *place = byte;
    }
}

fn change_names(rng: &mut Rng, order: &mut Order) {
    let at = rng.below(order.names.len().max(1));
    match rng.below(9) {
        0 => put(&mut order.names, at, rng.byte()),
        1 => order.names.clear(),
        2 => drop(order.names.pop()),
        3 => order.names.extend_from_within(..order.names.len().min(6)),
        4 => order.names = names(rng, 17),
        5 => order.quota = 0,
        6 => order.quota = rng.pick(&[1_000_000, u64::MAX]),
        7 => order.names.extend(b"GATE0^"),
        _ => order.names.truncate(6),
    }
}

fn change_sums(rng: &mut Rng, order: &mut Order) {
    let some = rng.below(order.counts.len().max(1));
    match rng.below(12) {
        0 => drop(order.counts.pop()),
        1 => order.counts.push(rng.below(2) as u64),
        2 => add(&mut order.counts, some, 1),
        3 => add(&mut order.counts, 0, u64::MAX),
        4 => drop(order.lengths.pop()),
        5 => order.lengths.push(rng.pick(&[0, 1, u64::MAX])),
        6 => order.data.push(rng.byte()),
        7 => drop(order.data.pop()),
        8 => drop(order.files.pop()),
        // Two numbers whose sum is right but for its overflow.
        9 => overflow(rng, &mut order.counts),
        10 => overflow(rng, &mut order.lengths),
        _ => {
            let more = rng.pick(&[0, 64, 65]);
            let file: Vec<u8> = order.files.get(..46).unwrap_or_default().to_vec();
            order.files = file.repeat(more);
            order.counts.resize(more, 0);
        }
    }
}

/// A number made greater, where there is one.
pub fn add(numbers: &mut [u64], at: usize, more: u64) {
    if let Some(number) = numbers.get_mut(at) {
        *number = number.wrapping_add(more);
    }
}

fn overflow(rng: &mut Rng, numbers: &mut [u64]) {
    if let [first, .., last] = numbers {
        let more = rng.pick(&[1 << 63, u64::MAX, u64::MAX - 99]);
        *first = first.wrapping_add(more);
        *last = last.wrapping_sub(more);
    }
}

/// Records of a wrong length, or of padding bytes alone.
fn change_records(rng: &mut Rng, order: &mut Order) {
    if order.lengths.is_empty() {
        return change_sums(rng, order);
    }
    let at = rng.below(order.lengths.len());
    let before = order.lengths[..at].iter().fold(0, |sum: u64, &len| sum.saturating_add(len));
    let end = before.saturating_add(order.lengths[at]).min(order.data.len() as u64);
    let own = before.min(end) as usize..end as usize;
    if rng.one_in(2) {
        order.data[own].fill(b'^');
        return;
    }
    // Lengths that four digits can just say, and just not, among them.
    let len = own.len();
    let grow =
        rng.pick(&[len + 1, len + 1, len + 4, len + 40, 9_995, 9_996, 10_000]).max(len) - len;
    add(&mut order.lengths, at, grow as u64);
    let extra = vec![b'X'; grow];
    order.data.splice(own.end..own.end, extra);
}

/// The kinds of large images that benchmarks read.
#[derive(Clone, Copy, Debug, PartialEq, Eq)]
pub enum Large {
    /// D records of 80 bytes in blocks of 32,760.
    Variable,
    /// F records of 80 bytes in blocks of 800.
    Fixed,
    /// S records of 5,000 bytes in blocks of 4,096.
    Segmented,
    /// S records of 80 bytes in blocks of 4,096.
    Short,
    /// D records of 6 bytes, each in a block of 10.
    Tiny,
    /// D records of 6 bytes in blocks of 32,760.
    Packed,
    /// S records of 6 bytes, each in a block of 11.
    Eleven,
    /// S records of 7 bytes, each in a block of 12.
    Twelve,
    /// D records of 80 bytes in blocks of 4,096: 64 files on 16 reels.
    Files,
}

impl Large {
    pub const ALL: [Large; 9] = [
        Large::Variable,
        Large::Fixed,
        Large::Segmented,
        Large::Short,
        Large::Tiny,
        Large::Packed,
        Large::Eleven,
        Large::Twelve,
        Large::Files,
    ];

    pub fn files(self) -> usize {
        match self {
            Large::Files => 64,
            _ => 1,
        }
    }

    /// Blocks a reel, where each file has so many records.
    fn quota(self, records: usize) -> u64 {
        match self {
            // Four of the 64 files, with 48 records a block.
            Large::Files => 4 * records.div_ceil(48) as u64,
            _ => 999_999,
        }
    }

    fn shape(self) -> (Shape, usize) {
        let shape = |format, block, record| Shape { format, block, record, offset: 0 };
        match self {
            Large::Variable => (shape(b'D', 32_760, 84), 80),
            Large::Fixed => (shape(b'F', 800, 80), 80),
            Large::Segmented => (shape(b'S', 4_096, 5_000), 5_000),
            Large::Short => (shape(b'S', 4_096, 80), 80),
            Large::Tiny => (shape(b'D', 10, 10), 6),
            Large::Packed => (shape(b'D', 32_760, 10), 6),
            Large::Eleven => (shape(b'S', 11, 6), 6),
            Large::Twelve => (shape(b'S', 12, 7), 7),
            Large::Files => (shape(b'D', 4_096, 84), 80),
        }
    }

    /// Bytes of the image for each record, about.
    fn cost(self) -> usize {
        match self {
            Large::Variable | Large::Files => 84,
            Large::Fixed => 81,
            Large::Segmented => 5_011,
            Large::Short => 86,
            Large::Tiny => 13,
            Large::Packed => 10,
            Large::Eleven => 14,
            Large::Twelve => 15,
        }
    }
}

/// The sheet of a set whose image has about so many bytes.
pub fn large_order(kind: Large, size: usize) -> Order {
    let rng = &mut Rng::new(1);
    let (shape, len) = kind.shape();
    let records = size / kind.cost() / kind.files();
    let quota = kind.quota(records);
    let mut order = Order { set: b"LARGE ".to_vec(), quota, ..Order::default() };
    let mut record = vec![0; len];
    for _ in 0..kind.files() {
        order.begin_file(&facts(rng, &shape));
        for _ in 0..records {
            rng.fill(&mut record, Rng::a_character);
            order.push_record(&record);
        }
    }
    order.names = names(rng, 16);
    order
}

/// An accepted image of about so many bytes.
pub fn large(kind: Large, size: usize) -> Vec<u8> {
    written(&large_order(kind, size), size + size / 8 + 20_000)
}

/// An accepted image that is nearly all labels: 64 files of one short record each, on 16 reels. The
/// identifiers of its files are of capitals, digits and SPACE, or of any a-characters.
pub fn many_files(plain: bool) -> Vec<u8> {
    let rng = &mut Rng::new(1);
    let shape = Shape { format: b'D', block: 84, record: 84, offset: 0 };
    let names = names(rng, 16);
    let mut order = Order { set: b"LABELS".to_vec(), quota: 4, names, ..Order::default() };
    for file in 1..=64 {
        let mut facts = facts(rng, &shape);
        rng.fill(&mut facts[..17], Rng::a_character);
        if plain {
            facts[..17].copy_from_slice(format!("PAYROLL 1984 W {file:02}").as_bytes());
        }
        order.begin_file(&facts);
        order.push_record(b"1 record");
    }
    written(&order, 100_000)
}

/// The image of a legal sheet, where so much room is enough.
fn written(order: &Order, room: usize) -> Vec<u8> {
    let mut image = vec![0; room];
    let written = order.sheet().write(&mut image);
    assert!(written.answer.is_done(), "the sheet is legal and its image fits");
    image.truncate(written.len);
    image
}
