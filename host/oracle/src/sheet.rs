//! Knows the order sheet: a meaning, a quota and reel names in flat form, and whether it is legal.

use crate::block::{cut, Shape, PAD};
use crate::content::{begins, Meaning, Part, Parts, FACTS};
use crate::label::{
    label_fault, End, Field, Kind, Label, BLOCK_COUNT, BLOCK_LENGTH, CREATION, EXPIRATION, FILE_ID,
    FORMAT, GENERATION, NAME, OFFSET_LENGTH, RECORD_LENGTH, SECTION, SEQUENCE, SET_ID, VERSION,
    VERSION_OF_STANDARD, VOLUME_ID,
};
use crate::set::MOST_FILES;
use crate::tape::MOST_REELS;
use crate::Answer;

pub const MOST_QUOTA: u64 = 999_999;
pub const NAME_LENGTH: usize = 6;
/// The longest record of a D file, whose four digits count themselves.
const MOST_VARIABLE: u64 = 9_995;

/// An order sheet as it is lent: 46 bytes a file, the number of records of each file, the length of
/// each record, the bytes of all records end to end, 6 bytes a reel name.
#[derive(Clone, Copy, Debug)]
pub struct Sheet<'a> {
    pub set: &'a [u8],
    pub files: &'a [u8],
    pub counts: &'a [u64],
    pub lengths: &'a [u64],
    pub data: &'a [u8],
    pub quota: u64,
    pub names: &'a [u8],
}

/// An order sheet that owns its parts.
#[derive(Clone, Debug, Default, PartialEq, Eq)]
pub struct Order {
    pub set: Vec<u8>,
    pub files: Vec<u8>,
    pub counts: Vec<u64>,
    pub lengths: Vec<u64>,
    pub data: Vec<u8>,
    pub quota: u64,
    pub names: Vec<u8>,
}

/// One file of a legal sheet: its fields, the lengths of its records and their bytes.
pub struct FileOrder<'a> {
    pub facts: &'a [u8],
    pub lengths: &'a [u64],
    pub data: &'a [u8],
}

impl Order {
    pub fn sheet(&self) -> Sheet<'_> {
        Sheet {
            set: &self.set,
            files: &self.files,
            counts: &self.counts,
            lengths: &self.lengths,
            data: &self.data,
            quota: self.quota,
            names: &self.names,
        }
    }

    /// The sheet with this meaning.
    pub fn with_meaning(meaning: &Meaning, quota: u64, names: &[u8]) -> Order {
        let mut order = Order { quota, names: names.to_vec(), ..Order::default() };
        order.set.extend_from_slice(&meaning.set);
        for file in &meaning.files {
            order.begin_file(&file.facts);
            file.records.iter().for_each(|record| order.push_record(record));
        }
        order
    }

    /// The sheet with the meaning of this image; the image's own number where it is refused.
    pub fn of_image(image: &[u8], quota: u64, names: &[u8]) -> Result<Order, Answer> {
        let parts = Parts::of(image)?;
        let mut order = Order { quota, names: names.to_vec(), ..Order::default() };
        order.data.reserve(image.len());
        let mut shape = None;
        for part in parts {
            match part {
                Part::File(head) => {
                    order.set.clear();
                    order.set.extend_from_slice(SET_ID.of(head.first));
                    order.begin_file(&head.facts());
                    shape = Some(Shape::of(head.second));
                }
                Part::Data { block, .. } => order.push_block(&shape.expect("a file"), block),
            }
        }
        Ok(order)
    }

    pub fn begin_file(&mut self, facts: &[u8]) {
        self.files.extend_from_slice(facts);
        self.counts.push(0);
    }

    pub fn push_record(&mut self, record: &[u8]) {
        self.open_record();
        self.extend_record(record);
    }

    fn push_block(&mut self, shape: &Shape, block: &[u8]) {
        cut(shape, block, |unit| {
            if begins(unit) {
                self.open_record();
            }
            self.extend_record(&block[unit.start..unit.start + unit.len]);
        });
    }

    fn open_record(&mut self) {
        *self.counts.last_mut().expect("a file is begun") += 1;
        self.lengths.push(0);
    }

    fn extend_record(&mut self, bytes: &[u8]) {
        *self.lengths.last_mut().expect("a record is open") += bytes.len() as u64;
        self.data.extend_from_slice(bytes);
    }
}

impl<'a> Sheet<'a> {
    /// 9 or 11 where the sheet can't be written whatever the reels and the room.
    pub fn refusal(&self) -> Option<u32> {
        let reels = reels_refusal(self.quota, self.names);
        if self.files.len() / FACTS > MOST_FILES as usize || reels == Some(9) {
            return Some(9);
        }
        (reels.is_some() || !self.adds_up() || !self.files_legal()).then_some(11)
    }

    /// Taken from what is left over, since a sum of lent numbers could overflow.
    fn adds_up(&self) -> bool {
        let spend = |left: u64, &part: &u64| left.checked_sub(part);
        !self.files.is_empty()
            && self.files.len() == self.counts.len() * FACTS
            && self.counts.iter().try_fold(self.lengths.len() as u64, spend) == Some(0)
            && self.lengths.iter().try_fold(self.data.len() as u64, spend) == Some(0)
    }

    fn files_legal(&self) -> bool {
        self.set.len() == SET_ID.width && self.files().all(|file| file.is_legal(self.set))
    }

    /// The files of a sheet that adds up.
    pub fn files(&self) -> impl Iterator<Item = FileOrder<'a>> {
        let (mut lengths, mut data) = (self.lengths, self.data);
        self.files.chunks_exact(FACTS).zip(self.counts).map(move |(facts, &count)| {
            let (own, rest) = lengths.split_at(count as usize);
            lengths = rest;
            let (bytes, rest) = data.split_at(own.iter().sum::<u64>() as usize);
            data = rest;
            FileOrder { facts, lengths: own, data: bytes }
        })
    }
}

/// 9 or 11 where these reels can't be written on: too many names, or an illegal quota or name.
pub fn reels_refusal(quota: u64, names: &[u8]) -> Option<u32> {
    if names.len() / NAME_LENGTH > MOST_REELS as usize {
        return Some(9);
    }
    let names: Vec<&[u8]> = names.chunks(NAME_LENGTH).collect();
    let legal = |(i, name): (usize, &&[u8])| {
        name.len() == NAME_LENGTH
            && !names[..i].contains(name)
            && label_fault(&volume_label(name), Kind::Volume(1)).is_none()
    };
    let all_legal = !names.is_empty() && names.iter().enumerate().all(legal);
    (!all_legal || !(1..=MOST_QUOTA).contains(&quota)).then_some(11)
}

impl FileOrder<'_> {
    /// The reader's own rules decide over the labels that would be written.
    fn is_legal(&self, set: &[u8]) -> bool {
        let first = first_label(b"HDR1", self.facts, set, 1, 1, 0);
        let second = second_label(b"HDR2", self.facts);
        label_fault(&first, Kind::Header(1)).is_none()
            && label_fault(&second, Kind::Header(2)).is_none()
            && self.records_legal(Shape::of(&second))
    }

    fn records_legal(&self, shape: Shape) -> bool {
        let most = shape.record as u64;
        match shape.format {
            b'F' => {
                let blank = |record: &[u8]| record.iter().all(|&byte| byte == PAD);
                self.lengths.iter().all(|&length| length == most)
                    && !self.data.chunks_exact(shape.record).any(blank)
            }
            b'D' => self.lengths.iter().all(|&length| length <= (most - 4).min(MOST_VARIABLE)),
            _ => self.lengths.iter().all(|&length| length <= most),
        }
    }
}

/// VOL1 as the writer makes it.
pub fn volume_label(name: &[u8]) -> Label {
    let mut label = [b' '; 80];
    NAME.put(&mut label, b"VOL1");
    VOLUME_ID.put(&mut label, name);
    VERSION_OF_STANDARD.put(&mut label, b"4");
    label
}

/// HDR1, EOV1 or EOF1 as the writer makes it.
pub fn first_label(
    name: &[u8; 4],
    facts: &[u8],
    set: &[u8],
    section: u64,
    sequence: u64,
    blocks: u64,
) -> Label {
    let mut label = [b' '; 80];
    NAME.put(&mut label, name);
    FILE_ID.put(&mut label, &facts[..17]);
    SET_ID.put(&mut label, set);
    put_number(&mut label, SECTION, section);
    put_number(&mut label, SEQUENCE, sequence);
    GENERATION.put(&mut label, &facts[17..21]);
    VERSION.put(&mut label, &facts[21..23]);
    CREATION.put(&mut label, &facts[23..29]);
    EXPIRATION.put(&mut label, &facts[29..35]);
    put_number(&mut label, BLOCK_COUNT, blocks);
    label
}

/// HDR2, EOV2 or EOF2 as the writer makes it, with offset 00.
pub fn second_label(name: &[u8; 4], facts: &[u8]) -> Label {
    let mut label = [b' '; 80];
    NAME.put(&mut label, name);
    FORMAT.put(&mut label, &facts[35..36]);
    BLOCK_LENGTH.put(&mut label, &facts[36..41]);
    RECORD_LENGTH.put(&mut label, &facts[41..46]);
    put_number(&mut label, OFFSET_LENGTH, 0);
    label
}

fn put_number(label: &mut Label, field: Field, value: u64) {
    field.put(label, format!("{value:0width$}", width = field.width).as_bytes());
}

/// The names of a pair of trailers.
pub fn trailer_names(end: End) -> (&'static [u8; 4], &'static [u8; 4]) {
    match end {
        End::File => (b"EOF1", b"EOF2"),
        End::Volume => (b"EOV1", b"EOV2"),
    }
}
