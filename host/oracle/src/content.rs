//! Knows what an accepted set holds: its meaning, and its records by number; judges nothing.

use crate::block::{cut, Shape, Unit};
use crate::label::{
    kind_of, Kind, Label, BLOCK_LENGTH, CREATION, EXPIRATION, FILE_ID, FORMAT, GENERATION,
    RECORD_LENGTH, SECTION, SET_ID, VERSION,
};
use crate::tape::{Item, Tape};
use crate::{check, Answer};

/// The bytes of a file's fields that have a meaning, in the order of the labels.
pub const FACTS: usize = 46;

/// A file: its fields as they stand in its labels, end to end, and its records.
#[derive(Clone, Debug, PartialEq, Eq)]
pub struct File {
    pub facts: [u8; FACTS],
    pub records: Vec<Vec<u8>>,
}

impl File {
    pub fn identifier(&self) -> &[u8] {
        &self.facts[..17]
    }
    pub fn generation(&self) -> &[u8] {
        &self.facts[17..21]
    }
    pub fn version(&self) -> &[u8] {
        &self.facts[21..23]
    }
    pub fn creation(&self) -> &[u8] {
        &self.facts[23..29]
    }
    pub fn expiration(&self) -> &[u8] {
        &self.facts[29..35]
    }
    pub fn format(&self) -> u8 {
        self.facts[35]
    }
    pub fn block_length(&self) -> &[u8] {
        &self.facts[36..41]
    }
    pub fn record_length(&self) -> &[u8] {
        &self.facts[41..46]
    }
}

/// What a set means: two sets with equal meanings have the same normal form.
#[derive(Clone, Debug, PartialEq, Eq)]
pub struct Meaning {
    pub set: [u8; 6],
    pub files: Vec<File>,
}

/// Where a record is, or why there is none.
#[derive(Clone, Copy, Debug, PartialEq, Eq)]
pub enum Found {
    InImage { start: usize, len: usize },
    Joined { len: usize },
    Refused(Answer),
}

/// The header labels of a file: those of its section 0001, whose dates are the file's (P2 of document 02).
#[derive(Clone, Copy)]
pub struct Head<'a> {
    pub first: &'a Label,
    pub second: &'a Label,
}

impl Head<'_> {
    pub fn facts(&self) -> [u8; FACTS] {
        let mut facts = [0; FACTS];
        let first = [FILE_ID, GENERATION, VERSION, CREATION, EXPIRATION];
        let second = [FORMAT, BLOCK_LENGTH, RECORD_LENGTH];
        let fields = first.iter().map(|field| field.of(self.first));
        let fields = fields.chain(second.iter().map(|field| field.of(self.second)));
        let mut at = 0;
        for field in fields {
            facts[at..at + field.len()].copy_from_slice(field);
            at += field.len();
        }
        facts
    }
}

/// A part of an accepted set that has a meaning.
pub enum Part<'a> {
    File(Head<'a>),
    Data { start: usize, block: &'a [u8] },
}

/// The files and data blocks of an accepted set, in order.
pub struct Parts<'a> {
    tape: Tape<'a>,
    first: Option<&'a Label>,
    in_data: bool,
}

impl<'a> Parts<'a> {
    /// The parts of an image, or the image's own number.
    pub fn of(image: &'a [u8]) -> Result<Parts<'a>, Answer> {
        let answer = check(image);
        if answer.is_done() {
            Ok(Parts::accepted(image))
        } else {
            Err(answer)
        }
    }

    /// The parts of an image that was checked before.
    pub fn accepted(image: &'a [u8]) -> Parts<'a> {
        let tape = Tape::open(image).expect("an accepted image");
        Parts { tape, first: None, in_data: false }
    }

    /// The place behind what was handed out last.
    pub fn tape(&self) -> Tape<'a> {
        self.tape.clone()
    }

    /// The place of the first data item behind the headers read last.
    pub fn data_from(&self) -> usize {
        let mut tape = self.tape.clone();
        while let Ok(Some(item)) = tape.next_item() {
            if item == Item::TapeMark {
                break;
            }
        }
        tape.at()
    }

    /// A file begins at the second header of its section 0001.
    fn head(&mut self, block: &'a [u8]) -> Option<Head<'a>> {
        let label: &Label = block.try_into().ok()?;
        match kind_of(label)? {
            Kind::Header(1) => self.first = Some(label),
            Kind::Header(2) => {
                let begins = |first: &&Label| SECTION.of(first) == b"0001";
                return self.first.filter(begins).map(|first| Head { first, second: label });
            }
            _ => {}
        }
        None
    }
}

impl<'a> Iterator for Parts<'a> {
    type Item = Part<'a>;

    /// The first mark behind headers begins the data, the next one ends them.
    fn next(&mut self) -> Option<Part<'a>> {
        loop {
            match self.tape.next_item().ok()?? {
                Item::TapeMark => self.in_data = self.first.take().is_some(),
                Item::EndOfReel => {}
                Item::Block(block) if self.in_data => {
                    return Some(Part::Data { start: self.tape.at() - block.len(), block });
                }
                Item::Block(block) => {
                    if let Some(head) = self.head(block) {
                        return Some(Part::File(head));
                    }
                }
            }
        }
    }
}

/// A unit that begins a record.
pub fn begins(unit: Unit) -> bool {
    unit.indicator < 2
}

/// The meaning of a set; none where its image is refused.
pub fn meaning(image: &[u8]) -> Option<Meaning> {
    let mut meaning = Meaning { set: *b"      ", files: Vec::new() };
    let mut shape = None;
    for part in Parts::of(image).ok()? {
        match part {
            Part::File(head) => {
                meaning.set.copy_from_slice(SET_ID.of(head.first));
                shape = Some(Shape::of(head.second));
                meaning.files.push(File { facts: head.facts(), records: Vec::new() });
            }
            Part::Data { block, .. } => {
                let records = &mut meaning.files.last_mut()?.records;
                cut(&shape?, block, |unit| {
                    if begins(unit) {
                        records.push(Vec::new());
                    }
                    let bytes = &block[unit.start..unit.start + unit.len];
                    records.last_mut().expect("a record is open").extend_from_slice(bytes);
                });
            }
        }
    }
    Some(meaning)
}

/// Record number `record` of file number `file`, both from 1. Only a record in several blocks needs
/// the joining buffer, and only its own bytes there are changed.
pub fn record(image: &[u8], file: u64, record: u64, join: &mut [u8]) -> Found {
    let segments = match segments(image, file, record) {
        Ok(segments) => segments,
        Err(answer) => return Found::Refused(answer),
    };
    match segments[..] {
        [] => Found::Refused(Answer::without_place(13)),
        [(start, len)] => Found::InImage { start, len },
        _ => {
            let len = segments.iter().map(|&(_, len)| len).sum();
            if len > join.len() {
                return Found::Refused(Answer::without_place(10));
            }
            let mut at = 0;
            for (start, len) in segments {
                join[at..at + len].copy_from_slice(&image[start..start + len]);
                at += len;
            }
            Found::Joined { len }
        }
    }
}

/// The places of the units that make up a record; no places where there is no such record.
fn segments(image: &[u8], file: u64, record: u64) -> Result<Vec<(usize, usize)>, Answer> {
    let mut segments = Vec::new();
    let (mut files, mut records) = (0, 0);
    let mut shape = None;
    for part in Parts::of(image)? {
        match part {
            Part::File(head) => {
                files += 1;
                shape = Some(Shape::of(head.second));
            }
            Part::Data { start, block } if files == file => {
                let shape = shape.expect("a file has begun");
                cut(&shape, block, |unit| {
                    records += u64::from(begins(unit));
                    if records == record {
                        segments.push((start + unit.start, unit.len));
                    }
                });
            }
            Part::Data { .. } => {}
        }
        if files > file || records > record {
            break;
        }
    }
    Ok(segments)
}
