//! Knows the one way to write a meaning: packing records into blocks, laying them on reels; and rewriting.

use crate::block::{cut, Shape};
use crate::content::{Part, Parts, FACTS};
use crate::label::{End, Label, SET_ID};
use crate::sheet::{
    first_label, reels_refusal, second_label, trailer_names, volume_label, Sheet, NAME_LENGTH,
};
use crate::tape::{END_OF_REEL, HEAD, MOST_BYTES, TAPE_MARK};
use crate::{check, Answer};

/// The longest segment, whose four digits count the control word too.
const MOST_SEGMENT: usize = 9_994;

/// The answer, and the length of the image where it is "done".
#[derive(Clone, Copy, Debug, PartialEq, Eq)]
pub struct Written {
    pub answer: Answer,
    pub len: usize,
}

fn refused(answer: Answer) -> Written {
    Written { answer, len: 0 }
}

/// Writes a sheet; see [`Sheet`] for its form.
#[allow(clippy::too_many_arguments)]
pub fn write(
    set: &[u8],
    files: &[u8],
    counts: &[u64],
    lengths: &[u64],
    data: &[u8],
    quota: u64,
    names: &[u8],
    out: &mut [u8],
) -> Written {
    let sheet = Sheet { set, files, counts, lengths, data, quota, names };
    sheet.write(out)
}

/// Writes the meaning of an image; the image's own number comes first. The meaning of an accepted
/// set is always legal, so only quota and names are looked at.
pub fn rewrite(image: &[u8], quota: u64, names: &[u8], out: &mut [u8]) -> Written {
    let answer = check(image);
    if !answer.is_done() {
        return refused(answer);
    }
    match reels_refusal(quota, names) {
        Some(number) => refused(Answer::without_place(number)),
        None => put_down(&Image { image, quota, names }, out),
    }
}

impl Sheet<'_> {
    /// Writes the sheet, or gives 9, 11, 12, 14 or 10.
    pub fn write(&self, out: &mut [u8]) -> Written {
        match self.refusal() {
            Some(number) => refused(Answer::without_place(number)),
            None => put_down(self, out),
        }
    }
}

/// Measures first, so that a refusal changes nothing: 12, 14, 10.
fn put_down(source: &impl Source, out: &mut [u8]) -> Written {
    match lay(source, Measured { at: 0 }) {
        None => refused(Answer::without_place(12)),
        Some(length) if length > MOST_BYTES => refused(Answer::without_place(14)),
        Some(length) if length > out.len() => refused(Answer::without_place(10)),
        Some(length) => {
            let laid = lay(source, Laid { out, at: 0 });
            debug_assert_eq!(laid, Some(length));
            Written { answer: Answer::DONE, len: length }
        }
    }
}

/// What is written: the files and records of a legal sheet.
trait Source {
    fn quota(&self) -> u64;
    fn names(&self) -> &[u8];
    fn feed<O: Onto>(&self, writing: &mut Writing<O>) -> Result<(), Short>;
}

impl Source for Sheet<'_> {
    fn quota(&self) -> u64 {
        self.quota
    }
    fn names(&self) -> &[u8] {
        self.names
    }
    fn feed<O: Onto>(&self, writing: &mut Writing<O>) -> Result<(), Short> {
        for file in self.files() {
            writing.begin_file(self.set, file.facts);
            let mut data = file.data;
            for &length in file.lengths {
                let (record, rest) = data.split_at(length as usize);
                data = rest;
                writing.record(record)?;
            }
            writing.end_file();
        }
        Ok(())
    }
}

/// An accepted image as a source.
struct Image<'a> {
    image: &'a [u8],
    quota: u64,
    names: &'a [u8],
}

impl Source for Image<'_> {
    fn quota(&self) -> u64 {
        self.quota
    }
    fn names(&self) -> &[u8] {
        self.names
    }
    fn feed<O: Onto>(&self, writing: &mut Writing<O>) -> Result<(), Short> {
        let mut shape = None;
        let mut joined = Vec::new();
        for part in Parts::accepted(self.image) {
            match part {
                Part::File(head) => {
                    if shape.is_some() {
                        writing.end_file();
                    }
                    writing.begin_file(SET_ID.of(head.first), &head.facts());
                    shape = Some(Shape::of(head.second));
                }
                Part::Data { block, .. } => {
                    let shape = shape.expect("a file is begun");
                    feed_block(&shape, block, &mut joined, writing)?;
                }
            }
        }
        writing.end_file();
        Ok(())
    }
}

/// The records that end in this block; only what goes on is copied.
fn feed_block<O: Onto>(
    shape: &Shape,
    block: &[u8],
    joined: &mut Vec<u8>,
    writing: &mut Writing<O>,
) -> Result<(), Short> {
    let mut fed = Ok(());
    cut(shape, block, |unit| {
        let bytes = &block[unit.start..unit.start + unit.len];
        if unit.indicator == 0 {
            fed = fed.and_then(|()| writing.record(bytes));
            return;
        }
        if unit.indicator == 1 {
            joined.clear();
        }
        joined.extend_from_slice(bytes);
        if unit.indicator == 3 {
            fed = fed.and_then(|()| writing.record(joined));
        }
    });
    fed
}

/// Where the bytes of an image go.
trait Onto {
    fn at(&self) -> usize;
    fn put(&mut self, bytes: &[u8]);
    /// Sets the length of the block that began at `start`, now that it is known.
    fn close(&mut self, start: usize);
}

/// Counts only.
struct Measured {
    at: usize,
}

impl Onto for Measured {
    fn at(&self) -> usize {
        self.at
    }
    #[inline]
    fn put(&mut self, bytes: &[u8]) {
        self.at += bytes.len();
    }
    fn close(&mut self, _start: usize) {}
}

/// Writes into a buffer that was measured to be long enough.
struct Laid<'a> {
    out: &'a mut [u8],
    at: usize,
}

impl Onto for Laid<'_> {
    fn at(&self) -> usize {
        self.at
    }
    #[inline]
    fn put(&mut self, bytes: &[u8]) {
        self.out[self.at..self.at + bytes.len()].copy_from_slice(bytes);
        self.at += bytes.len();
    }
    fn close(&mut self, start: usize) {
        let length = (self.at - start - 3) as u32;
        self.out[start..start + 3].copy_from_slice(&length.to_be_bytes()[1..]);
    }
}

/// The place of the writing: which reel, file, section and block.
struct Writing<'a, O> {
    onto: O,
    quota: u64,
    /// The names of the reels not yet begun.
    names: &'a [u8],
    /// Data blocks of this reel, over all its files.
    held: u64,
    set: [u8; 6],
    facts: [u8; FACTS],
    shape: Shape,
    sequence: u64,
    section: u64,
    /// Data blocks of this section.
    blocks: u64,
    /// Where the open block begins.
    block: Option<usize>,
    /// Where the open block has no more room; 0 where no block is open.
    full: usize,
}

/// Too few reel names.
#[derive(Clone, Copy)]
struct Short;

/// The whole image of a legal source; its length, or none where the names don't suffice.
fn lay<O: Onto>(source: &impl Source, onto: O) -> Option<usize> {
    let mut writing = Writing {
        onto,
        quota: source.quota(),
        names: source.names(),
        held: 0,
        set: [b' '; 6],
        facts: [b' '; FACTS],
        shape: Shape { format: b' ', block: 0, record: 0, offset: 0 },
        sequence: 0,
        section: 0,
        blocks: 0,
        block: None,
        full: 0,
    };
    writing.onto.put(HEAD);
    writing.begin_reel().ok()?;
    source.feed(&mut writing).ok()?;
    writing.end_reel();
    Some(writing.onto.at())
}

impl<O: Onto> Writing<'_, O> {
    fn label(&mut self, label: &Label) {
        self.onto.put(&[0, 0, 80]);
        self.onto.put(label);
    }

    fn mark(&mut self) {
        self.onto.put(&TAPE_MARK);
    }

    fn begin_reel(&mut self) -> Result<(), Short> {
        let (name, others) = self.names.split_at_checked(NAME_LENGTH).ok_or(Short)?;
        self.label(&volume_label(name));
        self.names = others;
        self.held = 0;
        Ok(())
    }

    fn end_reel(&mut self) {
        self.mark();
        self.onto.put(&END_OF_REEL);
    }

    /// The first and second label of a section.
    fn pair(&mut self, (one, two): (&[u8; 4], &[u8; 4])) {
        let (section, sequence) = (self.section, self.sequence);
        let first = first_label(one, &self.facts, &self.set, section, sequence, self.blocks);
        self.label(&first);
        self.label(&second_label(two, &self.facts));
        self.mark();
    }

    fn headers(&mut self, section: u64) {
        self.section = section;
        self.blocks = 0;
        self.pair((b"HDR1", b"HDR2"));
    }

    fn trailers(&mut self, end: End) {
        self.mark();
        self.pair(trailer_names(end));
    }

    fn begin_file(&mut self, set: &[u8], facts: &[u8]) {
        self.set.copy_from_slice(set);
        self.facts.copy_from_slice(facts);
        self.shape = Shape::of(&second_label(b"HDR2", facts));
        self.sequence += 1;
        self.headers(1);
    }

    fn end_file(&mut self) {
        self.close();
        self.trailers(End::File);
    }

    /// Bytes left in the open block; none where no block is open.
    #[inline]
    fn room(&self) -> usize {
        self.full.saturating_sub(self.onto.at())
    }

    /// Closes the open block, if any, and opens one, on the next reel where this one has its quota.
    fn open(&mut self) -> Result<(), Short> {
        self.close();
        if self.held == self.quota {
            self.trailers(End::Volume);
            self.end_reel();
            self.begin_reel()?;
            self.headers(self.section + 1);
        }
        self.held += 1;
        self.blocks += 1;
        self.block = Some(self.onto.at());
        self.onto.put(&[0; 3]);
        self.full = self.onto.at() + self.shape.block;
        Ok(())
    }

    fn close(&mut self) {
        if let Some(start) = self.block.take() {
            self.onto.close(start);
        }
        self.full = 0;
    }

    #[inline]
    fn record(&mut self, record: &[u8]) -> Result<(), Short> {
        match self.shape.format {
            b'F' => self.unit::<0>(record),
            b'D' => self.unit::<4>(record),
            _ => self.segments(record),
        }
    }

    /// A unit of an F or D file, behind a control word of `WORD` digits.
    #[inline]
    fn unit<const WORD: usize>(&mut self, record: &[u8]) -> Result<(), Short> {
        if record.len() + WORD > self.room() {
            self.open()?;
        }
        self.onto.put(&four_digits(record.len() + WORD)[..WORD]);
        self.onto.put(record);
        Ok(())
    }

    fn segments(&mut self, record: &[u8]) -> Result<(), Short> {
        let mut left = record;
        let mut begun = false;
        loop {
            if self.room() < 5 + left.len().min(1) {
                self.open()?;
            }
            let taken = left.len().min(self.room() - 5).min(MOST_SEGMENT);
            let (segment, rest) = left.split_at(taken);
            let indicator = match (begun, rest.is_empty()) {
                (false, true) => b'0',
                (false, false) => b'1',
                (true, false) => b'2',
                (true, true) => b'3',
            };
            self.onto.put(&[indicator]);
            self.onto.put(&four_digits(taken + 5));
            self.onto.put(segment);
            if rest.is_empty() {
                return Ok(());
            }
            self.close();
            left = rest;
            begun = true;
        }
    }
}

/// The value of a control word, up to 9,999, as digits.
#[inline]
fn four_digits(value: usize) -> [u8; 4] {
    let digit = |unit: usize| b'0' + (value / unit % 10) as u8;
    [digit(1000), digit(100), digit(10), digit(1)]
}
