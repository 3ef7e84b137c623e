//! Knows a whole set: the verdict on an image, one item after the other; hands out no record.

use crate::block::{cut, Shape, Turns};
use crate::label::{
    kind_of, label_fault, End, Fault, Field, Kind, Label, BLOCK_COUNT, BLOCK_LENGTH, CREATION,
    EXPIRATION, FILE_ACCESS, FILE_ID, FORMAT, GENERATION, OFFSET_LENGTH, RECORD_LENGTH, SECTION,
    SEQUENCE, SET_ID, VERSION, VOLUME_ID,
};
use crate::order::{after, Behind, Seen};
use crate::tape::{Item, Tape, MOST_REELS};
use crate::Answer;

pub const MOST_FILES: u32 = 64;

static NO_LABEL: Label = [b' '; 80];

/// The fields of a first label that are compared, upward.
const FIRST_FIELDS: [Field; 10] = [
    FILE_ID,
    SET_ID,
    SECTION,
    SEQUENCE,
    GENERATION,
    VERSION,
    CREATION,
    EXPIRATION,
    FILE_ACCESS,
    BLOCK_COUNT,
];

/// The fields of a second label that are compared, upward.
const SECOND_FIELDS: [Field; 4] = [FORMAT, BLOCK_LENGTH, RECORD_LENGTH, OFFSET_LENGTH];

/// What the items so far leave to be compared with.
struct Set<'a> {
    place: Behind,
    volumes: [&'a [u8]; MOST_REELS as usize],
    reels: usize,
    /// Files begun; the sequence number of the last.
    files: u32,
    /// Section number of the last header.
    section: u32,
    /// The next header goes on with the last file.
    goes_on: bool,
    /// The last headers: a trailer is held against those of its own section.
    header1: &'a Label,
    header2: &'a Label,
    shape: Shape,
    /// Data blocks of this section.
    blocks: u32,
    /// Length so far of the record that is open in an S file.
    open: Option<usize>,
}

/// Why reading stops: the container is torn, or the item read last is wrong.
enum Stop {
    Torn(Answer),
    Wrong(Fault),
}

impl From<Answer> for Stop {
    fn from(answer: Answer) -> Stop {
        Stop::Torn(answer)
    }
}

impl From<Fault> for Stop {
    fn from(fault: Fault) -> Stop {
        Stop::Wrong(fault)
    }
}

const NOT_DUE: Fault = Fault::new(3, 0);

/// The verdict on an image: 0, or the number and place of what is wrong first.
pub fn check(image: &[u8]) -> Answer {
    let mut tape = match Tape::open(image) {
        Ok(tape) => tape,
        Err(answer) => return answer,
    };
    let mut set = Set::new();
    match set.read(&mut tape) {
        Ok(()) if set.place == Behind::Set => Answer::DONE,
        Ok(()) => Answer::new(3, tape.item(), 0),
        Err(Stop::Torn(answer)) => answer,
        Err(Stop::Wrong(fault)) => {
            let answer = Answer::new(fault.number, tape.item() - 1, fault.byte);
            tape.torn_or(answer)
        }
    }
}

impl<'a> Set<'a> {
    fn new() -> Set<'a> {
        Set {
            place: Behind::StartOfReel,
            volumes: [&[]; MOST_REELS as usize],
            reels: 0,
            files: 0,
            section: 0,
            goes_on: false,
            header1: &NO_LABEL,
            header2: &NO_LABEL,
            shape: Shape::of(&NO_LABEL),
            blocks: 0,
            open: None,
        }
    }

    fn read(&mut self, tape: &mut Tape<'a>) -> Result<(), Stop> {
        while let Some(item) = tape.next_item()? {
            match item {
                Item::Block(block) => self.label(block)?,
                Item::TapeMark => self.advance(Seen::TapeMark)?,
                Item::EndOfReel => self.advance(Seen::EndOfReel)?,
            }
            if self.place == Behind::DataMark {
                self.data(tape)?;
            }
        }
        Ok(())
    }

    fn advance(&mut self, seen: Seen) -> Result<(), Fault> {
        self.place = after(self.place, seen).ok_or(NOT_DUE)?;
        Ok(())
    }

    fn label(&mut self, block: &'a [u8]) -> Result<(), Fault> {
        let label: &Label = block.try_into().map_err(|_| NOT_DUE)?;
        let kind = kind_of(label).ok_or(NOT_DUE)?;
        self.advance(Seen::Label(kind))?;
        if let Some(fault) = label_fault(label, kind) {
            return Err(fault);
        }
        match kind {
            Kind::Volume(1) => self.volume(label),
            Kind::Header(1) => self.first_header(label),
            Kind::Header(2) => self.second_header(label),
            Kind::Trailer(end, 1) => self.first_trailer(end, label),
            Kind::Trailer(_, 2) => {
                cross_check(&SECOND_FIELDS, |field| field.same(label, self.header2))
            }
            _ => Ok(()),
        }
    }

    fn volume(&mut self, label: &'a Label) -> Result<(), Fault> {
        let name = VOLUME_ID.of(label);
        if self.volumes[..self.reels].contains(&name) {
            return Err(Fault::new(6, VOLUME_ID.bp));
        }
        self.volumes[self.reels] = name;
        self.reels += 1;
        Ok(())
    }

    fn first_header(&mut self, label: &'a Label) -> Result<(), Fault> {
        let (section, file) = match self.goes_on {
            true => (self.section + 1, self.files),
            false => (1, self.files + 1),
        };
        cross_check(&FIRST_FIELDS, |field| match field {
            SECTION => field.number(label) == Some(section),
            SEQUENCE => field.number(label) == Some(file),
            SET_ID => self.files == 0 || field.same(label, self.header1),
            // Each section has dates of its own (P2 of document 02).
            CREATION | EXPIRATION => true,
            _ => !self.goes_on || field.same(label, self.header1),
        })?;
        if file > MOST_FILES {
            return Err(Fault::new(9, 0));
        }
        self.section = section;
        self.files = file;
        self.header1 = label;
        Ok(())
    }

    fn second_header(&mut self, label: &'a Label) -> Result<(), Fault> {
        if self.goes_on {
            cross_check(&SECOND_FIELDS, |field| field.same(label, self.header2))?;
        }
        self.header2 = label;
        self.shape = Shape::of(label);
        Ok(())
    }

    /// The data blocks and the mark behind them: a loop of its own, since most items are blocks.
    fn data(&mut self, tape: &mut Tape<'a>) -> Result<(), Stop> {
        let shape = self.shape;
        self.blocks = 0;
        loop {
            match tape.next_item()? {
                Some(Item::Block(block)) => self.open = turned(&shape, self.open, block)?,
                Some(Item::TapeMark) => return Ok(self.advance(Seen::TapeMark)?),
                _ => return Err(NOT_DUE.into()),
            }
            self.blocks += 1;
        }
    }

    fn first_trailer(&mut self, end: End, label: &'a Label) -> Result<(), Fault> {
        cross_check(&FIRST_FIELDS, |field| match field {
            BLOCK_COUNT => field.number(label) == Some(self.blocks),
            _ => field.same(label, self.header1),
        })?;
        self.goes_on = end == End::Volume;
        if self.open.is_some() && end == End::File {
            return Err(Fault::new(8, 0));
        }
        Ok(())
    }
}

/// What is open behind a data block; 7 goes before 8 wherever they stand in the block.
#[inline]
fn turned(shape: &Shape, open: Option<usize>, block: &[u8]) -> Result<Option<usize>, Fault> {
    let mut turns = Turns::begin(shape.record, open);
    let is_cut = match shape.format {
        b'S' => cut(shape, block, |unit| turns.take(unit)),
        _ => cut(shape, block, |_| ()),
    };
    match (is_cut, turns.in_turn) {
        (false, _) => Err(Fault::new(7, 0)),
        (true, false) => Err(Fault::new(8, 0)),
        (true, true) => Ok(turns.open),
    }
}

/// Number 6 at the first field that does not hold.
fn cross_check(fields: &[Field], holds: impl Fn(Field) -> bool) -> Result<(), Fault> {
    match fields.iter().find(|&&field| !holds(field)) {
        Some(field) => Err(Fault::new(6, field.bp)),
        None => Ok(()),
    }
}
