//! Knows one data block: its units for F, D and S, and the turns of segments; knows no label but HDR2's numbers.

use crate::label::{Label, BLOCK_LENGTH, OFFSET_LENGTH, RECORD_LENGTH};
use crate::number_of;

/// The padding byte, circumflex.
pub const PAD: u8 = 0x5E;

/// What HDR2 says of a file's blocks: format, B, R and O.
#[derive(Clone, Copy, Debug, PartialEq, Eq)]
pub struct Shape {
    pub format: u8,
    pub block: usize,
    pub record: usize,
    pub offset: usize,
}

impl Shape {
    /// The shape in a second label without fault.
    pub fn of(second: &Label) -> Shape {
        let number = |value: Option<u32>| value.unwrap_or(0) as usize;
        Shape {
            format: second[4],
            block: number(BLOCK_LENGTH.number(second)),
            record: number(RECORD_LENGTH.number(second)),
            offset: number(OFFSET_LENGTH.number(second)),
        }
    }
}

/// A record, or in an S file a segment: its bytes stand at `start` in the block. The indicator is 0
/// to 3, and 0 (a whole record) in F and D files.
#[derive(Clone, Copy, Debug, PartialEq, Eq)]
pub struct Unit {
    pub indicator: u8,
    pub start: usize,
    pub len: usize,
}

/// Hands each unit of the block to `each`; false is number 7.
#[inline]
pub fn cut(shape: &Shape, block: &[u8], each: impl FnMut(Unit)) -> bool {
    // A unit has at least one byte, so a block of O bytes has no room for one.
    if block.len() > shape.block || block.len() <= shape.offset {
        return false;
    }
    match shape.format {
        b'F' => cut_fixed(shape.record, block, shape.offset, each),
        b'D' => cut_controlled::<0>(shape.record, block, shape.offset, each),
        b'S' => cut_controlled::<1>(usize::MAX, block, shape.offset, each),
        _ => false,
    }
}

/// Records of R bytes up to the last byte that is no padding.
#[inline]
fn cut_fixed(record: usize, block: &[u8], offset: usize, mut each: impl FnMut(Unit)) -> bool {
    let last = block[offset..].iter().rposition(|&byte| byte != PAD);
    let units = last.and_then(|last| last.checked_div(record));
    let Some(end) = units.map(|units| offset + (units + 1) * record) else {
        return false;
    };
    if end > block.len() {
        return false;
    }
    for start in (offset..end).step_by(record) {
        if all_pad(&block[start..start + record]) {
            return false;
        }
        each(Unit { indicator: 0, start, len: record });
    }
    true
}

/// Units led by four digits that give their length, behind an indicator where `LEAD` is 1. A unit
/// begins with a digit and padding does not, so the first byte says which comes.
#[inline]
fn cut_controlled<const LEAD: usize>(
    longest: usize,
    block: &[u8],
    offset: usize,
    mut each: impl FnMut(Unit),
) -> bool {
    let word = LEAD + 4;
    let mut at = offset;
    while at < block.len() && block[at] != PAD {
        let rest = &block[at..];
        if rest.len() < word {
            return false;
        }
        let indicator = if LEAD == 1 { rest[0].wrapping_sub(b'0') } else { 0 };
        let length = match number_of(&rest[LEAD..LEAD + 4]) {
            Some(length) if indicator <= 3 => length as usize,
            _ => return false,
        };
        if length < word || length > longest || length > rest.len() {
            return false;
        }
        each(Unit { indicator, start: at + word, len: length - word });
        at += length;
    }
    at > offset && all_pad(&block[at..])
}

/// Most records differ in their first byte; chunks let the compiler compare many bytes at a time.
#[inline]
pub fn all_pad(bytes: &[u8]) -> bool {
    let differs = |chunk: &[u8]| chunk.iter().fold(0, |seen, &byte| seen | (byte ^ PAD)) != 0;
    bytes.first().is_none_or(|&byte| byte == PAD) && !bytes.chunks(32).any(differs)
}

/// The units of a block, or none (number 7).
pub fn cut_block(
    format: u8,
    block_length: usize,
    record_length: usize,
    offset: usize,
    block: &[u8],
) -> Option<Vec<Unit>> {
    let shape = Shape { format, block: block_length, record: record_length, offset };
    let mut units = Vec::new();
    cut(&shape, block, |unit| units.push(unit)).then_some(units)
}

/// Number 8.
#[derive(Clone, Copy, Debug, PartialEq, Eq)]
pub struct OutOfTurn;

/// The turns of the segments of one block: `open` has the length so far of a record that goes on.
pub struct Turns {
    pub open: Option<usize>,
    pub in_turn: bool,
    longest: usize,
    first: bool,
}

impl Turns {
    pub fn begin(longest: usize, open: Option<usize>) -> Turns {
        Turns { open, in_turn: true, longest, first: true }
    }

    /// 2 and 3 only begin a block, and only where a record is open; 0 and 1 only where none is. So a
    /// 1 or 2 can't be followed in its block.
    #[inline]
    pub fn take(&mut self, unit: Unit) {
        let goes_on = unit.indicator >= 2;
        let due = goes_on == self.open.is_some() && (self.first || !goes_on);
        let length = self.open.unwrap_or(0) + unit.len;
        self.in_turn &= due && length <= self.longest;
        self.open = matches!(unit.indicator, 1 | 2).then_some(length);
        self.first = false;
    }
}

/// What is open behind a block with these segments, R being `record_length`.
pub fn turns(
    record_length: usize,
    open: Option<usize>,
    units: &[Unit],
) -> Result<Option<usize>, OutOfTurn> {
    let mut turns = Turns::begin(record_length, open);
    units.iter().for_each(|&unit| turns.take(unit));
    if turns.in_turn {
        Ok(turns.open)
    } else {
        Err(OutOfTurn)
    }
}
