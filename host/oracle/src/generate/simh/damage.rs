//! Damages tape files: their records, the borders between them and the list of their lengths.

use super::super::order::add;
use super::{joined, whole_files, Files, Record, Rng, Simh};
use std::ops::Range;

/// What is done to tape files.
#[derive(Clone, Copy, Debug, PartialEq, Eq, PartialOrd, Ord)]
pub enum Damage {
    /// Another leading word, of a block, a mark or an end.
    Leading,
    /// Another trailing length.
    Trailing,
    /// Both words of a block alike, as those of a class or too great.
    Class,
    /// A pad byte that isn't zero.
    Pad,
    /// A pad byte more, or less.
    Padding,
    /// A byte of a block more, or less.
    Data,
    /// A word put in: a gap, or another that is none of this form.
    Gap,
    /// No end of the medium.
    NoEnd,
    /// Bytes behind the end of the medium.
    Behind,
    /// Bytes cut from the end of a file.
    Cut,
    /// The border of two files moved.
    Border,
    /// Two files as one.
    Joined,
    /// One file as two.
    Split,
    /// A file of no bytes.
    Empty,
    /// A length changed, dropped or put in, so that the sum is another.
    Sum,
    /// Lengths whose sum is right but for its overflow.
    Wrapped,
    /// Any byte changed.
    Byte,
}

impl Damage {
    pub const ALL: [Damage; 17] = [
        Damage::Leading,
        Damage::Trailing,
        Damage::Class,
        Damage::Pad,
        Damage::Padding,
        Damage::Data,
        Damage::Gap,
        Damage::NoEnd,
        Damage::Behind,
        Damage::Cut,
        Damage::Border,
        Damage::Joined,
        Damage::Split,
        Damage::Empty,
        Damage::Sum,
        Damage::Wrapped,
        Damage::Byte,
    ];

    /// Does what is done to a record.
    fn to_records(self, rng: &mut Rng, files: &mut Files) {
        match self {
            Damage::Leading => change(rng, files, |_| true, damage_leading),
            Damage::Trailing => change(rng, files, is_block, damage_trailing),
            Damage::Class => change(rng, files, is_block, damage_class),
            Damage::Pad => change(rng, files, is_odd, |rng, record| {
                record.pad.fill(rng.between(1, 255) as u8);
            }),
            Damage::Padding => change(rng, files, is_block, damage_padding),
            Damage::Data => change(rng, files, is_block, damage_data),
            Damage::Gap => put_gap(rng, files),
            Damage::NoEnd => _ = some(rng, files).and_then(Vec::pop),
            _ => {}
        }
    }

    /// Does what is done to bytes and lengths.
    fn to_bytes(self, rng: &mut Rng, simh: &mut Simh) {
        match self {
            Damage::Behind => damage_behind(rng, simh),
            Damage::Cut => damage_cut(rng, simh),
            Damage::Border => damage_border(rng, simh),
            Damage::Joined => damage_joined(rng, simh),
            Damage::Split => damage_split(rng, simh),
            Damage::Empty => simh.lengths.insert(rng.below(simh.lengths.len() + 1), 0),
            Damage::Sum => damage_sum(rng, simh),
            Damage::Wrapped => damage_wrapped(rng, simh),
            Damage::Byte => damage_byte(rng, simh),
            _ => {}
        }
    }
}

/// Tape files with one to three damages, and what these are; some turn out to be harmless.
pub fn damaged_simh(rng: &mut Rng) -> (Simh, Vec<Damage>) {
    let mut files = whole_files(rng);
    let count = rng.pick(&[1, 1, 1, 2, 3]);
    let damages: Vec<Damage> = (0..count).map(|_| rng.pick(&Damage::ALL)).collect();
    damages.iter().for_each(|damage| damage.to_records(rng, &mut files));
    let mut simh = joined(&files);
    damages.iter().for_each(|damage| damage.to_bytes(rng, &mut simh));
    (simh, damages)
}

/// One of these, where there is one.
fn some<'a, T>(rng: &mut Rng, all: &'a mut [T]) -> Option<&'a mut T> {
    let at = rng.below(all.len().max(1));
    all.get_mut(at)
}

/// Changes one of the records that are wanted, where there is one.
fn change(
    rng: &mut Rng,
    files: &mut Files,
    wanted: impl Fn(&Record) -> bool,
    change: impl Fn(&mut Rng, &mut Record),
) {
    let mut records: Vec<&mut Record> =
        files.iter_mut().flatten().filter(|record| wanted(record)).collect();
    if let Some(record) = some(rng, &mut records) {
        change(rng, record);
    }
}

fn is_block(record: &Record) -> bool {
    record.trailing.is_some()
}

fn is_odd(record: &Record) -> bool {
    !record.pad.is_empty()
}

/// Words that lead nothing in this form, or the least and the greatest that lead a block.
const WORDS: [u32; 18] = [
    1,
    99_999,
    100_000,
    100_001,
    0x00FF_FFFE,
    0x00FF_FFFF,
    0x0100_0000,
    0x0100_0001,
    0x7FFF_FFFF,
    0x8000_0000,
    0x8000_0001,
    0x8001_869F,
    0xFEFF_FFFF,
    0xFF00_0000,
    0xFFFE_FFFF,
    0xFFFF_0000,
    0xFFFF_8000,
    0xFFFF_FFFE,
];

/// Another word, mostly near the old one.
fn other_word(rng: &mut Rng, old: u32) -> u32 {
    let any = rng.number() as u32;
    let near = [1, 2, u32::MAX, u32::MAX - 1].map(|more: u32| old.wrapping_add(more));
    let word = match rng.below(6) {
        0 => rng.pick(&WORDS),
        1 => old ^ (1 << rng.below(32)),
        2 => old.swap_bytes(),
        3 => any,
        _ => rng.pick(&near),
    };
    if word == old {
        !old
    } else {
        word
    }
}

fn damage_leading(rng: &mut Rng, record: &mut Record) {
    record.leading = other_word(rng, record.leading);
}

fn damage_trailing(rng: &mut Rng, record: &mut Record) {
    record.trailing = Some(other_word(rng, record.leading));
}

fn damage_class(rng: &mut Rng, record: &mut Record) {
    let class = (rng.between(1, 255) as u32) << 24;
    record.leading = if rng.one_in(4) { rng.pick(&WORDS) } else { record.leading | class };
    record.trailing = Some(record.leading);
}

fn damage_padding(rng: &mut Rng, record: &mut Record) {
    match rng.one_in(2) {
        true => record.pad.push(0),
        false => record.pad = vec![0; 1 - record.pad.len().min(1)],
    }
}

fn damage_data(rng: &mut Rng, record: &mut Record) {
    match rng.one_in(2) {
        true => record.block.push(0),
        false => drop(record.block.pop()),
    }
}

/// A word by itself in any place of a file, behind its end too.
fn put_gap(rng: &mut Rng, files: &mut Files) {
    let Some(file) = some(rng, files) else { return };
    let at = rng.below(file.len() + 1);
    file.insert(at, Record::word(rng.pick(&WORDS)));
}

/// One of the files, and where it stands.
fn some_file(rng: &mut Rng, simh: &Simh) -> Option<(usize, Range<usize>)> {
    let file = rng.below(simh.lengths.len().max(1));
    Some((file, simh.place(file)?))
}

fn damage_behind(rng: &mut Rng, simh: &mut Simh) {
    let Some((file, place)) = some_file(rng, simh) else { return };
    let more = vec![rng.pick(&[0, 0xFF, 1]); rng.between(1, 9)];
    simh.lengths[file] += more.len() as u64;
    simh.tape.splice(place.end..place.end, more);
}

fn damage_cut(rng: &mut Rng, simh: &mut Simh) {
    let Some((file, place)) = some_file(rng, simh) else { return };
    let all = rng.between(0, place.len());
    let cut = rng.pick(&[1, 2, 3, 4, 5, all]).min(place.len());
    simh.lengths[file] -= cut as u64;
    simh.tape.drain(place.end - cut..place.end);
}

/// A file that another stands behind, where there is one.
fn some_border(rng: &mut Rng, simh: &Simh) -> Option<usize> {
    let borders = simh.lengths.len().saturating_sub(1);
    (borders > 0).then(|| rng.below(borders))
}

fn damage_border(rng: &mut Rng, simh: &mut Simh) {
    let Some(file) = some_border(rng, simh) else { return };
    let (from, to) = if rng.one_in(2) { (file, file + 1) } else { (file + 1, file) };
    let moved = rng.pick(&[1, 2, 3, 4, 5, 8, 12]).min(simh.lengths[from]);
    simh.lengths[from] -= moved;
    add(&mut simh.lengths, to, moved);
}

fn damage_joined(rng: &mut Rng, simh: &mut Simh) {
    let Some(file) = some_border(rng, simh) else { return };
    let other = simh.lengths.remove(file + 1);
    add(&mut simh.lengths, file, other);
}

fn damage_split(rng: &mut Rng, simh: &mut Simh) {
    let Some((file, place)) = some_file(rng, simh) else { return };
    let front = rng.below(place.len() + 1) as u64;
    simh.lengths.insert(file, front);
    simh.lengths[file + 1] -= front;
}

fn damage_sum(rng: &mut Rng, simh: &mut Simh) {
    let lengths = &mut simh.lengths;
    let at = rng.below(lengths.len().max(1));
    match rng.below(8) {
        0 => lengths.clear(),
        1 => drop(lengths.pop()),
        2 => lengths.push(rng.pick(&[1, 4, u64::MAX])),
        3 => add(lengths, at, 1),
        4 => add(lengths, at, u64::MAX),
        // The lower half of the number stays.
        5 => add(lengths, at, 1 << 32),
        6 => simh.tape.push(0xFF),
        _ => drop(simh.tape.pop()),
    }
}

fn damage_wrapped(rng: &mut Rng, simh: &mut Simh) {
    if simh.lengths.len() == 1 {
        simh.lengths.push(0);
    }
    if let [first, .., last] = &mut simh.lengths[..] {
        let sum = first.wrapping_add(*last);
        *first = rng.pick(&[1 << 63, u64::MAX, u64::MAX - 99]);
        *last = sum.wrapping_sub(*first);
    }
}

fn damage_byte(rng: &mut Rng, simh: &mut Simh) {
    let byte = rng.byte();
    if let Some(place) = some(rng, &mut simh.tape) {
        *place = byte;
    }
}
