//! Writing: archive and oracle on the same order sheets, with buffers of every length.

use crate::archive;
use crate::twins::Twins;
use oracle::generate::{large_order, Large, Rng};
use oracle::tape::MOST_BYTES;
use oracle::{Order, Written};
use std::collections::BTreeMap;
use std::fmt;

/// How often each number came.
#[derive(Default)]
pub struct Tally {
    pub given: u64,
    pub numbers: BTreeMap<u32, u64>,
}

impl Tally {
    pub fn of(&self, number: u32) -> u64 {
        self.numbers.get(&number).copied().unwrap_or(0)
    }
}

impl fmt::Display for Tally {
    fn fmt(&self, f: &mut fmt::Formatter) -> fmt::Result {
        write!(f, "{} given", self.given)?;
        self.numbers.iter().try_for_each(|(number, count)| write!(f, ", {number}: {count}"))
    }
}

/// Archive and oracle, and their buffers.
pub struct Both {
    twins: Twins,
    scratch: Vec<u8>,
    pub tally: Tally,
}

impl Both {
    /// For images of up to so many bytes.
    pub fn new(most: usize) -> Both {
        Both { twins: Twins::new(most), scratch: vec![0; most], tally: Tally::default() }
    }

    /// The answers with buffers of no bytes, one byte short, exact, longer, and with room for the
    /// longest block behind the image, so that none of its blocks is short of room; the last one.
    #[track_caller]
    pub fn write(&mut self, order: &Order) -> Written {
        let sheet = order.sheet();
        let shown = || format!("{:.2000}", format!("{order:?}"));
        self.agreed(|out| archive::write(&sheet, out), |out| sheet.write(out), shown)
    }

    #[track_caller]
    pub fn agreed(
        &mut self,
        archive: impl Fn(&mut [u8]) -> Written,
        oracle: impl Fn(&mut [u8]) -> Written,
        shown: impl Fn() -> String,
    ) -> Written {
        let due = oracle(&mut self.scratch);
        self.tally.given += 1;
        let rooms = match due.len {
            0 => [0, 1, 500, 5_000, 50_000],
            len => [0, len - 1, len, len + 33, len + 100_002],
        };
        let mut last = due;
        for room in rooms.map(|room| room.min(self.scratch.len())) {
            let (one, other) = self.twins.lend(room);
            let (written, due) = (archive(one), oracle(other));
            if written != due {
                panic!("archive {written:?}, oracle {due:?}, in {room} bytes, on {}", shown());
            }
            self.twins.assert_alike(written.len);
            *self.tally.numbers.entry(written.answer.number).or_default() += 1;
            last = written;
        }
        last
    }
}

/// So many sheets of a maker.
#[track_caller]
pub fn compare(maker: fn(&mut Rng) -> Order, seed: u64, count: u64) -> Tally {
    let rng = &mut Rng::new(seed);
    let mut both = Both::new(3_000_000);
    for _ in 0..count {
        both.write(&maker(rng));
    }
    both.tally
}

/// A sheet whose image has a few thousand bytes less than the most.
pub struct Edge {
    order: Order,
    missing: usize,
}

impl Edge {
    /// A sheet of records of this kind, of D records that fill up, and of a file with one empty record.
    pub fn new(kind: Large, scratch: &mut [u8]) -> Edge {
        let mut order = large_order(kind, MOST_BYTES - 200_000);
        let mut facts = order.files[..46].to_vec();
        facts[35..].copy_from_slice(b"D0999909999");
        order.begin_file(&facts);
        while missing(&order, scratch) > 9_500 {
            order.push_record(&[b'E'; 8_000]);
        }
        order.begin_file(&facts);
        order.push_record(b"");
        let missing = missing(&order, scratch);
        Edge { order, missing }
    }

    /// The sheet whose image has so many bytes more than the most, or less: the last record has them.
    pub fn over(&self, more: isize) -> Order {
        let mut order = self.order.clone();
        let grow = self.missing.checked_add_signed(more).expect("near the most");
        *order.lengths.last_mut().expect("a record") += grow as u64;
        order.data.extend(vec![b'X'; grow]);
        order
    }
}

/// Bytes that the image of the sheet has less than the most.
fn missing(order: &Order, scratch: &mut [u8]) -> usize {
    let written = order.sheet().write(scratch);
    assert!(written.answer.is_done(), "a sheet under the limit: {:?}", written.answer);
    MOST_BYTES - written.len
}
