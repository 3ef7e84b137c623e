//! Data blocks one behind the other, which share a line where they are many.

use tardorelga::Item;

/// So many have a line each.
const FEW: usize = 4;

#[derive(Default)]
pub struct Run<'a> {
    few: Vec<Item<'a>>,
    last: u32,
    count: usize,
    bytes: usize,
}

/// How a run is told.
pub enum Told<'r, 'a> {
    Each(&'r [Item<'a>]),
    /// The line of them all.
    Sum(String),
}

impl<'a> Run<'a> {
    pub fn push(&mut self, block: Item<'a>) {
        self.last = block.number;
        self.count += 1;
        self.bytes += block.bytes.len();
        if self.few.len() < FEW {
            self.few.push(block);
        }
    }

    pub fn told(&self) -> Told<'_, 'a> {
        let Run { few, last, count, bytes } = self;
        match few.first() {
            Some(first) if *count > FEW => {
                let numbers = format!("{}-{last}", first.number);
                Told::Sum(format!("{numbers:>8}  data blocks  {count} blocks, {bytes} bytes"))
            }
            _ => Told::Each(few),
        }
    }
}
