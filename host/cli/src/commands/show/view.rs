//! Which items of an image are shown, and which of them is wrong.

use crate::fault::Fault;
use tardorelga::numbers::{NO_IMAGE, OVER_LIMIT};
use tardorelga::{Field, Item};

pub struct View<'a> {
    pub image: &'a [u8],
    pub fault: Option<Fault>,
    /// Whether every item has a line, also those behind the wrong one.
    pub is_all: bool,
    /// Whether one item alone is shown, in full.
    pub is_one: bool,
    from: usize,
    count: usize,
}

impl<'a> View<'a> {
    pub fn of(image: &'a [u8], is_all: bool, item: Option<u64>) -> View<'a> {
        let fault = Fault::found_in(image);
        let is_one = item.is_some();
        let from = item.map_or(0, |item| item as usize);
        let mut view = View { image, fault, is_all, is_one, from, count: 0 };
        view.count = view.most();
        view
    }

    /// How many items are shown at most: without `--all` none behind the wrong one, and none of what
    /// is no image.
    fn most(&self) -> usize {
        match &self.fault {
            _ if !self.is_image() => 0,
            _ if self.is_one => 1,
            None => usize::MAX,
            Some(_) if self.is_all => usize::MAX,
            Some(_) if self.is_head_wrong() => 0,
            Some(fault) => fault.verdict.item as usize + 1,
        }
    }

    pub fn items(&self) -> impl Iterator<Item = Item<'a>> {
        tardorelga::items(self.image).skip(self.from).take(self.count)
    }

    /// Whether the bytes have items at all.
    pub fn is_image(&self) -> bool {
        self.fault.as_ref().is_none_or(|fault| fault.verdict.number != NO_IMAGE)
    }

    /// Whether there are more bytes than were read: this limit alone stands at item 0, which passes no other.
    pub fn is_too_long(&self) -> bool {
        let is_at_all = |fault: &Fault| {
            let verdict = fault.verdict;
            verdict.number == OVER_LIMIT && verdict.item == 0
        };
        self.fault.as_ref().is_some_and(is_at_all)
    }

    /// Whether the bytes as a whole are wrong, and not an item of them.
    pub fn is_head_wrong(&self) -> bool {
        !self.is_image() || self.is_too_long()
    }

    pub fn is_wrong(&self, item: &Item) -> bool {
        let is_named = |fault: &Fault| fault.verdict.item == item.number;
        !self.is_head_wrong() && self.fault.as_ref().is_some_and(is_named)
    }

    pub fn is_wrong_field(&self, item: &Item, field: &Field) -> bool {
        let is_named = |fault: &Fault| fault.verdict.byte == field.first;
        self.is_wrong(item) && self.fault.as_ref().is_some_and(is_named)
    }
}
