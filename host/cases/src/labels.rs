//! Where labels stand in an image.

use oracle::label::Label;
use oracle::tape::{Item, Tape};

/// The label that is this item.
pub fn label_at(image: &[u8], item: u32) -> Option<&Label> {
    let mut tape = Tape::open(image).ok()?;
    while tape.item() < item {
        tape.next_item().ok()??;
    }
    match tape.next_item().ok()?? {
        Item::Block(block) => block.try_into().ok(),
        _ => None,
    }
}

/// HDR1 of each section of an accepted set, in order.
pub fn headers(image: &[u8]) -> Vec<&Label> {
    let mut tape = Tape::open(image).expect("an accepted image");
    let (mut headers, mut marks) = (Vec::new(), 0);
    while let Ok(Some(item)) = tape.next_item() {
        match item {
            Item::TapeMark => marks += 1,
            Item::EndOfReel => marks = 0,
            // Of the three marks of a section the first begins its data, which may look like labels.
            Item::Block(block) if marks % 3 != 1 && block.starts_with(b"HDR1") => {
                headers.push(block.try_into().expect("a label"));
            }
            Item::Block(_) => {}
        }
    }
    headers
}
