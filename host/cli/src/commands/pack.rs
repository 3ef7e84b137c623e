//! `pack SHEET -o OUT`: the image of an order sheet.

use crate::output::{folder_of, Output};
use crate::sheet::{Order, Source};
use crate::stop::{Status, Stop};
use crate::words::Words;
use crate::{input, room};
use std::path::Path;
use tardorelga::LONGEST_IMAGE;

pub fn run(words: &Words) -> Result<Status, Stop> {
    let [sheet] = words.exactly(["sheet"])?;
    let out = Output::of(words, &[sheet])?;
    let name = input::name(sheet);
    let text = input::open(sheet).map_err(|error| Stop::trouble(&name, error))?;
    let source = Source::new(folder_of(Path::new(sheet)), words.has("--anywhere"));
    let order = Order::read(text, source).map_err(|wrong| wrong.stop(&name))?;
    let image = room::filled(LONGEST_IMAGE, |room| tardorelga::write(&order.sheet(), room));
    out.write(&image.map_err(|verdict| order.blamed(verdict).stop(&name))?)
}
