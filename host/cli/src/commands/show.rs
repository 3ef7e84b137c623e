//! `show FILE [ITEM]`: the reels of a set item by item, whatever their bytes.

mod dump;
mod object;
mod page;
mod paint;
mod run;
mod view;

use crate::fault::Fault;
use crate::input::Set;
use crate::stop::{Status, Stop};
use crate::streams::Out;
use crate::words::{number, too_many, Words};
use std::ffi::OsString;
use view::View;

pub fn run(words: &Words) -> Result<Status, Stop> {
    let (files, item) = asked(words)?;
    let set = match Set::read(words, files) {
        Err(stop) if words.has("--json") => {
            return object::put_unseen(words, files, &Fault::told(stop)?);
        }
        read => read?,
    };
    let view = View::of(&set.image, words.has("--all"), item);
    if let Some(number) = item.filter(|_| view.items().next().is_none()) {
        return Err(without(number, &set, &view));
    }
    let mut out = Out::open()?;
    match words.has("--json") {
        true => object::put(words, files, &view, &mut out)?,
        false => page::put(&view, &mut out)?,
    }
    out.end()?;
    Ok(if view.fault.is_none() { Status::Done } else { Status::Refused })
}

/// The words of the set, and the number of the one item to show.
fn asked(words: &Words) -> Result<(&[OsString], Option<u64>), Stop> {
    let plain = words.some(words.of_a_set())?;
    let (files, behind) = plain.split_at(if words.is_simh() { plain.len() } else { 1 });
    let item = match (behind, words.value("--item")?) {
        ([], item) => item,
        ([item], None) => Some(item.as_os_str()),
        ([item], Some(_)) => return Err(too_many(item)),
        ([_, more, ..], _) => return Err(too_many(more)),
    };
    Ok((files, item.map(|item| number(item, "ITEM")).transpose()?))
}

/// Why the item that was asked for can't be shown.
fn without(number: u64, set: &Set, view: &View) -> Stop {
    match &view.fault {
        Some(fault) if !view.is_image() => set.refused(fault.verdict),
        _ => {
            let last = tardorelga::items(view.image).last().map_or(0, |item| item.number);
            let name = set.name();
            Stop::Trouble(format!("{name}: there is no item {number}; the last is {last}"))
        }
    }
}
