//! The items as one JSON object.

use super::view::View;
use crate::commands::members;
use crate::fault::Fault;
use crate::stop::{Status, Stop};
use crate::streams::Out;
use crate::text::json;
use crate::words::Words;
use std::ffi::OsString;
use tardorelga::{Field, Item};

pub fn put(words: &Words, files: &[OsString], view: &View, out: &mut Out) -> Result<(), Stop> {
    let names = members::names(words, files);
    let verdict = members::verdict(view.image, view.fault.as_ref());
    out.put(format!("{{{names},{verdict},\"items\":[").as_bytes())?;
    let (mut comma, mut behind) = ("", 0);
    for item in view.items() {
        out.put(format!("{comma}{}", object(view, &item)).as_bytes())?;
        (comma, behind) = (",", item.behind);
    }
    out.put(b"]")?;
    if view.fault.is_some() && !view.is_one {
        let left = view.image.len().saturating_sub(behind);
        out.put(format!(",\"not_shown\":{left}").as_bytes())?;
    }
    out.put(b"}\n")
}

/// Of reels that no image could be made of.
pub fn put_unseen(words: &Words, files: &[OsString], fault: &Fault) -> Result<Status, Stop> {
    let mut out = Out::open()?;
    let names = members::names(words, files);
    out.put(format!("{{{names},{}}}\n", fault.json()).as_bytes())?;
    out.end()?;
    Ok(Status::Refused)
}

/// A label has its fields; other bytes are given where the item is asked for.
fn object(view: &View, item: &Item) -> String {
    let Item { kind, number, at, bytes, .. } = item;
    let mut fields = tardorelga::fields(*kind).peekable();
    let inside = match fields.peek() {
        Some(_) => {
            let fields = json::list(fields.map(|field| field_object(view, item, &field)));
            format!(r#","fields":{fields}"#)
        }
        None if view.is_one || kind.is_label() => format!(r#","value":{}"#, json::bytes(bytes)),
        None => String::new(),
    };
    let (bytes, wrong) = (bytes.len(), mark(view.is_wrong(item)));
    format!(r#"{{"item":{number},"kind":"{kind}","at":{at},"bytes":{bytes}{wrong}{inside}}}"#)
}

fn field_object(view: &View, item: &Item, field: &Field) -> String {
    let Field { first, len, name, .. } = field;
    let (name, value) = (json::text(name), json::bytes(field.of(item.bytes)));
    let wrong = mark(view.is_wrong_field(item, field));
    format!(r#"{{"byte":{first},"bytes":{len},"name":{name},"value":{value}{wrong}}}"#)
}

fn mark(is_wrong: bool) -> &'static str {
    if is_wrong {
        r#","wrong":true"#
    } else {
        ""
    }
}
