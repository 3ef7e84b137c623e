//! `list FILE` and `list --simh REEL..`: the files of a set.

use super::members;
use crate::fault::Fault;
use crate::input::Set;
use crate::room;
use crate::stop::{Status, Stop};
use crate::streams::Out;
use crate::text::json;
use crate::words::Words;
use tardorelga::{File, LONGEST_LISTING};

pub fn run(words: &Words) -> Result<Status, Stop> {
    let (files, []) = words.set_and([])?;
    let (image, fault) = match Set::read(words, files) {
        Ok(Set { image, .. }) => {
            let fault = Fault::found_in(&image);
            (image, fault)
        }
        Err(stop) => (Vec::new(), Some(Fault::told(stop)?)),
    };
    let mut out = Out::open()?;
    out.put(&match (&fault, words.has("--json")) {
        (_, true) => object(&members::names(words, files), &image, fault.as_ref()).into_bytes(),
        (Some(fault), false) => format!("{}\n", fault.verdict).into_bytes(),
        (None, false) => listing(&image),
    })?;
    out.end()?;
    Ok(if fault.is_none() { Status::Done } else { Status::Refused })
}

/// The listing of an image; of a refused one it is the line that says so.
fn listing(image: &[u8]) -> Vec<u8> {
    room::filled(LONGEST_LISTING, |room| tardorelga::listing(image, room))
        .expect("room for any listing")
}

fn object(names: &str, image: &[u8], fault: Option<&Fault>) -> String {
    let verdict = members::verdict(image, fault);
    if fault.is_some() {
        return format!("{{{names},{verdict}}}\n");
    }
    let files = tardorelga::files(image).expect("an accepted set");
    let files = json::list(files.map(|file| json_file(&file)));
    format!("{{{names},{verdict},\"files\":{files}}}\n")
}

fn json_file(file: &File) -> String {
    let (sequence, name) = (file.sequence(), json::bytes(file.identifier()));
    let (generation, version) = (file.generation(), file.version());
    let [created, expires] = [file.created(), file.expires()].map(json::bytes);
    let (format, block, record) = (file.format(), file.block_length(), file.record_length());
    let (records, bytes) = (file.records().len(), file.bytes());
    format!(
        "{{\"sequence\":{sequence},\"identifier\":{name},\"generation\":{generation},\
         \"version\":{version},\"created\":{created},\"expires\":{expires},\"format\":\"{format}\",\
         \"block_length\":{block},\"record_length\":{record},\"records\":{records},\"bytes\":{bytes}}}"
    )
}
