//! Knows the lines of the listing; reads no label itself.

use crate::block::{cut, Shape};
use crate::content::{begins, Head, Part, Parts};
use crate::label::{FILE_ID, FORMAT, SEQUENCE};
use crate::Answer;

/// The program's standard input may not be longer.
pub const MOST_INPUT: usize = 60_000;

const HEADING: &[u8] = b"SEQ FILE              FMT RECORDS BYTES\n";

/// What the listing program writes for its whole standard input.
pub fn listing_of_input(input: &[u8]) -> Vec<u8> {
    if input.len() > MOST_INPUT {
        return refusal(Answer::without_place(9));
    }
    listing(input)
}

/// The listing of a set, or one line with the number and place of what is wrong.
pub fn listing(image: &[u8]) -> Vec<u8> {
    let parts = match Parts::of(image) {
        Ok(parts) => parts,
        Err(answer) => return refusal(answer),
    };
    let mut text = HEADING.to_vec();
    let mut file: Option<(Head, Shape)> = None;
    let (mut records, mut bytes) = (0, 0);
    for part in parts {
        match (part, &file) {
            (Part::File(head), last) => {
                put_line(&mut text, last, records, bytes);
                file = Some((head, Shape::of(head.second)));
                (records, bytes) = (0, 0);
            }
            (Part::Data { block, .. }, Some((_, shape))) => {
                cut(shape, block, |unit| {
                    records += u64::from(begins(unit));
                    bytes += unit.len as u64;
                });
            }
            (Part::Data { .. }, None) => {}
        }
    }
    put_line(&mut text, &file, records, bytes);
    text
}

fn put_line(text: &mut Vec<u8>, file: &Option<(Head, Shape)>, records: u64, bytes: u64) {
    let Some((head, _)) = file else { return };
    text.extend_from_slice(SEQUENCE.of(head.first));
    text.push(b' ');
    text.extend_from_slice(FILE_ID.of(head.first));
    text.push(b' ');
    text.extend_from_slice(FORMAT.of(head.second));
    text.extend_from_slice(format!(" {records} {bytes}\n").as_bytes());
}

fn refusal(answer: Answer) -> Vec<u8> {
    let Answer { number, item, byte } = answer;
    format!("refused {number} at item {item} byte {byte}\n").into_bytes()
}
