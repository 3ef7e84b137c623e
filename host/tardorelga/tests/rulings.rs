//! The archive on the sets whose answers are known from the papers. The tables in `cases` have each
//! case with its answer and its reason.

use cases::ledger::{base, base_with};
use cases::{blocks, container, fields, order, run};
use oracle::generate::image_of;
use trials::archive::check;

#[test]
fn the_whole_set_of_document_01() {
    let image = image_of(&base());
    assert_eq!((base().len(), image.len()), (11, 448));
    assert_eq!(tardorelga::check(&image).to_string(), "accepted");
    let miscounted = image_of(&base_with(&[(6, 55, "000002")]));
    assert_eq!(tardorelga::check(&miscounted).to_string(), "refused 6 at item 6 byte 55");
}

#[test]
fn containers() {
    run(&container::cases(), check);
}

#[test]
fn orders_of_reels() {
    run(&order::cases(), check);
}

#[test]
fn fields_of_labels() {
    run(&fields::cases(), check);
}

#[test]
fn data_blocks() {
    run(&blocks::cases(), check);
}
