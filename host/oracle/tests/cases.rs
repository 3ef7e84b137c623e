//! The oracle on the sets whose answers are known from the papers.

use cases::{blocks, container, fields, order, run, walks};
use oracle::{check, framing, Answer, Walk};

#[test]
fn containers() {
    run(&container::cases(), check);
}

/// Containers whose fault is in their items are whole.
#[test]
fn containers_alone() {
    for case in container::cases() {
        let due = if case.answer.number == 3 { Answer::DONE } else { case.answer };
        assert_eq!(framing(&case.image), due, "{case}");
    }
}

#[test]
fn orders_of_reels() {
    run(&order::cases(), check);
}

#[test]
fn fields_of_labels() {
    run(&fields::cases(), check);
}

#[test]
fn data_blocks() {
    run(&blocks::cases(), check);
}

#[test]
fn steps_of_walks() {
    walks::run(Walk::step);
}
