//! Items and fields of labels, against the independent program.

use oracle::generate::{damaged, whole, Rng};
use oracle::label::kind_of;
use oracle::tape::{self, Tape};
use tardorelga::{field, fields, items, reel_names, Item, Items, Kind};

const WITH_FIELDS: [Kind; 9] = [
    Kind::Vol(1),
    Kind::Hdr(1),
    Kind::Hdr(2),
    Kind::Eov(1),
    Kind::Eov(2),
    Kind::Eof(1),
    Kind::Eof(2),
    Kind::Uhl,
    Kind::Utl,
];

#[test]
fn each_byte_of_a_label_with_fields_stands_in_one_that_has_a_name() {
    for kind in WITH_FIELDS {
        for byte in 1..=80 {
            let field = field(kind, byte).expect("a field");
            assert!((field.first..=field.last()).contains(&byte), "{kind} {byte}");
            assert!(!field.name.is_empty(), "{kind} {byte}");
        }
    }
}

#[test]
fn fields_follow_each_other_from_the_first_byte_to_the_last() {
    for kind in WITH_FIELDS {
        let mut due = 1;
        for field in fields(kind) {
            assert_eq!(field.first, due, "{kind}");
            due = field.last() + 1;
        }
        assert_eq!(due, 81, "{kind}");
    }
}

#[test]
fn other_items_and_other_bytes_have_no_field() {
    for kind in [Kind::Vol(2), Kind::Hdr(3), Kind::Uvl(1), Kind::DataBlock, Kind::Torn] {
        assert!((0..=81).all(|byte| field(kind, byte).is_none()), "{kind}");
    }
    for byte in [0, 81, u32::MAX] {
        assert!(WITH_FIELDS.iter().all(|kind| field(*kind, byte).is_none()), "{byte}");
    }
}

/// The item as the independent program has it.
fn is_same(item: &Item, other: Option<tape::Item>) -> bool {
    match (item.kind, other) {
        (Kind::TapeMark, Some(tape::Item::TapeMark)) => true,
        (Kind::EndOfReel, Some(tape::Item::EndOfReel)) => true,
        (Kind::EndOfImage, None) => true,
        (_, Some(tape::Item::Block(block))) => item.bytes == block,
        _ => false,
    }
}

#[test]
fn the_items_of_a_whole_set_are_those_of_the_independent_program() {
    let mut rng = Rng::new(31);
    for set in 0..300 {
        let image = whole(&mut rng);
        let mut tape = Tape::open(&image).expect("a head");
        for item in items(&image) {
            assert_eq!(item.number, tape.item(), "set {set}");
            assert!(is_same(&item, tape.next_item().expect("an item")), "set {set} {item:?}");
            assert_eq!(item.behind, tape.at(), "set {set}");
            assert!(item.kind != Kind::Other && item.kind != Kind::Torn, "set {set} {item:?}");
            if item.kind.is_label() {
                assert!(kind_of(item.bytes.try_into().expect("80 bytes")).is_some(), "set {set}");
                assert!(item.bytes.starts_with(item.kind.to_string().as_bytes()), "set {set}");
            }
        }
    }
}

#[test]
fn the_items_of_any_bytes_cover_all_that_is_behind_the_head() {
    let mut rng = Rng::new(32);
    for number in 0..2000 {
        let mut image = damaged(&mut rng);
        match number % 3 {
            0 => image.truncate(rng.below(image.len() + 1)),
            1 => (0..9).for_each(|_| {
                let at = rng.below(image.len().max(1));
                image.get_mut(at).into_iter().for_each(|byte| *byte = rng.byte());
            }),
            _ => {}
        }
        covers_all(&image);
    }
    (0..9).for_each(|length| covers_all(&vec![0; length]));
}

/// The items cut the bytes behind the head, or behind what is there of a head.
fn covers_all(image: &[u8]) {
    let mut at = 5.min(image.len());
    let mut last = None;
    for item in items(image) {
        assert_eq!(item.bytes, &image[item.at..item.behind], "{item:?}");
        assert!(item.behind > at || item.kind == Kind::EndOfImage, "{item:?}");
        (at, last) = (item.behind, Some(item.kind));
    }
    assert_eq!(at, image.len());
    assert!(matches!(last, Some(Kind::EndOfImage | Kind::Torn)), "{last:?}");
    is_hinted(items(image));
}

/// As many come as the hint allows, at every step, and behind the last one none.
fn is_hinted(mut items: Items) {
    loop {
        let (least, most) = items.size_hint();
        let left = items.clone().count();
        assert!(least <= left && left <= most.expect("a bound"), "{left} of {least} to {most:?}");
        if items.next().is_none() {
            assert_eq!((items.size_hint(), items.next()), ((0, Some(0)), None));
            return;
        }
    }
}

/// Other bytes than those of an accepted set have names of reels too, where VOL1 labels stand.
#[test]
fn the_names_of_reels_whatever_the_bytes() {
    let mut rng = Rng::new(34);
    let mut names = 0;
    for _ in 0..2000 {
        for name in reel_names(&damaged(&mut rng)) {
            assert_eq!(name.len(), 6);
            names += 1;
        }
    }
    assert!(names > 1000);
    assert_eq!(reel_names(b"TGI").count(), 0);
}

#[test]
fn a_verdict_names_an_item_and_a_field_that_are_there() {
    let mut rng = Rng::new(33);
    for number in 0..2000 {
        let image = damaged(&mut rng);
        let verdict = tardorelga::check(&image);
        if matches!(verdict.number, 0 | 1) || image.len() > 16_777_215 {
            continue;
        }
        let item = items(&image).nth(verdict.item as usize).expect("an item");
        assert_eq!(item.number, verdict.item);
        if verdict.byte > 0 {
            let field = field(item.kind, verdict.byte).expect("a field");
            assert_eq!(field.first, verdict.byte, "image {number}: {verdict}");
        }
    }
}
