//! The safe library on generated sets: its answers are those of the archive, put into types.

use cases::ledger::{base, files};
use oracle::generate::{illegal_order, image_of, legal_order, whole, Rng};
use oracle::{meaning, Answer, Meaning, Order};
use std::borrow::Cow;
use tardorelga::{Sheet, Verdict};
use trials::images;

fn answer(Verdict { number, item, byte }: Verdict) -> Answer {
    Answer::new(number, item, byte)
}

#[test]
fn the_set_of_the_examples() {
    assert_eq!(include_bytes!("../doc/ledger.tgi")[..], image_of(&base()));
}

/// By iterator, by number and by walk the records are those of the meaning.
fn reads(image: &[u8], Meaning { set, files }: &Meaning) {
    assert_eq!(tardorelga::file(image, 1).expect("a file").set_entry()[..], set[..]);
    let mut join = vec![0; tardorelga::LONGEST_RECORD];
    for (number, file) in (1..).zip(files) {
        let records = tardorelga::records(image, number).expect("the file is there");
        hands_out(records, &file.records);
        let mut walk = tardorelga::begin(image, number).expect("the file is there");
        for (at, bytes) in (1..).zip(&file.records) {
            let record = tardorelga::record(image, number, at, &mut join).expect("the record");
            assert_eq!(record, bytes, "by number");
            let (place, behind) = walk.step(image, &mut join).expect("a step");
            assert_eq!(place.of(image, &join), bytes, "by walk");
            walk = behind;
        }
        assert_eq!(walk.step(image, &mut join), Err(13));
        says(&tardorelga::file(image, number).expect("the file is there"), file);
    }
    let none = files.len() as u64 + 1;
    assert_eq!(tardorelga::records(image, none).map(|_| ()).map_err(|v| v.number), Err(13));
    assert_eq!(tardorelga::record(image, none, 1, &mut join).map_err(|v| v.number), Err(13));
    assert_eq!(tardorelga::file(image, none).map_err(|v| v.number), Err(13));
}

/// The iterator says before each record how many are left, and half way where it is asked only there; it
/// stays at its end.
fn hands_out(mut records: tardorelga::Records, due: &[Vec<u8>]) {
    let mut unasked = records.clone();
    unasked.by_ref().take(due.len() / 2).for_each(drop);
    assert_eq!(unasked.len(), due.len() - due.len() / 2);
    for (at, bytes) in due.iter().enumerate() {
        assert_eq!(records.len(), due.len() - at);
        assert_eq!(records.next().map(Cow::into_owned).as_ref(), Some(bytes), "the iterator");
    }
    assert_eq!((records.len(), records.next(), records.next()), (0, None, None));
}

/// More records than one call of the library finds, some of them of several segments.
#[test]
fn records_by_the_hundred() {
    let bytes = |n: usize| vec![b'A' + (n % 26) as u8; if n % 90 < 3 { 40 } else { 3 }];
    let due: Vec<_> = (0..500).map(bytes).collect();
    let mut order = tardorelga::Order::new("SET001");
    order.reel("GATE01").file("FULL", tardorelga::Format::Segmented, 30, 40).records(&due);
    let image = order.write().expect("a legal sheet");
    hands_out(tardorelga::records(&image, 1).expect("the file is there"), &due);
}

/// The files of a set one after the other are those by number, and `size_hint` never lies.
fn files_of(image: &[u8], Meaning { set, files }: &Meaning) {
    let mut iterator = tardorelga::files(image).expect("an accepted set");
    for (number, due) in (1..).zip(files) {
        let (least, most) = iterator.size_hint();
        let left = files.len() + 1 - number;
        assert!(least <= left && most.is_some_and(|most| left <= most && most <= 64));
        let file = iterator.next().expect("as many files");
        assert_eq!(Ok(file), tardorelga::file(image, number as u64));
        assert_eq!((file.sequence(), &file.set_entry()[..]), (number as u32, &set[..]));
        hands_out(file.records(), &due.records);
    }
    assert_eq!(iterator.size_hint(), (0, Some(0)));
    assert_eq!((iterator.next(), iterator.next()), (None, None));
}

/// Each field in the words of its type is the field as it stands in the label.
fn says(found: &tardorelga::File, file: &oracle::File) {
    assert_eq!(found.entry(), file.facts);
    let fields = [
        (format!("{:17}", found.identifier()), file.identifier()),
        (format!("{:04}", found.generation()), file.generation()),
        (format!("{:02}", found.version()), file.version()),
        (found.created().into(), file.creation()),
        (found.expires().into(), file.expiration()),
        (found.format().to_string(), &[file.format()]),
        (format!("{:05}", found.block_length()), file.block_length()),
        (format!("{:05}", found.record_length()), file.record_length()),
        (format!("{:6}", found.set()), &found.set_entry()),
    ];
    fields.iter().for_each(|(field, due)| assert_eq!(field.as_bytes(), *due));
    assert!(!found.identifier().ends_with(' ') && !found.set().ends_with(' '));
    let bytes: usize = file.records.iter().map(Vec::len).sum();
    assert_eq!((found.records().len(), found.bytes()), (file.records.len(), bytes as u64));
}

#[test]
fn records() {
    let rng = &mut Rng::new(31);
    for _ in 0..1_000 {
        let image = whole(rng);
        let meaning = meaning(&image).expect("a whole set");
        reads(&image, &meaning);
        files_of(&image, &meaning);
    }
}

#[test]
fn sixty_four_files() {
    let image = image_of(&files(64));
    let sequences: Vec<u32> =
        tardorelga::files(&image).unwrap().map(|file| file.sequence()).collect();
    assert!(sequences.iter().copied().eq(1..=64));
    let too_many = tardorelga::files(&image_of(&files(65))).map(|_| ()).unwrap_err();
    assert_eq!((too_many.number, too_many.item), (9, 449));
}

#[test]
fn refusals() {
    let rng = &mut Rng::new(32);
    for _ in 0..5_000 {
        let image = images::generated(rng);
        let verdict = tardorelga::check(&image);
        if !verdict.is_accepted() {
            assert_eq!(tardorelga::record(&image, 1, 1, &mut []), Err(verdict));
            assert_eq!(tardorelga::begin(&image, 1), Err(verdict));
            assert_eq!(tardorelga::file(&image, 1), Err(verdict));
            assert_eq!(tardorelga::rewrite(&image, 1, b"GATE01", &mut []), Err(verdict));
            assert_eq!(tardorelga::records(&image, 1).map(|_| ()), Err(verdict));
            assert_eq!(tardorelga::files(&image).map(|_| ()), Err(verdict));
        }
    }
}

fn sheet(order: &Order) -> Sheet<'_> {
    let oracle::Sheet { set, files, counts, lengths, data, quota, names } = order.sheet();
    Sheet { set, files, counts, lengths, data, quota, names }
}

#[test]
fn writing() {
    let rng = &mut Rng::new(33);
    let (mut one, mut other) = (vec![0; 3_000_000], vec![0; 3_000_000]);
    for round in 0..2_000 {
        let order = if round % 2 == 0 { legal_order(rng) } else { illegal_order(rng) };
        let due = order.sheet().write(&mut other);
        match tardorelga::write(&sheet(&order), &mut one) {
            Ok(len) => {
                assert_eq!((Answer::DONE, len), (due.answer, due.len));
                assert!(one[..len] == other[..len]);
            }
            Err(verdict) => assert_eq!(answer(verdict), due.answer),
        }
    }
}

/// What is shown of an image or of an order is short, however long they are.
#[test]
fn debug() {
    let mut order = tardorelga::Order::new("LONG");
    let mut file = order.reel("GATE01").file("LONG", tardorelga::Format::Fixed, 50_000, 50_000);
    file.records(std::iter::repeat_n([b'A'; 50_000], 9));
    let ordered = format!("{file:?}");
    let image = order.write().unwrap();
    let shown = [
        ordered,
        format!("{order:?} {:?}", order.sheet()),
        format!("{:?} {:?}", tardorelga::files(&image), tardorelga::file(&image, 1)),
        format!("{:?}", tardorelga::records(&image, 1)),
        format!("{:?}", tardorelga::items(&image)),
        format!("{:?}", tardorelga::items(&image).nth(4)),
        format!("{:?}", tardorelga::items(&image[..image.len() - 1]).last()),
    ];
    shown.iter().for_each(|text| assert!(text.len() < 600, "{} bytes: {text:.600}", text.len()));
}

/// All that is read or put together may be handed to other threads, and lent to them.
#[test]
fn threads() {
    fn crosses<T: Send + Sync>() {}
    crosses::<(tardorelga::Files, tardorelga::File, tardorelga::Records)>();
    crosses::<(tardorelga::Items, tardorelga::Item, tardorelga::Field, tardorelga::Kind)>();
    crosses::<(Sheet, tardorelga::Order, tardorelga::OrderedFile)>();
    crosses::<(tardorelga::Verdict, tardorelga::Walk, tardorelga::Place, tardorelga::Format)>();
    let image = image_of(&files(64));
    let count =
        || tardorelga::files(&image).unwrap().map(|file| file.records().count()).sum::<usize>();
    std::thread::scope(|scope| {
        let counts = [(); 4].map(|()| scope.spawn(count));
        assert!(counts.into_iter().all(|counted| counted.join().unwrap() == count()));
    });
}
