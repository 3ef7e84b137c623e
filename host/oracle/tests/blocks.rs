//! The records of data blocks, and the pieces of the rules by themselves.

use cases::blocks::{cuts, over_reels};
use oracle::generate::image_of;
use oracle::{cut_block, meaning, turns, OutOfTurn};

#[test]
fn records_of_blocks() {
    for cut in cuts() {
        let case = cut.case();
        let meaning = meaning(&case.image);
        let Ok(records) = cut.gives else {
            assert_eq!(meaning, None, "{case}");
            continue;
        };
        let records: Vec<Vec<u8>> = records.into_iter().map(String::into_bytes).collect();
        assert_eq!(meaning.expect("accepted").files[0].records, records, "{case}");
    }
}

#[test]
fn records_over_reels() {
    let set = over_reels(&[&[b"10006A"], &[], &[b"30006B"]]);
    let meaning = meaning(&image_of(&set)).expect("accepted");
    assert_eq!(meaning.files[0].records, [b"AB"], "over EOV and an empty section");
}

#[test]
fn pieces_of_the_rules() {
    let units = cut_block(b'S', 20, 10, 0, b"00006A10006B").expect("two units");
    assert_eq!(
        units.iter().map(|u| (u.indicator, u.start, u.len)).collect::<Vec<_>>(),
        [(0, 5, 1), (1, 11, 1)]
    );
    assert_eq!(turns(10, None, &units), Ok(Some(1)));
    assert_eq!(turns(10, Some(1), &units), Err(OutOfTurn));
    assert_eq!(cut_block(b'F', 20, 4, 0, b"ABCD^^^^E"), None);
}
