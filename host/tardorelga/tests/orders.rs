//! Order sheets that are put together piece by piece.

use oracle::generate::{whole, Rng};
use tardorelga::{Format, Order};

/// An order of the files of a set, as they were read, writes its normal form.
#[test]
fn files_that_were_read() {
    let rng = &mut Rng::new(34);
    let mut normal = vec![0; 3_000_000];
    for _ in 0..1_000 {
        let image = whole(rng);
        let quota = 1 + rng.below(20) as u64;
        let mut order = Order::new(tardorelga::file(&image, 1).expect("a file").set());
        order.quota(quota).reel("A").reel("B").reel("C").reel("D").reel("E");
        for file in tardorelga::files(&image).expect("a set") {
            order.copy(&file);
        }
        let due = tardorelga::rewrite(&image, quota, order.sheet().names, &mut normal);
        assert_eq!(order.write(), due.map(|len| normal[..len].to_vec()));
    }
}

/// What fits its field is put there as it is; the library judges it.
#[test]
fn values_at_the_width_of_their_fields() {
    let mut order = Order::new("A");
    order.reel("").reel("GATE01").quota(7);
    order.file("", Format::Segmented, 0, 99_999).generation(9_999).version(99);
    order.file("SEVENTEEN LETTERS", Format::Variable, 99_999, 5).expires("099366").record(b"");
    let sheet = order.sheet();
    assert_eq!((sheet.set, sheet.names, sheet.quota), (&b"A     "[..], &b"      GATE01"[..], 7));
    let one = "                 999999 00000 00000S0000099999";
    let other = "SEVENTEEN LETTERS000100 00000099366D9999900005";
    assert_eq!(sheet.files, [one, other].concat().as_bytes());
    assert_eq!((sheet.counts, sheet.lengths), (&[0, 1][..], &[0][..]));
}

/// The number of a refusal, or 0, for an order of one file after a change.
fn number(set: &str, reel: &str, change: fn(&mut Order)) -> u32 {
    let mut order = Order::new(set);
    order.reel(reel);
    change(&mut order);
    order.write().map_or_else(|verdict| verdict.number, |_| 0)
}

fn ledger(order: &mut Order) {
    order.file("LEDGER", Format::Fixed, 20, 10);
}

/// A value that is longer than its field is never cut to a legal one.
#[test]
fn values_that_do_not_fit_are_refused() {
    assert_eq!(number("SET001", "GATE01", ledger), 0);
    assert_eq!(number("SET0012", "GATE01", ledger), 11);
    assert_eq!(number("SET001", "GATE012", ledger), 11);
    let changes: [fn(&mut Order); 7] = [
        |order| _ = order.file("EIGHTEEN LETTERS X", Format::Fixed, 20, 10),
        |order| _ = order.file("LEDGER", Format::Fixed, 100_020, 10),
        |order| _ = order.file("LEDGER", Format::Segmented, 20, 100_010),
        |order| _ = order.file("LEDGER", Format::Fixed, 20, 10).generation(10_001),
        |order| _ = order.file("LEDGER", Format::Fixed, 20, 10).version(100),
        |order| _ = order.file("LEDGER", Format::Fixed, 20, 10).created(" 853355"),
        |order| _ = order.file("LEDGER", Format::Fixed, 20, 10).expires("\u{c9}85335"),
    ];
    changes.iter().for_each(|change| assert_eq!(number("SET001", "GATE01", *change), 11));
}

/// The library's numbers come through: no reels, a 65th file, too few reels, an image that is too long.
#[test]
fn refusals() {
    let mut order = Order::new("SET001");
    ledger(&mut order);
    assert_eq!(order.write().unwrap_err().number, 11);
    order.reel("GATE01").quota(1);
    for _ in 0..64 {
        ledger(&mut order);
    }
    assert_eq!(order.write().unwrap_err().number, 9);
    let mut order = Order::new("SET001");
    order.quota(1).reel("GATE01").file("LEDGER", Format::Fixed, 10, 10).records(["0123456789"; 2]);
    assert_eq!(order.write().unwrap_err().number, 12);
    let mut order = Order::new("SET001");
    let mut long = order.reel("GATE01").file("LONG", Format::Fixed, 99_999, 99_999);
    long.records(std::iter::repeat_n(&[b'A'; 99_999], 168));
    assert_eq!(order.write().unwrap_err().number, 14);
}
