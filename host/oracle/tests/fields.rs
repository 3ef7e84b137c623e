//! What a field and a label may hold, by themselves.

use cases::ledger::{base, base_with, label};
use oracle::generate::Piece;
use oracle::{is_a, is_date, kind_of, label_fault, number_of, Fault};

#[test]
fn characters() {
    let a = (0..=255).filter(|&byte| is_a(byte)).count();
    assert_eq!(a, 57, "8.1 of ECMA-13 counts 57");
    let others = b"#$@[\\]^`az{~\x1F\x7F\x80\xFF";
    assert!(others.iter().all(|&byte| !is_a(byte)));
    assert!(b" !\"%/09:?AZ_".iter().all(|&byte| is_a(byte)));
    assert_eq!(number_of(b"000120"), Some(120));
    assert_eq!(number_of(b"00 120"), None);
}

#[test]
fn dates() {
    for good in [" 85335", "000000", " 00000", " 85366", " 85001", "000366", "099001"] {
        assert!(is_date(good.as_bytes()), "{good} is good");
    }
    for wrong in [" 85000", "100001", " 85367", " 8533", " 853350", "85335 ", "0 0000", "001000"] {
        assert!(!is_date(wrong.as_bytes()), "{wrong} is wrong");
    }
}

#[test]
fn a_label_by_itself() {
    let fault = |piece: &Piece| match piece {
        Piece::Label(label) => label_fault(label, kind_of(label).expect("a kind")),
        _ => None,
    };
    assert_eq!(fault(&base()[1]), None);
    assert_eq!(fault(&base_with(&[(1, 74, "X")])[1]), Some(Fault::new(4, 74)));
    assert_eq!(fault(&base_with(&[(6, 54, "X")])[6]), Some(Fault::new(5, 54)));
    assert_eq!(fault(&label(&[(1, "UHL^")])), Some(Fault::new(4, 4)));
    assert_eq!(fault(&label(&[(1, "HDR3")])), None);
}
