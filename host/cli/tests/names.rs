//! Names of files can't forge a line: neither one on standard output nor one of a message.

mod common;

use common::{folder, root, run, Ran};
use std::ffi::{OsStr, OsString};
use std::fs;
use std::os::unix::ffi::{OsStrExt, OsStringExt};

/// A name, what is told of it, and whether in quotes.
type Name = (&'static [u8], &'static str, bool);

const NAMES: [Name; 11] = [
    (b"ledger.tgi", "ledger.tgi", false),
    (b"night shift \\n.tgi", "night shift \\n.tgi", false),
    ("Übersicht 夜.tgi".as_bytes(), "Übersicht 夜.tgi", false),
    (b"a\nb.tgi: accepted, 1 file", r"a\nb.tgi: accepted, 1 file", true),
    (b"a\tb", r"a\tb", true),
    (b"a\rb\x1b[2J\x7f\\\"", r#"a\x0db\x1b[2J\x7f\\\""#, true),
    (b"a\xff\xc3", r"a\xff\xc3", true),
    ("a\u{85}b".as_bytes(), r"a\xc2\x85b", true),
    ("a\u{2028}b".as_bytes(), r"a\xe2\x80\xa8b", true),
    ("a\u{202e}igt".as_bytes(), r"a\xe2\x80\xaeigt", true),
    ("a\u{2066}\u{200f}\u{61c}".as_bytes(), r"a\xe2\x81\xa6\xe2\x80\x8f\xd8\x9c", true),
];

/// How a name is told with what stands before and behind it.
fn told(before: &str, (_, inside, quoted): Name, behind: &str) -> String {
    let quote = if quoted { "\"" } else { "" };
    format!("{quote}{before}{inside}{behind}{quote}")
}

/// Words, of which `%` is the name.
fn run_on(words: &str, name: &OsStr) -> Ran {
    let word = |word: &str| if word == "%" { name.into() } else { OsString::from(word) };
    run(&words.split(' ').map(word).collect::<Vec<_>>())
}

fn path(folder: &str, name: &[u8]) -> OsString {
    OsString::from_vec([folder.as_bytes(), name].concat())
}

#[test]
fn check_prints_one_line_a_file_whatever_its_name() {
    let d = format!("{}/", folder("names-check").display());
    for name in NAMES {
        let file = path(&d, name.0);
        fs::copy(root().join("samples/ledger.tgi"), &file).unwrap();
        let line = format!("{}: accepted, 1 file, 1 record, 10 bytes\n", told(&d, name, ""));
        assert_eq!(run_on("check %", &file).done().text(), line);
    }
}

#[test]
fn every_message_is_one_line_whatever_the_name() {
    let reads = ["check %", "list %", "record % 1 1", "records % 1", "unpack % x", "pack % -o -"];
    let more = ["rewrite % --quota 1 --reels A -o -", "import % -o -", "export % -o -"];
    let reels = ["check --simh %", "list --simh %", "unpack --simh % x"];
    for words in reads.iter().chain(&more).chain(&reels) {
        for name in NAMES {
            let sentence = format!("{}: No such file or directory", told("", name, ""));
            run_on(words, OsStr::from_bytes(name.0)).told(2, &sentence);
        }
    }
}

#[test]
fn no_name_looks_like_another_in_quotes() {
    run(&["check", "\"a\""]).told(2, r#""\"a\"": No such file or directory"#);
    run(&["check", ""]).told(2, r#""": No such file or directory"#);
}

#[test]
fn a_message_on_an_output_is_one_line_whatever_its_name() {
    let d = format!("{}/none/", folder("names-outputs").display());
    for name in NAMES {
        let out = path(&d, name.0);
        let none = |behind: &str| format!("{}: No such file or directory", told(&d, name, behind));
        run_on("pack samples/ledger.sheet -o %", &out).told(2, &none(""));
        run_on("unpack samples/ledger.tgi %", &out).told(2, &none(""));
        run_on("export samples/ledger.tgi -o %", &out).told(2, &none("-1.tap"));
    }
}

/// A wrong word is told as a wrong piece of a sheet is: short, and in printable ASCII alone.
#[test]
fn a_wrong_word_is_told_in_one_way_whatever_it_is() {
    let words = [
        (&b"it's"[..], r#""it's""#.to_string()),
        ("夜\u{202e}".as_bytes(), r#""\xe5\xa4\x9c\xe2\x80\xae""#.into()),
        (b"-a\n\xff", r#""-a\n\xff""#.into()),
        (&[b'n'; 255], format!("\"{}\"..", "n".repeat(40))),
    ];
    for (word, told) in words {
        let first_line = |words: &str| {
            let ran = run_on(words, OsStr::from_bytes(word));
            assert_eq!((ran.status, ran.out.len()), (Some(2), 0));
            ran.err.lines().next().unwrap().to_string()
        };
        assert_eq!(first_line("%"), format!("tardorelga: no command {told}"));
        let number = format!("tardorelga: N is a number, not {told}");
        assert_eq!(first_line("records -- x %"), number);
        let more = format!("tardorelga: one word too many: {told}");
        assert_eq!(first_line("list -- x %"), more);
        assert_eq!(first_line("show -- x 1 %"), more);
    }
}

#[test]
fn json_has_the_bytes_of_a_name_that_is_no_text() {
    let d = format!("{}/", folder("names-json").display());
    let json = |name: &[u8]| {
        let file = path(&d, name);
        fs::copy(root().join("samples/ledger.tgi"), &file).unwrap();
        let line = run_on("check --json %", &file).done().text().to_string();
        let hex: String = d.bytes().map(|byte| format!("{byte:02x}")).collect();
        line.replace(&d, "D/").replace(&hex, "442f")
    };
    let rest = r#""accepted":true,"files":1,"records":1,"bytes":10}"#;
    let lossy = format!("{{\"file\":\"D/a\u{fffd}b\",\"file_hex\":\"442f61ff62\",{rest}\n");
    assert_eq!(json(b"a\xffb"), lossy);
    assert_eq!(json(b"a\nb\\"), format!(r#"{{"file":"D/a\u000ab\\",{rest}"#) + "\n");
    let separated = format!(r#"{{"file":"D/a\u2028\u0085b\u202e",{rest}"#) + "\n";
    assert_eq!(json("a\u{2028}\u{85}b\u{202e}".as_bytes()), separated);
}

#[test]
fn json_has_the_bytes_of_all_reels_where_one_is_no_text() {
    let words = ["check", "--json", "--simh", "samples/messages-1.tap"].map(OsString::from);
    let ran = run(&[&words[..], &[OsStr::from_bytes(b"a\xff").into()]].concat());
    let first: String = b"samples/messages-1.tap".iter().map(|b| format!("{b:02x}")).collect();
    let names = "[\"samples/messages-1.tap\",\"a\u{fffd}\"]";
    let start = format!("{{\"tapes\":{names},\"tapes_hex\":[\"{first}\",\"61ff\"],\"trouble\":");
    assert!(ran.text().starts_with(&start), "{}", ran.text());
}
