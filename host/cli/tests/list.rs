//! The listing.

mod common;

use common::{fed, in_json, root, run};
use std::fs;

#[test]
fn the_listing_has_a_line_a_file() {
    let listing = run(&["list", "samples/options.tgi"]).done();
    assert_eq!(
        listing.text(),
        "SEQ FILE              FMT RECORDS BYTES\n\
         0001 TIDE TABLE        F 5 40\n\
         0002 REMARKS           D 3 14\n\
         0003 SPARE             S 0 0\n"
    );
    let image = fs::read(root().join("samples/ledger.tgi")).unwrap();
    let listing = fed(&["list", "-"], &image).done();
    assert!(listing.text().ends_with("\n0001 LEDGER            F 1 10\n"));
}

#[test]
fn the_listing_of_a_refused_set_is_one_line() {
    let ran = run(&["list", "samples/refused-6.tgi"]);
    assert_eq!((ran.text(), ran.status), ("refused 6 at item 6 byte 55\n", Some(1)));
    run(&["list", "samples"]).told(2, "samples: Is a directory");
}

#[test]
fn json_has_the_set_its_reels_and_the_fields_of_each_file() {
    let ran = run(&["list", "--json", "samples/messages.tgi"]).done();
    assert_eq!(
        ran.text(),
        "{\"file\":\"samples/messages.tgi\",\"accepted\":true,\"set\":\"NIGHT7\",\
         \"reels\":[\"GATE01\",\"GATE02\",\"GATE03\"],\"files\":[\
         {\"sequence\":1,\"identifier\":\"MESSAGES\",\"generation\":1,\"version\":0,\
         \"created\":\" 86014\",\"expires\":\" 86365\",\"format\":\"S\",\"block_length\":24,\
         \"record_length\":60,\"records\":4,\"bytes\":54},\
         {\"sequence\":2,\"identifier\":\"INDEX\",\"generation\":1,\"version\":0,\
         \"created\":\" 86014\",\"expires\":\" 86365\",\"format\":\"D\",\"block_length\":64,\
         \"record_length\":20,\"records\":2,\"bytes\":15}]}\n"
    );
    let reels = ["samples/messages-1.tap", "samples/messages-2.tap", "samples/messages-3.tap"];
    let simh = run(&[&["list", "--json", "--simh"], &reels[..]].concat()).done();
    let tapes = format!("\"tapes\":{reels:?}").replace(", ", ",");
    assert_eq!(simh.text(), ran.text().replace("\"file\":\"samples/messages.tgi\"", &tapes));
}

#[test]
fn json_of_a_refused_set_has_its_number_place_and_words() {
    let ran = run(&["list", "--json", "samples/refused-6.tgi"]);
    let found = |expression: &str| in_json(&ran.out, expression);
    assert_eq!(found("v['accepted'], v['number'], v['item'], v['byte']"), "(False, 6, 6, 55)");
    assert_eq!(found("v['words']"), "labels, counts or names do not agree with each other");
    assert_eq!((found("'files' in v"), ran.status), ("False".into(), Some(1)));
    let torn = run(&["list", "--json", "--simh", "samples/ledger.tgi"]);
    assert_eq!(in_json(&torn.out, "v['tapes'], v['number']"), "(['samples/ledger.tgi'], 15)");
    assert_eq!(torn.status, Some(1));
}

/// As files have theirs: the SPACEs that fill a field up are no part of a name.
#[test]
fn json_has_short_names_without_what_fills_them_up() {
    let sheet = b"set B\nquota 1\nreel A\nfile C\nformat F\nblock-length 1\nrecord-length 1\n";
    let image = fed(&["pack", "-", "-o", "-"], sheet).done().out;
    for command in ["list", "show"] {
        let json = fed(&[command, "--json", "-"], &image).done().out;
        assert_eq!(in_json(&json, "v['set'], v['reels']"), "('B', ['A'])", "{command}");
    }
}
