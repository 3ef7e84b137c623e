//! Messages blame what is wrong and say what to do, and the exit status says whose fault it is.

mod common;

use common::{fed, folder, names_in, root, run, shell};
use std::ffi::OsString;
use std::fs;
use std::os::unix::ffi::OsStringExt;

const REWRITE: &str =
    "usage: tardorelga rewrite [--force] (FILE | --simh REEL..) --quota Q --reels A,B,.. -o OUT";
const UNPACK: &str = "usage: tardorelga unpack [--hex | --lines] [--quota Q] [--reels A,B,..] \
                      (FILE | --simh REEL..) DIR";
const CHARACTERS: &str =
    "capital letters, digits, SPACE and ! \" % & ' ( ) * + , - . / : ; < = > ? _";

/// Both commands that take a quota and reel names are called wrongly with these, before the input, which
/// is not there, is read.
fn called_wrongly(quota: &str, reels: &str, sentence: &str) {
    let rewrite = ["rewrite", "none", "--quota", quota, "--reels", reels, "-o", "-"];
    run(&rewrite).told(2, &format!("{sentence}\n{REWRITE}"));
    let unpack = ["unpack", "--quota", quota, "--reels", reels, "none", "none"];
    run(&unpack).told(2, &format!("{sentence}\n{UNPACK}"));
}

#[test]
fn an_illegal_quota_is_the_quota_s_fault() {
    for quota in ["0", "1000000", "18446744073709551616"] {
        called_wrongly(quota, "A", &format!("--quota is 1 to 999999, not {quota}"));
    }
    for quota in ["many", "-1", "", "1\n"] {
        let told = quota.replace('\n', "\\n");
        called_wrongly(quota, "A", &format!("--quota is 1 to 999999, not \"{told}\""));
    }
}

#[test]
fn an_illegal_reel_name_is_named() {
    let held = format!("is no reel name: a label holds {CHARACTERS}");
    called_wrongly("1", "gate01", &format!("--reels: \"gate01\" {held}"));
    called_wrongly("1", "A,B^,C", &format!("--reels: \"B^\" {held}"));
    called_wrongly("1", "A\n", &format!("--reels: \"A\\n\" {held}"));
    let joined = [&b"rewrite"[..], b"none", b"--quota=1", b"--reels=A\xff", b"-o", b"-"];
    let joined = joined.map(|word| OsString::from_vec(word.to_vec()));
    run(&joined).told(2, &format!("--reels: \"A\\xff\" {held}\n{REWRITE}"));
    let length = "is no reel name: one has 1 to 6 characters";
    called_wrongly("1", "", &format!("--reels: \"\" {length}"));
    called_wrongly("1", "A,", &format!("--reels: \"\" {length}"));
    called_wrongly("1", "A,GATE001", &format!("--reels: \"GATE001\" {length}"));
    called_wrongly("1", "A,B,A", "--reels: \"A\" is named twice");
    called_wrongly("1", "A,B,A ", "--reels: \"A \" is named twice");
}

#[test]
fn one_byte_is_no_bytes() {
    let sheet = b"set SET001\nquota 1\nreel GATE01\nfile A\nformat F\nblock-length 9\nrecord-length 9\ntext A";
    let one = "line 8: expected records that the file's format and record length allow; number 1 of this line has 1 byte";
    fed(&["pack", "-", "-o", "-"], sheet)
        .told(1, &format!("standard input: refused 11: the order sheet is illegal: {one}"));
}

#[test]
fn a_seventeenth_reel_name_is_one_too_many() {
    let names: Vec<String> = (1..=17).map(|number| format!("R{number}")).collect();
    let many = "--reels: 17 names are more than a set has reels, 1 to 16";
    called_wrongly("1", &names.join(","), many);
    let sixteen = names[..16].join(",");
    let words = ["rewrite", "none", "--quota", "1", "--reels", &sixteen, "-o", "-"];
    run(&words).told(2, "none: No such file or directory");
}

/// The message's list of characters is the library's.
#[test]
fn a_reel_name_may_have_the_characters_that_the_message_tells() {
    for byte in (1..=255).filter(|&byte| byte != b',') {
        let words = ["rewrite", "none", "--quota", "1", "-o", "-", "--reels"].map(OsString::from);
        let ran = run(&[&words[..], &[OsString::from_vec(vec![b'A', byte])]].concat());
        let told = byte.is_ascii_uppercase() || byte.is_ascii_digit() || byte == b' ';
        let told = told || CHARACTERS.split(' ').any(|sign| sign.as_bytes() == [byte]);
        assert_eq!(ran.err.contains("No such file"), told, "{byte}: {}", ran.err);
    }
}

/// The sentence on a sheet on standard input, which is refused.
fn refused(sheet: &str, sentence: &str) {
    let ran = fed(&["pack", "-", "-o", "-"], sheet.as_bytes());
    ran.told(1, &format!("standard input: refused {sentence}"));
}

#[test]
fn a_sheet_over_a_limit_has_its_line_named() {
    let limit = "9: over a limit: 16777215 bytes, 64 files, 16 reels";
    let head = "set SET001\nquota 9\nreel GATE01\n";
    let file = "file A\nformat F\nblock-length 1\nrecord-length 1\n";
    let files = format!("{head}{}", file.repeat(65));
    refused(&files, &format!("{limit}: line 260: expected at most 64 'file' lines on a sheet"));
    fed(&["pack", "-", "-o", "-"], format!("{head}{}", file.repeat(64)).as_bytes()).done();
    let reels: String = (1..=17).map(|number| format!("reel R{number}\n")).collect();
    let reels = format!("set SET001\n\n{reels}quota 1\n{file}");
    refused(&reels, &format!("{limit}: line 19: expected at most 16 'reel' lines on a sheet"));
    fed(&["pack", "-", "-o", "-"], reels.replace("reel R17\n", "").as_bytes()).done();
}

/// A sheet of so many reels and so many blocks.
fn sheet(quota: usize, reels: usize, blocks: usize) -> String {
    let reels: String = (1..=reels).map(|number| format!("reel R{number}\n")).collect();
    let file = "file A\nformat F\nblock-length 1\nrecord-length 1\n";
    format!("set SET001\nquota {quota}\n{reels}{file}{}", "text A\n".repeat(blocks))
}

#[test]
fn too_few_reels_are_told_with_how_many_are_needed() {
    let few = "12: more reels are needed than are named: the sheet has";
    refused(&sheet(1, 1, 2), &format!("{few} 1 'reel' line, and 2 are needed with quota 1"));
    refused(&sheet(2, 2, 31), &format!("{few} 2 'reel' lines, and 16 are needed with quota 2"));
    fed(&["pack", "-", "-o", "-"], sheet(2, 16, 31).as_bytes()).done();
    let none = "not even 16 suffice with quota 2; raise the quota";
    refused(&sheet(2, 2, 33), &format!("{few} 2 'reel' lines, and {none}"));
    refused(&sheet(2, 16, 33), &format!("{few} 16 'reel' lines, and {none}"));
}

/// 16 reels of the highest quota hold 15,999,984 blocks.
#[test]
fn blocks_for_which_no_quota_suffices_are_too_short() {
    let d = folder("no-quota");
    fs::write(d.join("sheet"), sheet(7, 1, 1).replace("text A", "data data each 1")).unwrap();
    fs::write(d.join("data"), vec![b'A'; 15_999_985]).unwrap();
    let few =
        "refused 12: more reels are needed than are named: the sheet has 1 'reel' line, and not \
               even 16 suffice, whatever the quota; make blocks longer";
    shell("$T pack $D/sheet -o $D/out", &d).told(1, &format!("{}/sheet: {few}", d.display()));
}

#[test]
fn too_few_reels_of_a_normal_form_are_told_with_how_many_are_needed() {
    let image = fed(&["pack", "-", "-o", "-"], sheet(999_999, 1, 33).as_bytes()).done().out;
    let rewrite = |quota: &str, reels: &str| {
        fed(&["rewrite", "-", "--quota", quota, "--reels", reels, "-o", "-"], &image)
    };
    let few = "standard input: refused 12: more reels are needed than are named: --reels names";
    rewrite("11", "A,B").told(1, &format!("{few} 2, and 3 are needed with quota 11"));
    rewrite("11", "A,B,C").done();
    let none = "not even 16 suffice with quota 2; raise the quota";
    rewrite("2", "A").told(1, &format!("{few} 1, and {none}"));
}

/// 209,688 records of 80 bytes fit on one reel, but not on two.
#[test]
fn an_image_that_its_reels_make_too_long_wants_a_higher_quota() {
    let d = folder("too-many-labels");
    let file = "file A\nformat F\nblock-length 32720\nrecord-length 80\ndata data each 80\n";
    let put = |quota: usize| {
        let head = format!("set SET001\nquota {quota}\nreel A\nreel B\n");
        fs::write(d.join("sheet"), head + file).unwrap();
    };
    fs::write(d.join("data"), vec![b'A'; 209_688 * 80]).unwrap();
    put(999_999);
    shell("$T pack $D/sheet -o $D/whole.tgi", &d).done();
    put(300);
    let long = "refused 14: the image would be longer than 16777215 bytes";
    let raise = "raise the quota, since fewer reels have fewer labels";
    let size = "its 209688 records have 16775040 bytes, and labels and blocks take more";
    let sentence = format!("{}/sheet: {long}: {size}; {raise}", d.display());
    shell("$T pack $D/sheet -o $D/out", &d).told(1, &sentence);
    let sentence = format!("{}/whole.tgi: {long}: {raise}", d.display());
    let rewrite = "$T rewrite $D/whole.tgi --quota 300 --reels A,B -o $D/out";
    shell(rewrite, &d).told(1, &sentence);
    assert_eq!(names_in(&d), ["data", "sheet", "whole.tgi"]);
}

#[test]
fn a_record_of_circumflexes_is_not_blamed_for_its_length() {
    let head = "set SET001\nquota 9\nreel GATE01\nfile A\nformat F\nblock-length 20\n\
                record-length 2\ntext AB\n";
    let illegal = "11: the order sheet is illegal";
    let padding = "expected records with another byte than circumflexes (5E)";
    refused(
        &format!("{head}text ^^\n"),
        &format!("{illegal}: line 9: {padding}; number 1 of this line has none, and would be read back as padding"),
    );
    let length = "expected records that the file's format and record length allow";
    refused(
        &format!("{head}text ^^^\n"),
        &format!("{illegal}: line 9: {length}; number 1 of this line has 3 bytes"),
    );
    let d = folder("circumflexes");
    fs::write(d.join("data"), "AB^A^^CD").unwrap();
    fs::write(d.join("sheet"), format!("{head}data data each 2\n")).unwrap();
    let third = "number 3 of this line has none, and would be read back as padding";
    let sentence = format!("{}/sheet: refused {illegal}: line 9: {padding}; {third}", d.display());
    shell("$T pack $D/sheet -o $D/out", &d).told(1, &sentence);
    assert_eq!(names_in(&d), ["data", "sheet"]);
}

/// What is done, what is refused, and what was called wrongly or the system failed at.
#[test]
fn the_exit_status_says_whose_fault_it_is() {
    let d = folder("statuses");
    fs::write(d.join("wrong"), "real GATE01\n").unwrap();
    fs::write(d.join("unread"), "set A\nfile A\nlines none\n").unwrap();
    fs::write(d.join("illegal"), "set SET001\nquota 0\nreel GATE01\n").unwrap();
    fs::write(d.join("feed"), sheet(1, 1, 1).replace("text A", "hex 0a")).unwrap();
    shell("$T pack $D/feed -o $D/feed.tgi", &d).done();
    let statuses = [
        (0, "check samples/ledger.tgi"),
        (1, "check samples/refused-6.tgi"),
        (1, "list samples/refused-6.tgi"),
        (1, "record samples/ledger.tgi 1 2"),
        (1, "record samples/ledger.tgi 2 1"),
        (1, "record samples/ledger.tgi 0 1"),
        (1, "records samples/ledger.tgi 2"),
        (1, "unpack samples/refused-6.tgi $D/none"),
        (1, "pack $D/wrong -o -"),
        (1, "pack $D/illegal -o -"),
        (1, "rewrite samples/refused-6.tgi --quota 1 --reels A -o -"),
        (1, "import samples/ledger.tgi -o -"),
        (1, "export samples/refused-2.tgi -o -"),
        (2, "check samples/refused-6.tgi $D/none"),
        (2, "pack $D/unread -o -"),
        (2, "pack $D/none -o -"),
        (2, "pack samples/ledger.sheet"),
        (2, "pack --force-it samples/ledger.sheet -o -"),
        (2, "record samples/ledger.tgi 1 one"),
        (2, "unpack --lines $D/feed.tgi $D/none"),
        (2, "export samples/messages.tgi -o -"),
        (2, "rewrite samples/ledger.tgi --quota 0 --reels A -o -"),
    ];
    for (status, words) in statuses {
        assert_eq!(shell(&format!("$T {words}"), &d).status, Some(status), "{words}");
    }
}

#[test]
fn the_help_and_the_manual_page_say_what_the_exit_status_says() {
    let help = run(&["--help"]).done();
    let statuses =
        "Exit status: 0 done, 1 the set or the sheet was refused, 2 it was called wrongly \
                    or the system failed.\n";
    assert!(help.text().ends_with(statuses));
    let page = fs::read_to_string(root().join("docs/tardorelga.1")).unwrap();
    let section = page.split(".SH EXIT STATUS").nth(1).expect("the section");
    let section = section.split(".SH").next().unwrap();
    for words in
        ["Done", "The set or the sheet was refused", "It was called wrongly, or the system"]
    {
        assert!(section.contains(words), "{words}");
    }
}
