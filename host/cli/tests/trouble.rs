//! What a user may run into: files that are no images, streams that are closed, disks that are full.

mod common;

use common::{fed, folder, run, shell};
use std::fs::{self, OpenOptions};
use std::path::PathBuf;
use std::process::Command;
use std::thread::sleep;
use std::time::Duration;

#[test]
fn a_directory_is_no_image() {
    run(&["check", "samples"]).told(2, "samples: Is a directory; -r checks the images below it");
    run(&["records", "samples", "1"]).told(2, "samples: Is a directory");
    run(&["pack", "samples", "-o", "-"]).told(2, "samples: Is a directory");
}

#[test]
fn a_file_that_is_not_there_is_trouble() {
    run(&["check", "samples/none.tgi"]).told(2, "samples/none.tgi: No such file or directory");
    run(&["record", "none", "1", "1"]).told(2, "none: No such file or directory");
    run(&["pack", "none", "-o", "-"]).told(2, "none: No such file or directory");
}

#[test]
fn an_empty_file_is_refused() {
    let file = folder("empty").join("empty.tgi");
    fs::write(&file, b"").unwrap();
    let name = file.display();
    let ran = run(&["check", file.to_str().unwrap()]);
    let none = format!("{name}: refused 1 at item 0 byte 0: this is no image of a tape set");
    assert_eq!(ran.text(), format!("{none}\n"));
    assert_eq!((ran.status, &ran.err[..]), (Some(1), ""));
    run(&["records", file.to_str().unwrap(), "1"]).told(1, &none);
}

#[test]
fn closed_standard_input_is_trouble_and_not_an_empty_image() {
    let d = folder("closed-input");
    shell("$T check - <&-", &d).told(2, "standard input: Bad file descriptor");
    shell("$T records - 1 <&-", &d).told(2, "standard input: Bad file descriptor");
    shell("$T pack - -o $D/out <&-", &d).told(2, "standard input: Bad file descriptor");
    shell("$T check samples/ledger.tgi <&-", &d).done();
}

#[test]
fn closed_standard_output_is_trouble_and_not_success() {
    let d = folder("closed-output");
    let closed = "standard output: Bad file descriptor";
    shell("$T check samples/ledger.tgi >&-", &d).told(2, closed);
    shell("$T records samples/ledger.tgi 1 >&-", &d).told(2, closed);
    shell("$T pack samples/ledger.sheet -o - >&-", &d).told(2, closed);
    shell("$T --help >&-", &d).told(2, closed);
    shell("$T pack samples/ledger.sheet -o $D/out >&-", &d).done();
}

#[test]
fn a_message_never_lands_in_an_output_file() {
    let d = folder("closed-error");
    let ran = shell("$T pack samples/ledger.sheet -o $D/out <&- >&- 2>&-", &d).done();
    assert_eq!(ran.out, b"");
    assert_eq!(fs::read(d.join("out")).unwrap().len(), 448);
    assert_eq!(shell("$T check none - <&- >&- 2>&-", &d).status, Some(2));
}

/// Else what is meant for the stream would go to the file, or the file be taken for the input.
#[test]
fn no_file_gets_the_number_of_a_closed_stream() {
    let d = folder("closed-numbers");
    shell("mkfifo $D/sheet", &d).done();
    let sheet = d.join("sheet");
    let line = r#"exec "$T" pack "$1" -o /dev/null <&- >&- 2>&-"#;
    let mut command = Command::new("sh");
    command.args(["-c", line, "sh", sheet.to_str().unwrap()]);
    let mut program = command.env("T", env!("CARGO_BIN_EXE_tardorelga")).spawn().unwrap();
    let writer = OpenOptions::new().write(true).open(&sheet).unwrap();
    let numbers = PathBuf::from(format!("/proc/{}/fd", program.id()));
    let open = |number: &str| fs::read_link(numbers.join(number)).unwrap_or_default();
    while !common::names_in(&numbers).iter().any(|number| open(number) == sheet) {
        sleep(Duration::from_millis(1));
    }
    let streams = ["0", "1", "2"].map(open);
    drop(writer);
    assert_eq!(program.wait().unwrap().code(), Some(1), "an empty sheet");
    assert_eq!(streams, ["/dev/null"; 3].map(PathBuf::from));
}

#[test]
fn a_full_disk_is_trouble() {
    let d = folder("full");
    let full = "standard output: No space left on device";
    shell("$T check samples/ledger.tgi > /dev/full", &d).told(2, full);
    shell("$T records samples/ledger.tgi 1 > /dev/full", &d).told(2, full);
    shell("$T pack samples/ledger.sheet -o - > /dev/full", &d).told(2, full);
    let out = "/dev/full: No space left on device";
    shell("$T pack samples/ledger.sheet -o /dev/full", &d).told(2, out);
    let large = |name: &str| format!("{}/{name}: File too large", d.display());
    for limit in ["ulimit -f 0; trap '' XFSZ", "ulimit -f 0"] {
        let run = |words: &str| shell(&format!("{limit}; $T {words}"), &d);
        run("pack samples/ledger.sheet -o $D/out").told(2, &large("out"));
        run("pack --force samples/ledger.sheet -o $D/out").told(2, &large("out"));
        run("import samples/messages-1.tap -o $D/out").told(2, &large("out"));
        run("export samples/ledger.tgi -o $D/out").told(2, &large("out-1.tap"));
        run("unpack samples/ledger.tgi $D/out").told(2, &large("out"));
    }
    assert_eq!(common::names_in(&d), [""; 0], "nothing is left behind");
}

#[test]
fn a_reader_that_goes_away_ends_the_program_without_a_word() {
    let d = folder("pipe");
    fs::write(d.join("data"), vec![b'A'; 4_000_000]).unwrap();
    let sheet = "set SET001\nquota 99\nreel GATE01\nfile A\nformat F\nblock-length 80\n\
                 record-length 80\nquota 1";
    let sheet = sheet.replace("\nquota 1", "\ndata data each 80").replace("99", "999999");
    fs::write(d.join("sheet"), sheet).unwrap();
    shell("$T pack $D/sheet -o $D/big.tgi", &d).done();
    let ran = shell("$T records --hex $D/big.tgi 1 | head -c 10", &d).done();
    assert_eq!(ran.text(), "4141414141");
    let ignored = shell("trap '' PIPE; ($T records $D/big.tgi 1; echo $? >&2) | head -c 1", &d);
    assert_eq!((ignored.text(), &ignored.err[..]), ("A", "2\n"));
}

#[test]
fn wrong_words_are_told_with_the_usage() {
    let usage = "usage: tardorelga COMMAND ..";
    run::<&str>(&[]).told(2, &format!("no command\n{usage}"));
    run(&["mend"]).told(2, &format!("no command \"mend\"\n{usage}"));
    let usage = "usage: tardorelga check [-r] [--json | --quiet] (FILE.. | --simh REEL..)";
    run(&["check"]).told(2, &format!("no file is named\n{usage}"));
    run(&["check", "--all", "x"]).told(2, &format!("no option \"--all\" here\n{usage}"));
    let twice = "standard input is one image, and - is named twice";
    run(&["check", "-", "x", "-"]).told(2, &format!("{twice}\n{usage}"));
    let usage = "usage: tardorelga record [--hex | --lines] (FILE | --simh REEL..) N R";
    run(&["record", "x", "1"]).told(2, &format!("no number of a record is named\n{usage}"));
    run(&["record", "x", "one", "1"]).told(2, &format!("N is a number, not \"one\"\n{usage}"));
    let most = "N is a number of at most 18446744073709551615, not \"18446744073709551616\"";
    run(&["record", "x", "18446744073709551616", "1"]).told(2, &format!("{most}\n{usage}"));
    run(&["record", "x", "", "1"]).told(2, &format!("N is a number, not \"\"\n{usage}"));
    run(&["record", "x", "1", "1", "1"]).told(2, &format!("one word too many: \"1\"\n{usage}"));
    let both = format!("--hex and --lines exclude each other\n{usage}");
    run(&["record", "x", "1", "1", "--hex", "--lines"]).told(2, &both);
    let usage = "usage: tardorelga pack [--force] [--anywhere] SHEET -o OUT";
    run(&["pack", "x"]).told(2, &format!("-o is missing\n{usage}"));
    run(&["pack", "x", "-o"]).told(2, &format!("-o wants a value\n{usage}"));
    run(&["pack", "x", "-o", "a", "-o", "b"]).told(2, &format!("-o is given twice\n{usage}"));
}

#[test]
fn a_name_that_begins_with_a_hyphen_is_named_behind_two() {
    run(&["check", "--", "--json"]).told(2, "--json: No such file or directory");
    let d = folder("hyphen");
    shell("cp samples/ledger.tgi $D/-a.tgi", &d).done();
    let ran = shell("cd $D && $T check *", &d);
    let behind =
        "tardorelga: no option \"-a.tgi\" here; a file has this name, and is named behind --\n";
    assert!(ran.status == Some(2) && ran.err.starts_with(behind), "{}", ran.err);
    shell("cd $D && $T check -- *", &d).done();
}

#[test]
fn each_command_tells_its_use() {
    let all = run(&["--help"]).done();
    let commands = all.text().lines().filter_map(|line| line.strip_prefix("    "));
    let names: Vec<&str> = commands.filter_map(|line| line.split(' ').next()).collect();
    assert!(names.len() >= 4);
    for name in names {
        let help = run(&[name, "--help"]).done();
        assert!(help.text().starts_with(&format!("usage: tardorelga {name} ")), "{name}");
        assert_eq!(run(&[name, "-h"]).done().out, help.out);
    }
    assert_eq!(run(&["--version"]).done().text(), "tardorelga 0.1.0\n");
}

#[test]
fn both_ends_may_be_standard_streams() {
    let sheet = b"set SET001\nquota 1\nreel GATE01\nfile A\nformat D\nblock-length 9\nrecord-length 9\ntext HERE";
    let image = fed(&["pack", "-", "-o", "-"], sheet).done().out;
    assert_eq!(fed(&["record", "-", "1", "1"], &image).done().text(), "HERE");
    let d = folder("both-ends");
    let piped = shell("$T pack - -o - < samples/ledger.sheet | $T records - 1", &d).done();
    assert_eq!(piped.text(), "0123456789");
}
