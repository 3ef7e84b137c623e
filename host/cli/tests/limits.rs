//! A sheet is read as far as a sheet of the limits needs and no further, and its names stay in its folder.

mod common;

use common::{fed, folder, names_in, shell, Ran};
use std::fs::{self, File};
use std::os::unix::fs::symlink;
use std::path::Path;

const HEAD: &str = "set SET001\nquota 9\nreel GATE01\n";
const FILE: &str = "file LEDGER\nformat D\nblock-length 40\nrecord-length 30\n";

/// What a sheet whose records stand in files may take, beside the program itself.
const MEMORY: &str = "ulimit -v 60000; ";

const LINE: &str = "expected at most 1048576 bytes on a line";
const TEXT: &str = "expected at most 134217728 bytes of text on a sheet and in files of lines";
const BYTES: &str =
    "expected at most 16777215 bytes in all records of a sheet, as many as an image \
                     has; they pass it";

/// Writes a sheet with this line for the records of its file.
fn put_sheet(folder: &Path, line: &str) {
    fs::write(folder.join("sheet"), format!("{HEAD}{FILE}{line}\n")).unwrap();
}

fn pack(folder: &Path, words: &str) -> Ran {
    shell(&format!("{MEMORY} $T pack {words} -o $D/out"), folder)
}

/// Three gigabytes of zeros that take no room.
fn sparse(folder: &Path) {
    File::create(folder.join("sparse")).unwrap().set_len(3_000_000_000).unwrap();
}

#[test]
fn a_sheet_without_an_end_is_refused() {
    let d = folder("limits-sheet");
    sparse(&d);
    pack(&d, "/dev/zero").told(1, &format!("/dev/zero: line 1: {LINE}"));
    pack(&d, "- < /dev/zero").told(1, &format!("standard input: line 1: {LINE}"));
    pack(&d, "$D/sparse").told(1, &format!("{}/sparse: line 1: {LINE}", d.display()));
    let comments = "yes \"#$(head -c 8190 /dev/zero | tr '\\0' '#')\" | ";
    let ran = shell(&format!("{MEMORY} {comments} $T pack - -o $D/out"), &d);
    // 16,384 lines of 8,192 bytes are as much as there may be.
    ran.told(1, &format!("standard input: line 16385: {TEXT}"));
    assert_eq!(names_in(&d), ["sparse"]);
}

#[test]
fn a_named_file_without_an_end_is_refused() {
    let d = folder("limits-named");
    sparse(&d);
    fs::write(d.join("empty"), "").unwrap();
    for name in ["/dev/zero", "sparse"] {
        let cases = [
            (format!("data {name} each 80"), BYTES.to_string()),
            (format!("data {name} lengths empty"), BYTES.to_string()),
            (format!("lines {name}"), format!("{LINE}, on line 1 of {name}")),
            (format!("hex-lines {name}"), format!("{LINE}, on line 1 of {name}")),
            (format!("data empty lengths {name}"), format!("{LINE}, on line 1 of {name}")),
        ];
        for (line, what) in cases {
            put_sheet(&d, &line);
            let sentence = format!("{}/sheet: line 8: {what}", d.display());
            pack(&d, "--anywhere $D/sheet").told(1, &sentence);
        }
    }
}

#[test]
fn lines_without_an_end_are_refused() {
    let d = folder("limits-lines");
    fs::write(d.join("empty"), "").unwrap();
    let wide = " ".repeat(1000);
    let cases = [
        ("lines /dev/stdin", "x".repeat(1023), BYTES.to_string()),
        ("hex-lines /dev/stdin", "41".repeat(1000), format!("{BYTES} on line 16778 of /dev/stdin")),
        ("hex-lines /dev/stdin", wide.clone(), format!("{TEXT}, on line 134084 of /dev/stdin")),
        (
            "data empty lengths /dev/stdin",
            format!("0{wide}x 0"),
            format!("{TEXT}, on line 133550 of /dev/stdin"),
        ),
    ];
    for (line, text, what) in cases {
        put_sheet(&d, line);
        let sentence = format!("{}/sheet: line 8: {what}", d.display());
        let pack = format!("yes '{text}' | $T pack --anywhere $D/sheet -o $D/out");
        shell(&format!("{MEMORY} {pack}"), &d).told(1, &sentence);
    }
}

#[test]
fn a_sheet_has_room_for_the_records_of_the_longest_image() {
    let d = folder("limits-longest");
    let head = "set SET001\nquota 999999\nreel GATE01\nfile A\nformat F\nblock-length 99999\n\
                record-length 1\n";
    fs::write(d.join("sheet"), head.to_string() + &"hex 41\n".repeat(16_770_000)).unwrap();
    shell("$T pack $D/sheet -o $D/out", &d).done();
    let listed = shell("$T list $D/out", &d).done();
    assert!(listed.text().ends_with("0001 A                 F 16770000 16770000\n"));
    fs::remove_dir_all(&d).unwrap();
}

#[test]
fn names_stay_in_the_folder_of_the_sheet_unless_they_may_lead_anywhere() {
    let d = folder("limits-names");
    fs::create_dir_all(d.join("in/deep")).unwrap();
    fs::write(d.join("out.txt"), "OUTSIDE\n").unwrap();
    fs::write(d.join("in/a.txt"), "INSIDE\n").unwrap();
    symlink("../out.txt", d.join("in/link-out")).unwrap();
    symlink(&d, d.join("in/folder-out")).unwrap();
    symlink("deep/../a.txt", d.join("in/link-in")).unwrap();
    symlink("in", d.join("other-name")).unwrap();
    let absolute = |name: &str| d.join(name).display().to_string();
    let inside = ["a.txt", "./deep/../a.txt", "link-in", "../in/a.txt", &absolute("in/a.txt")];
    let outside = ["../out.txt", "link-out", "folder-out/out.txt", &absolute("out.txt")];
    let records = |words: &str| shell(&format!("$T pack {words} -o - | $T records - 1"), &d);
    for name in inside {
        put_sheet(&d.join("in"), &format!("lines [{name}]"));
        assert_eq!(records("$D/in/sheet").done().text(), "INSIDE", "{name}");
        assert_eq!(records("$D/other-name/sheet").done().text(), "INSIDE", "{name}");
        let there = "(cd $D/in && $T pack sheet -o - && $T pack - -o - < sheet) | wc -c";
        assert_eq!(shell(there, &d).done().text().trim(), "896", "{name}");
    }
    for name in outside {
        put_sheet(&d.join("in"), &format!("lines [{name}]"));
        let ran = pack(&d, "$D/in/sheet");
        let start = format!("tardorelga: {}: line 8: ", absolute("in/sheet"));
        assert!(ran.err.starts_with(&start) && ran.err.contains("--anywhere"), "{}", ran.err);
        assert_eq!((ran.status, ran.err.lines().count()), (Some(1), 1));
        let current = shell("cd $D/in && $T pack - -o - < sheet", &d);
        assert_eq!((current.status, current.out.len()), (Some(1), 0), "{name}");
        assert_eq!(records("--anywhere $D/in/sheet").done().text(), "OUTSIDE", "{name}");
    }
    assert!(!d.join("out").exists());
}

#[test]
fn each_file_that_a_sheet_names_stays_in_its_folder() {
    let d = folder("limits-each-name");
    fs::create_dir(d.join("in")).unwrap();
    for name in ["a", "in/a"] {
        fs::write(d.join(name), "41\n").unwrap();
    }
    let lines = ["lines ../a", "hex-lines ../a", "data ../a each 3", "data a lengths ../a"];
    for line in lines {
        put_sheet(&d.join("in"), line);
        told_to_lead_out(&d, "../a");
    }
}

fn told_to_lead_out(d: &Path, name: &str) {
    let (sheet, what) = (d.join("in/sheet"), "expected a name within the folder of the sheet");
    let out = format!("{what}; {name} leads out of it, which only pack --anywhere allows");
    pack(d, "$D/in/sheet").told(1, &format!("{}: line 8: {out}", sheet.display()));
}

#[test]
fn a_name_that_leads_out_is_refused_also_where_no_file_is() {
    let d = folder("limits-nowhere");
    fs::create_dir_all(d.join("in/sub")).unwrap();
    for name in ["../none", "../none/none", "sub/../../none", "/none", "/none/../none"] {
        put_sheet(&d.join("in"), &format!("lines {name}"));
        told_to_lead_out(&d, name);
    }
    let none = "line 8: expected a file that can be read; none/none: No such file or directory";
    put_sheet(&d.join("in"), "lines none/none");
    pack(&d, "$D/in/sheet").told(2, &format!("{}: {none}", d.join("in/sheet").display()));
}

#[test]
fn a_pipe_in_the_folder_is_not_waited_for() {
    let d = folder("limits-pipe");
    put_sheet(&d, "lines pipe");
    let sheet = d.join("sheet");
    let what =
        "expected a plain file; pipe is a pipe or a device, which only pack --anywhere reads";
    shell("mkfifo $D/pipe; timeout 20 $T pack $D/sheet -o $D/out", &d)
        .told(1, &format!("{}: line 8: {what}", sheet.display()));
    let line =
        "echo HERE > $D/pipe & timeout 20 $T pack --anywhere $D/sheet -o - | $T records - 1; wait";
    assert_eq!(shell(line, &d).done().text(), "HERE");
}

/// What stands between the quotes of an echo, or is told bare.
#[test]
fn what_is_echoed_of_a_line_is_short_and_has_no_control_character() {
    let told = |sheet: &[u8]| {
        let ran = fed(&["pack", "-", "-o", "-"], sheet);
        assert_eq!(ran.err.lines().count(), 1, "{}", ran.err);
        assert!(ran.err.len() < 320 && !ran.err.trim_end().contains(char::is_control));
        (ran.status, ran.err.trim_end().rsplit("found ").next().unwrap().to_string())
    };
    let long = told(&b"a".repeat(1000));
    assert_eq!(long, (Some(1), format!("\"{}\"..", "a".repeat(40))));
    assert_eq!(told(b"\x1b[2J\x07\x00"), (Some(1), r#""\x1b[2J\x07\x00""#.into()));
    assert_eq!(told("\u{202e}\u{9b}".as_bytes()).1, r#""\xe2\x80\xae\xc2\x9b""#);
    assert_eq!(told("\u{feff}set Ü".as_bytes()).1, r#""\xef\xbb\xbfset""#);
    assert_eq!(told(b"\xff\x80\"\\").1, r#""\xff\x80\"\\""#);
    assert_eq!(told(&[7; 1000]).1, format!("\"{}\"..", r"\x07".repeat(10)));
    let named = |name: &[u8]| told(&[HEAD.as_bytes(), FILE.as_bytes(), b"lines ", name].concat());
    let unread = |(status, said): (Option<i32>, String)| {
        (status, said.rsplit("read; ").next().unwrap().to_string())
    };
    let long = format!("\"{}\"..: File name too long", "a".repeat(40));
    assert_eq!(unread(named(&b"a".repeat(5000))), (Some(2), long));
    let odd = r#""none\x1b[2J\xff": No such file or directory"#;
    assert_eq!(unread(named(b"none\x1b[2J\xff")), (Some(2), odd.into()));
}
