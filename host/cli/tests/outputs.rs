//! An output file appears whole or not at all, and nothing is written over by surprise.

mod common;

use common::{
    at_once, folder, give_away, mode, names_in, owner_of, root, run, shell, unwritable, Ran,
};
use std::ffi::OsString;
use std::fs;
use std::os::unix::ffi::{OsStrExt, OsStringExt};
use std::os::unix::fs::{symlink, PermissionsExt};
use std::path::{Path, PathBuf};

/// Each command that writes one file, without its output.
const WRITERS: [&str; 3] = [
    "pack samples/ledger.sheet",
    "rewrite samples/ledger.tgi --quota 1 --reels GATE01",
    "import samples/messages-1.tap samples/messages-2.tap samples/messages-3.tap",
];

const THERE: &str = "is there already; choose another name, or write over it with --force";
const INPUT: &str = "is the input itself; choose another name, or write over it with --force";

fn write(path: &Path, text: &str, mode: u32) {
    fs::write(path, text).unwrap();
    fs::set_permissions(path, fs::Permissions::from_mode(mode)).unwrap();
}

fn told(ran: Ran, file: PathBuf, what: &str) {
    ran.told(2, &format!("{}: {what}", file.display()));
}

/// What a writer writes to standard output.
fn whole(writer: &str) -> Vec<u8> {
    shell(&format!("$T {writer} -o -"), &root()).done().out
}

#[test]
fn an_output_that_is_there_is_refused() {
    let d = folder("there");
    write(&d.join("plain"), "old", 0o640);
    write(&d.join("read-only"), "old", 0o400);
    fs::write(d.join("empty"), "").unwrap();
    symlink("plain", d.join("link")).unwrap();
    symlink("nowhere", d.join("dangling")).unwrap();
    symlink("loop", d.join("loop")).unwrap();
    let before = names_in(&d);
    for writer in WRITERS {
        for name in ["plain", "read-only", "empty", "link", "dangling"] {
            told(shell(&format!("$T {writer} -o $D/{name}"), &d), d.join(name), THERE);
        }
        let links = "Too many levels of symbolic links";
        told(shell(&format!("$T {writer} -o $D/loop"), &d), d.join("loop"), links);
    }
    assert_eq!(names_in(&d), before);
    assert_eq!(fs::read(d.join("plain")).unwrap(), b"old");
    assert_eq!(fs::read(d.join("read-only")).unwrap(), b"old");
    assert_eq!((mode(&d.join("plain")), mode(&d.join("read-only"))), (0o640, 0o400));
}

/// The refusal comes before the input is read: here there is none.
#[test]
fn an_output_that_is_there_is_refused_first() {
    let d = folder("there-first");
    fs::write(d.join("out"), "old").unwrap();
    told(shell("$T pack $D/none -o $D/out", &d), d.join("out"), THERE);
    told(shell("$T import $D/none -o $D/out", &d), d.join("out"), THERE);
    fs::create_dir(d.join("full")).unwrap();
    fs::write(d.join("full/file"), "old").unwrap();
    let full = "is there already, and not empty; choose another name";
    told(shell("$T unpack $D/none $D/full", &d), d.join("full"), full);
}

#[test]
fn the_input_is_refused_under_any_name() {
    let d = folder("input");
    let copy = "cp samples/ledger.tgi $D/a && ln $D/a $D/hard && ln -s a $D/soft";
    shell(copy, &d).done();
    let rewrite = |from: &str, to: &str, more: &str| {
        let words = "--quota 1 --reels GATE01";
        shell(&format!("$T rewrite {from} {words} -o $D/{to} {more}"), &d)
    };
    for to in ["a", "hard", "soft"] {
        told(rewrite("$D/a", to, ""), d.join(to), INPUT);
        told(rewrite("-", to, "< $D/a"), d.join(to), INPUT);
        told(rewrite("/dev/stdin", to, "< $D/a"), d.join(to), INPUT);
    }
    let words = "--quota 1 --reels GATE01 -o /dev/stdout >> $D/a";
    shell(&format!("$T rewrite $D/hard {words}"), &d).told(2, &format!("/dev/stdout: {INPUT}"));
    shell("cp samples/ledger.sheet $D/sheet && cp $D/a $D/b-1.tap", &d).done();
    told(shell("$T pack $D/sheet -o $D/sheet", &d), d.join("sheet"), INPUT);
    told(shell("$T import $D/sheet $D/a -o $D/a", &d), d.join("a"), INPUT);
    told(shell("$T export $D/b-1.tap -o $D/b", &d), d.join("b-1.tap"), INPUT);
    shell("cmp $D/a samples/ledger.tgi && cmp $D/sheet samples/ledger.sheet", &d).done();
    rewrite("$D/a", "a", "--force").done();
    shell("$T check $D/a", &d).done();
}

#[test]
fn an_older_file_is_replaced_by_force_and_keeps_its_mode_and_owner() {
    let d = folder("replaced");
    for writer in WRITERS {
        for old in [0o640, 0o400, 0o000, 0o666, 0o4755] {
            let out = d.join("out.tgi");
            fs::write(&out, "old").unwrap();
            let owner = give_away(&out);
            fs::set_permissions(&out, fs::Permissions::from_mode(old)).unwrap();
            shell(&format!("umask 077; $T {writer} --force -o $D/out.tgi"), &d).done();
            assert_eq!((mode(&out), owner_of(&out)), (old, owner));
            fs::set_permissions(&out, fs::Permissions::from_mode(0o600)).unwrap();
            assert_eq!(fs::read(&out).unwrap(), whole(writer));
            assert_eq!(names_in(&d), ["out.tgi"]);
            fs::remove_file(&out).unwrap();
        }
    }
}

#[test]
fn a_new_file_has_the_usual_mode_also_by_force() {
    let d = folder("usual");
    for (mask, usual) in [("077", 0o600), ("027", 0o640), ("0", 0o666)] {
        for force in ["", "--force"] {
            let line =
                format!("umask {mask}; $T pack {force} samples/ledger.sheet -o $D/{mask}{force}");
            shell(&line, &d).done();
            assert_eq!(mode(&d.join(format!("{mask}{force}"))), usual);
        }
    }
}

#[test]
fn reels_are_replaced_by_force_all_or_none() {
    let d = folder("replaced-reels");
    for (number, mode) in [(1, 0o640), (2, 0o400)] {
        write(&d.join(format!("a-{number}.tap")), "old", mode);
    }
    told(shell("$T export samples/messages.tgi -o $D/a", &d), d.join("a-1.tap"), THERE);
    fs::create_dir(d.join("a-3.tap")).unwrap();
    let odd = "is there already, and no plain file; remove it, or choose another name with -o";
    told(shell("$T export --force samples/messages.tgi -o $D/a", &d), d.join("a-3.tap"), odd);
    fs::remove_dir(d.join("a-3.tap")).unwrap();
    symlink("a-2.tap", d.join("a-3.tap")).unwrap();
    told(shell("$T export --force samples/messages.tgi -o $D/a", &d), d.join("a-3.tap"), odd);
    fs::remove_file(d.join("a-3.tap")).unwrap();
    let large = "ulimit -f 1; $T export --force samples/messages.tgi -o $D/a";
    told(shell(large, &d), d.join("a-3.tap"), "File too large");
    assert_eq!(names_in(&d), ["a-1.tap", "a-2.tap"]);
    assert_eq!(fs::read(d.join("a-1.tap")).unwrap(), b"old");
    shell("$T export --force samples/messages.tgi -o $D/a", &d).done();
    assert_eq!((mode(&d.join("a-1.tap")), mode(&d.join("a-2.tap"))), (0o640, 0o400));
    assert_eq!(names_in(&d), ["a-1.tap", "a-2.tap", "a-3.tap"]);
    shell("$T import $D/a-1.tap $D/a-2.tap $D/a-3.tap -o - | cmp - samples/messages.tgi", &d)
        .done();
    let behind =
        "is there already, and would be taken for a reel of this set; remove it, or choose \
                  another name with -o";
    told(shell("$T export --force samples/ledger.tgi -o $D/a", &d), d.join("a-2.tap"), behind);
}

#[test]
fn of_several_that_write_one_file_at_once_one_is_done() {
    let d = folder("at-once");
    let whole = whole(WRITERS[0]);
    for round in 0..20 {
        let out = d.join(round.to_string());
        let ran = at_once(4, &["pack", "samples/ledger.sheet", "-o", out.to_str().unwrap()]);
        let (done, others): (Vec<_>, Vec<_>) =
            ran.into_iter().partition(|ran| ran.status == Some(0));
        assert_eq!((done.len(), others.len()), (1, 3));
        others.into_iter().for_each(|ran| told(ran, out.clone(), THERE));
        assert_eq!(fs::read(&out).unwrap(), whole);
        let words = ["pack", "--force", "samples/ledger.sheet", "-o", out.to_str().unwrap()];
        at_once(4, &words).into_iter().for_each(|ran| drop(ran.done()));
        assert_eq!(fs::read(&out).unwrap(), whole);
    }
    assert_eq!(names_in(&d).len(), 20, "nothing is left beside them");
}

#[test]
fn of_several_that_export_at_once_one_is_done() {
    let d = folder("export-at-once");
    for round in 0..10 {
        let name = d.join(format!("{round}"));
        let ran = at_once(3, &["export", "samples/messages.tgi", "-o", name.to_str().unwrap()]);
        let done = ran.iter().filter(|ran| ran.status == Some(0)).count();
        assert!(done == 1 && ran.iter().all(|ran| matches!(ran.status, Some(0 | 2))), "{ran:?}");
        assert_eq!(common::reels_named(&name).len(), 3);
    }
    assert!(names_in(&d).iter().all(|name| name.ends_with(".tap")));
}

#[test]
fn an_open_descriptor_is_written_through() {
    let d = folder("descriptors");
    let whole = whole(WRITERS[0]);
    symlink("/dev/stdout", d.join("link")).unwrap();
    let names = ["-", "/dev/stdout", "/dev/fd/1", "/proc/self/fd/1", "/dev/../dev/fd/1", "$D/link"];
    for name in names {
        for force in ["", "--force"] {
            fs::write(d.join("log"), "before\n").unwrap();
            let pack = format!("$T pack {force} samples/ledger.sheet -o {name}");
            shell(&format!("{pack} >> $D/log; echo behind >> $D/log"), &d).done();
            let log = fs::read(d.join("log")).unwrap();
            assert_eq!(log, [b"before\n", &whole[..], b"behind\n"].concat(), "{name}");
            assert_eq!(shell(&format!("{pack} | cat"), &d).done().out, whole, "{name}");
        }
    }
    fs::write(d.join("log"), "before\n").unwrap();
    shell("$T pack samples/ledger.sheet -o /dev/fd/7 7>> $D/log", &d).done();
    assert_eq!(fs::read(d.join("log")).unwrap(), [b"before\n", &whole[..]].concat());
    let place = "(echo before; $T pack samples/ledger.sheet -o /dev/stderr 2>&1; echo behind)";
    shell(&format!("{place} > $D/log"), &d).done();
    assert_eq!(fs::read(d.join("log")).unwrap(), [b"before\n", &whole[..], b"behind\n"].concat());
    assert_eq!(names_in(&d), ["link", "log"]);
}

/// What export names is how the names of reels begin, but for these.
#[test]
fn a_reel_is_written_through_too() {
    let d = folder("descriptor-reel");
    let whole = shell("$T export samples/ledger.tgi -o -", &d).done().out;
    for name in ["/dev/stdout", "/dev/fd/1", "/proc/self/fd/1"] {
        fs::write(d.join("log"), "before\n").unwrap();
        shell(&format!("$T export samples/ledger.tgi -o {name} >> $D/log"), &d).done();
        assert_eq!(fs::read(d.join("log")).unwrap(), [b"before\n", &whole[..]].concat(), "{name}");
        let several = format!("has 3 reels, and {name} takes one; name their files with -o NAME");
        shell(&format!("$T export samples/messages.tgi -o {name}"), &d)
            .told(2, &format!("samples/messages.tgi: {several}"));
    }
    let line = "mkfifo $D/pipe; $T export samples/ledger.tgi -o $D/pipe & cat $D/pipe; wait";
    assert_eq!(shell(line, &d).done().out, whole);
    assert_eq!(names_in(&d), ["log", "pipe"]);
}

#[test]
fn a_descriptor_that_cannot_be_written_is_trouble() {
    let d = folder("no-descriptor");
    let pack = |how: &str| shell(&format!("$T pack samples/ledger.sheet -o {how}"), &d);
    fs::write(d.join("input"), "old").unwrap();
    pack("/dev/fd/9").told(2, "/dev/fd/9: No such file or directory");
    for how in ["/dev/stdout >&-", "/dev/stdin <&-", "/dev/stdin < $D/input"] {
        let name = how.split(' ').next().unwrap();
        pack(how).told(2, &format!("{name}: Bad file descriptor"));
    }
    assert_eq!(pack("/dev/stderr 2>&-").status, Some(2));
    pack("/dev/stdout > /dev/full").told(2, "/dev/stdout: No space left on device");
    assert_eq!(fs::read(d.join("input")).unwrap(), b"old");
}

#[test]
fn a_pipe_that_nobody_reads_ends_the_program_without_a_word() {
    let d = folder("unread");
    for name in ["-", "/dev/stdout"] {
        let until_gone = "while [ ! -e $D/gone ]; do sleep 0.01; done";
        let pack = format!("$T pack samples/ledger.sheet -o {name}; echo $? >&2");
        let line = format!("trap '' PIPE; ({until_gone}; {pack}) | (exec <&-; : > $D/gone)");
        assert_eq!(shell(&line, &d).err, "2\n");
        fs::remove_file(d.join("gone")).unwrap();
    }
}

#[test]
fn a_refusal_writes_nothing_and_leaves_what_was_there() {
    let d = folder("refusal");
    fs::write(d.join("sheet"), "set SET001\nquota 0\nreel GATE01\n").unwrap();
    fs::write(d.join("out"), "old").unwrap();
    assert_eq!(shell("$T pack --force $D/sheet -o $D/out", &d).status, Some(1));
    assert_eq!(shell("$T pack $D/sheet -o $D/new", &d).status, Some(1));
    assert_eq!(fs::read(d.join("out")).unwrap(), b"old");
    assert_eq!(names_in(&d), ["out", "sheet"]);
}

#[test]
fn a_folder_that_is_not_there_is_trouble() {
    let d = folder("no-folder");
    let none = format!("{}/a/out: No such file or directory", d.display());
    shell("$T pack samples/ledger.sheet -o $D/a/out", &d).told(2, &none);
    let folder = format!("{}: is a directory", d.display());
    shell("$T pack samples/ledger.sheet -o $D", &d).told(2, &folder);
    shell("$T pack --force samples/ledger.sheet -o $D", &d).told(2, &folder);
    shell("$T pack samples/ledger.sheet -o ''", &d).told(2, "\"\": is no name for an output");
}

#[test]
fn a_folder_that_is_read_only_is_trouble() {
    let locked = unwritable(&folder("locked"));
    let name = locked.join("out");
    for words in WRITERS.map(|writer| format!("{writer} -o")).iter().map(String::as_str).chain([
        "pack --force samples/ledger.sheet -o",
        "export samples/ledger.tgi -o",
        "unpack samples/ledger.tgi",
    ]) {
        let ran = shell(&format!("$T {words} {}", name.display()), &root());
        let reel = if words.starts_with("export") { "-1.tap" } else { "" };
        let around = "the folder around it may not be written to; choose a place in another one";
        ran.told(2, &format!("{}{reel}: {around}", name.display()));
        assert!(!name.exists());
    }
}

/// Such a folder can't be synced by itself.
#[test]
fn a_folder_that_may_be_written_and_not_read_takes_an_output() {
    let d = folder("drop-box");
    let set = |mode| fs::set_permissions(&d, fs::Permissions::from_mode(mode)).unwrap();
    set(0o300);
    let (pack, unpack) = (
        shell("$T pack samples/ledger.sheet -o $D/out", &d),
        shell("$T unpack samples/ledger.tgi $D/folder", &d),
    );
    set(0o700);
    pack.done();
    unpack.done();
    assert_eq!(names_in(&d), ["folder", "out"]);
}

#[test]
fn a_link_stays_a_link() {
    let d = folder("linked");
    fs::create_dir(d.join("below")).unwrap();
    write(&d.join("below/out"), "old", 0o640);
    symlink("below/second", d.join("first")).unwrap();
    symlink("out", d.join("below/second")).unwrap();
    symlink("below/new", d.join("dangling")).unwrap();
    for link in ["first", "dangling"] {
        shell(&format!("$T pack --force samples/ledger.sheet -o $D/{link}"), &d).done();
        assert!(fs::symlink_metadata(d.join(link)).unwrap().is_symlink());
        assert_eq!(fs::read(d.join(link)).unwrap().len(), 448);
    }
    assert_eq!(mode(&d.join("below/out")), 0o640);
    assert_eq!(names_in(&d.join("below")), ["new", "out", "second"]);
}

#[test]
fn a_device_or_a_pipe_is_written_to_and_stays_what_it_is() {
    let d = folder("device");
    shell("$T pack samples/ledger.sheet -o /dev/null", &d).done();
    shell("$T pack --force samples/ledger.sheet -o /dev/null", &d).done();
    let device = fs::metadata("/dev/null").unwrap();
    assert!(!device.is_file());
    let line =
        "mkfifo $D/pipe; $T pack samples/ledger.sheet -o $D/pipe & $T records $D/pipe 1; wait";
    assert_eq!(shell(line, &d).done().text(), "0123456789");
}

/// The longest name, one that is no text, one with a line feed, and one of blanks and a hyphen.
fn odd_names() -> [Vec<u8>; 4] {
    [vec![b'n'; 255], b"\xFF\xFE\x80".to_vec(), b"a\nb: accepted".to_vec(), b" - ".to_vec()]
}

#[test]
fn outputs_have_any_name() {
    let d = folder("names");
    for name in odd_names() {
        let out = d.join(OsString::from_vec(name.clone())).into_os_string();
        let with = |words: &str, end: &[OsString]| -> Ran {
            let words = words.split(' ').map(OsString::from).chain(end.iter().cloned());
            run(&words.collect::<Vec<_>>())
        };
        for writer in WRITERS {
            with(writer, &["-o".into(), out.clone()]).done();
            assert_eq!(with(writer, &["-o".into(), out.clone()]).status, Some(2));
            with(writer, &["--force".into(), "-o".into(), out.clone()]).done();
            assert_eq!(fs::read(&out).unwrap(), whole(writer));
            fs::remove_file(&out).unwrap();
        }
        let unpack = || with("unpack samples/ledger.tgi", std::slice::from_ref(&out));
        unpack().done();
        assert_eq!(names_in(out.as_ref()), ["0001.records", "sheet"]);
        assert_eq!(unpack().status, Some(2));
        let begin = name[..name.len().min(255 - "-1.tap".len())].to_vec();
        let reels = d.join(OsString::from_vec(begin)).into_os_string();
        with("export samples/ledger.tgi", &["-o".into(), reels.clone()]).done();
        with("export --force samples/ledger.tgi", &["-o".into(), reels]).done();
    }
    let longer = d.join("n".repeat(256));
    let ran =
        run(&["pack".as_ref(), "samples/ledger.sheet".as_ref(), "-o".as_ref(), longer.as_os_str()]);
    told(ran, longer, "File name too long");
    let left = fs::read_dir(&d).unwrap().map(|entry| entry.unwrap().file_name());
    let hidden = left.filter(|name| name.as_bytes().starts_with(b"."));
    assert_eq!(hidden.count(), 0);
}
