//! A set taken apart, and packed again.

mod common;

use common::{
    at_once, fed, folder, give_away, lines_of, mode, names_in, owner_of, root, run, shell,
};
use std::fs;
use std::os::unix::fs::{symlink, PermissionsExt};

const ACCEPTED: [&str; 3] = ["ledger", "messages", "options"];

fn sample(name: &str) -> String {
    format!("samples/{name}.tgi")
}

/// The records of each file of an image, in hexadecimal.
fn contents(image: &[u8]) -> Vec<Vec<u8>> {
    let records = |number: &str| fed(&["records", "--hex", "-", number], image).out;
    ["1", "2", "3", "4"].map(records).to_vec()
}

#[test]
fn what_is_unpacked_packs_to_a_set_of_the_same_meaning() {
    let d = folder("unpacked");
    for name in ACCEPTED {
        let image = fs::read(root().join(sample(name))).unwrap();
        let mut packed = Vec::new();
        for form in ["", "--hex", "--lines"] {
            shell(&format!("$T unpack {form} {} $D/{name}{form}", sample(name)), &d).done();
            let sheet = d.join(format!("{name}{form}/sheet"));
            packed.push(run(&["pack", sheet.to_str().unwrap(), "-o", "-"]).done().out);
            assert_eq!(contents(packed.last().unwrap()), contents(&image), "{name} {form}");
        }
        assert_eq!(packed, [&packed[0][..]; 3], "{name}: one set, whatever the form");
        fs::write(d.join("packed.tgi"), &packed[0]).unwrap();
        shell(&format!("$T unpack $D/packed.tgi $D/{name}-again"), &d).done();
        let again = lines_of(&d.join(format!("{name}-again/sheet")));
        let meaning = |lines: Vec<String>| -> Vec<String> {
            lines.into_iter().filter(|line| !line.starts_with("reel ")).collect()
        };
        assert_eq!(meaning(again), meaning(lines_of(&d.join(format!("{name}/sheet")))), "{name}");
    }
    let reels = "quota 999999 reel GATE01 reel GATE02 reel GATE03";
    assert_eq!(lines_of(&d.join("messages/sheet"))[1..5].join(" "), reels);
    assert_eq!(names_in(&d.join("options--hex")), ["0001.hex", "0002.hex", "sheet"]);
    assert_eq!(names_in(&d.join("ledger")), ["0001.records", "sheet"]);
    assert_eq!(fs::read(d.join("ledger/0001.records")).unwrap(), b"0123456789");
}

#[test]
fn the_sheet_has_the_quota_and_the_reels_that_are_wanted() {
    let d = folder("wanted");
    shell("$T unpack --quota 2 --reels 'X,A B' samples/ledger.tgi $D/out", &d).done();
    assert_eq!(
        lines_of(&d.join("out/sheet"))[..4],
        ["set SET001", "quota 2", "reel X", "reel A B"]
    );
}

#[test]
fn any_bytes_and_any_lengths_come_back() {
    let d = folder("any-bytes");
    let every: Vec<u8> = (0..=255).collect();
    let hex: String = every.iter().map(|byte| format!("{byte:02x}")).collect();
    let records = format!("hex\nhex\nhex {hex}\nhex 0a\nhex 0a\nhex 0d\nhex 5e5e\nhex\nhex 00\n");
    let fields = "block-length 300\nrecord-length 300\n";
    let reels = "reel [ \" %&']\nreel ()*+,-\n";
    let sheet = format!(
        "set [ \"!_  ]\nquota 7\n{reels}file [  './:;<=>?      ]\nexpires 099366\n\
         format D\n{fields}{records}file B\nformat S\n{fields}{records}file C\nformat S\n{fields}hex\n"
    );
    fs::write(d.join("a"), sheet).unwrap();
    shell("$T pack $D/a -o $D/a.tgi", &d).done();
    shell("$T unpack $D/a.tgi $D/b --quota 7 --reels X", &d).done();
    let text = fs::read_to_string(d.join("b/sheet")).unwrap();
    fs::write(d.join("b/sheet"), text.replace("reel X\n", reels)).unwrap();
    shell("$T pack $D/b/sheet -o $D/b.tgi && cmp $D/a.tgi $D/b.tgi", &d).done();
    assert_eq!(
        fs::read_to_string(d.join("b/0001.lengths")).unwrap(),
        "0 x 2\n256\n1 x 3\n2\n0\n1\n"
    );
    assert_eq!(fs::read_to_string(d.join("b/0003.lengths")).unwrap(), "0\n");
    let feed = "record 3 of file 1 holds a line feed; unpack without --lines";
    let feed = format!("{}: {feed}", d.join("a.tgi").display());
    shell("$T unpack --lines $D/a.tgi $D/c", &d).told(2, &feed);
    assert_eq!(names_in(&d), ["a", "a.tgi", "b", "b.tgi"]);
}

#[test]
fn a_folder_appears_whole_or_not_at_all() {
    let d = folder("whole-folder");
    let own = "samples/refused-2.tgi: refused 2 at item 10 byte 0: \
               an item is torn, or there are not 1 to 16 reels with an end each";
    shell("$T unpack samples/refused-2.tgi $D/out", &d).told(1, own);
    let deep = format!("{}/a/b: No such file or directory", d.display());
    shell("$T unpack samples/ledger.tgi $D/a/b", &d).told(2, &deep);
    let full = shell("ulimit -f 0; trap '' XFSZ; $T unpack samples/ledger.tgi $D/out", &d);
    full.told(2, &format!("{}/out: File too large", d.display()));
    assert_eq!(names_in(&d), [""; 0]);
    fs::create_dir(d.join("out")).unwrap();
    shell("$T unpack samples/ledger.tgi $D/out/", &d).done();
    let there =
        format!("{}/out: is there already, and not empty; choose another name", d.display());
    shell("$T unpack samples/ledger.tgi $D/out", &d).told(2, &there);
    assert_eq!(names_in(&d), ["out"]);
    fs::write(d.join("file"), "old").unwrap();
    let file =
        format!("{}/file: is there already, and no folder; choose another name", d.display());
    shell("$T unpack samples/ledger.tgi $D/file", &d).told(2, &file);
    assert_eq!(fs::read(d.join("file")).unwrap(), b"old");
    assert_eq!(names_in(&d), ["file", "out"]);
}

#[test]
fn an_empty_folder_keeps_its_mode_and_owner() {
    let d = folder("kept-folder");
    for old in [0o700, 0o750, 0o2770, 0o1777] {
        let out = d.join(format!("{old:o}"));
        fs::create_dir(&out).unwrap();
        let owner = give_away(&out);
        fs::set_permissions(&out, fs::Permissions::from_mode(old)).unwrap();
        run(&["unpack".as_ref(), "samples/ledger.tgi".as_ref(), out.as_os_str()]).done();
        assert_eq!(mode(&out), old);
        assert_eq!(owner_of(&out), owner);
        assert_eq!(names_in(&out), ["0001.records", "sheet"]);
        let group = owner_of(&out.join("sheet")).1;
        assert!(old & 0o2000 == 0 || group == owner.1, "a folder that hands its group on");
    }
}

#[test]
fn a_new_folder_has_the_usual_mode() {
    let d = folder("usual-folder");
    for (mask, usual) in [("077", 0o700), ("027", 0o750), ("022", 0o755), ("0", 0o777)] {
        shell(&format!("umask {mask}; $T unpack samples/ledger.tgi $D/{mask}"), &d).done();
        assert_eq!(mode(&d.join(mask)), usual);
    }
    fs::set_permissions(&d, fs::Permissions::from_mode(0o2755)).unwrap();
    shell("umask 022; $T unpack samples/ledger.tgi $D/group", &d).done();
    assert_eq!(mode(&d.join("group")), 0o2755);
}

#[test]
fn a_link_to_an_empty_folder_stays_a_link() {
    let d = folder("linked-folder");
    fs::create_dir(d.join("empty")).unwrap();
    symlink("empty", d.join("link")).unwrap();
    shell("$T unpack samples/ledger.tgi $D/link", &d).done();
    assert!(fs::symlink_metadata(d.join("link")).unwrap().is_symlink());
    assert_eq!(names_in(&d.join("empty")), ["0001.records", "sheet"]);
    symlink("nowhere", d.join("lost")).unwrap();
    let lost = "is there already, a link to nowhere; choose another name";
    let lost = format!("{}/lost: {lost}", d.display());
    shell("$T unpack samples/ledger.tgi $D/lost", &d).told(2, &lost);
    shell("cd $D && $T unpack $OLDPWD/samples/ledger.tgi .", &d)
        .told(2, ".: is no name for a new folder; choose one, as in ./parts");
    assert_eq!(names_in(&d), ["empty", "link", "lost"]);
}

#[test]
fn of_several_that_unpack_at_once_one_is_done() {
    let d = folder("unpack-at-once");
    let told = "is there already";
    for round in 0..20 {
        let out = d.join(round.to_string());
        if round % 2 == 0 {
            fs::create_dir(&out).unwrap();
        }
        let ran = at_once(4, &["unpack", "samples/messages.tgi", out.to_str().unwrap()]);
        let (done, others): (Vec<_>, Vec<_>) = ran.iter().partition(|ran| ran.status == Some(0));
        assert_eq!(done.len(), 1, "{ran:?}");
        assert!(
            others.iter().all(|ran| ran.status == Some(2) && ran.err.contains(told)),
            "{ran:?}"
        );
        let packed = run(&["pack", out.join("sheet").to_str().unwrap(), "-o", "-"]).done().out;
        assert_eq!(
            contents(&packed),
            contents(&fs::read(root().join(sample("messages"))).unwrap())
        );
    }
    assert_eq!(names_in(&d).len(), 20);
}
