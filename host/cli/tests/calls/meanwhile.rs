//! What others see and do while an output is written.

use crate::case::*;
use crate::common::names_in;
use crate::trace::{bind_to_modes, Call, Traced};
use std::collections::BTreeSet;
use std::fs;
use std::os::unix::fs::{MetadataExt, PermissionsExt};
use std::path::Path;

/// Runs it from stop to stop and looks at each.
fn watched(case: &Case, mut look: impl FnMut(&Traced)) {
    let mut going = Ok(Traced::start(&mut case.command()));
    loop {
        match going {
            Ok(traced) => {
                look(&traced);
                going = traced.step();
            }
            Err(ended) => {
                assert_eq!((ended.status.code(), &ended.err[..]), (Some(0), ""));
                return;
            }
        }
    }
}

fn mode(path: &Path) -> u32 {
    fs::symlink_metadata(path).unwrap().mode() & 0o7777
}

#[test]
fn a_file_that_comes_meanwhile_is_not_written_over() {
    let case = Case::new("came-file", PACK, nothing);
    let said = format!("tardorelga: {}/out: is there already; ", case.folder.display());
    for stops in case.begin().. {
        case.fresh();
        let Ok(traced) = case.at(stops, &mut case.command()) else { return };
        if !names_in(&case.folder).contains(&"out".into()) {
            fs::write(case.folder.join("out"), "another's").unwrap();
            let ended = traced.go_on();
            assert!(
                ended.status.code() == Some(2) && ended.err.starts_with(&said),
                "{}",
                ended.err
            );
            assert_eq!(fs::read(case.folder.join("out")).unwrap(), b"another's");
            assert_eq!(names_in(&case.folder), ["out"]);
        } else {
            assert_eq!(traced.go_on().status.code(), Some(0));
        }
    }
}

#[test]
fn a_reel_that_comes_meanwhile_is_not_written_over_and_no_other_stays() {
    let case = Case::new("came-reel", EXPORT, nothing);
    let said = format!("tardorelga: {}/out-2.tap: is there already; ", case.folder.display());
    for stops in case.begin().. {
        case.fresh();
        let Ok(traced) = case.at(stops, &mut case.command()) else { return };
        let is_moving = names_in(&case.folder).contains(&"out-2.tap".into());
        if !is_moving {
            fs::write(case.folder.join("out-2.tap"), "another's").unwrap();
        }
        let ended = traced.go_on();
        if !is_moving {
            assert!(
                ended.status.code() == Some(2) && ended.err.starts_with(&said),
                "{}",
                ended.err
            );
            assert_eq!(names_in(&case.folder), ["out-2.tap"]);
        }
    }
}

#[test]
fn a_folder_that_is_filled_meanwhile_is_left_alone() {
    let case = Case::new("came-folder", UNPACK, an_empty_folder);
    for stops in case.begin().. {
        case.fresh();
        let Ok(traced) = case.at(stops, &mut case.command()) else { return };
        if names_in(&case.folder.join("out")).is_empty() {
            fs::write(case.folder.join("out/own"), "another's").unwrap();
            let ended = traced.go_on();
            assert_eq!(ended.status.code(), Some(2), "{}", ended.err);
            assert!(ended.err.contains("/out: is there already, and not empty"), "{}", ended.err);
            assert_eq!(tree(&case.folder)[1], ("out/own".into(), b"another's".to_vec()));
            assert_eq!(temporaries(&case.folder), [""; 0]);
        }
    }
}

/// The temporary folder has the mode of the old one shortly before it takes its place, which is lost here.
#[test]
fn nothing_is_left_of_a_folder_that_is_read_only_already() {
    let case = Case::new("came-read-only", UNPACK, a_read_only_folder);
    case.fresh();
    let mut command = case.command();
    bind_to_modes(&mut command);
    let mut traced = Traced::start(&mut command);
    let is_read_only = |name: &String| mode(&case.folder.join(name)) & 0o777 == 0o500;
    while !temporaries(&case.folder).iter().any(is_read_only) {
        traced = traced.step().ok().expect("a folder with the old one's mode");
    }
    fs::remove_dir(case.folder.join("out")).unwrap();
    fs::write(case.folder.join("out"), "another's").unwrap();
    assert_eq!(traced.go_on().status.code(), Some(2));
    assert_eq!(fs::read(case.folder.join("out")).unwrap(), b"another's");
    assert_eq!(names_in(&case.folder), ["out"]);
}

#[test]
fn what_replaces_a_file_is_never_open_wider_than_it() {
    let case = Case::new("no-wider", PACK_OVER, nothing);
    for old in [0o600, 0o440, 0o604, 0o666] {
        case.fresh();
        let out = case.folder.join("out");
        fs::write(&out, "old").unwrap();
        fs::set_permissions(&out, fs::Permissions::from_mode(old)).unwrap();
        let mut seen = BTreeSet::new();
        watched(&case, |_| {
            assert_eq!(mode(&out), old);
            seen.extend(temporaries(&case.folder).iter().map(|name| mode(&case.folder.join(name))));
        });
        assert_eq!(seen, BTreeSet::from([0o600, old]), "{old:o}");
        assert_eq!(fs::read(&out).unwrap().len(), 448);
    }
}

#[test]
fn a_folder_is_open_to_nobody_else_until_it_is_whole() {
    let case = Case::new("folder-closed", UNPACK, nothing);
    case.fresh();
    let mut open = 0;
    watched(&case, |_| {
        for name in temporaries(&case.folder) {
            let path = case.folder.join(name);
            let is_closed = mode(&path) & 0o777 == 0o700;
            assert!(is_closed || path.join("sheet").exists(), "{:o}", mode(&path));
            open += usize::from(is_closed);
        }
    });
    assert!(open > 20, "{open} stops");
}

/// Equal process numbers, as in two containers on one volume, make no equal names.
#[test]
fn each_run_has_temporary_names_of_its_own() {
    let case = Case::new("own-names", PACK, nothing);
    let mut names = BTreeSet::new();
    for _ in 0..10 {
        case.fresh();
        watched(&case, |traced| {
            for name in temporaries(&case.folder) {
                assert!(!name.contains("out") && names_in(&case.folder).len() == 1);
                names.insert((traced.id(), name));
            }
        });
    }
    let random: BTreeSet<&String> = names.iter().map(|(_, name)| name).collect();
    assert_eq!((names.len(), random.len()), (10, 10));
}

const SYNC: u64 = 74;

/// The file or folder that a call syncs.
fn synced(traced: &Traced) -> Option<String> {
    let Call { number, first } = traced.call();
    let open = format!("/proc/{}/fd/{first}", traced.id());
    let name = |path: std::path::PathBuf| path.file_name().unwrap().to_str().unwrap().to_string();
    (number == SYNC).then(|| name(fs::read_link(open).unwrap()))
}

/// The names of what is synced before and behind the move; that of a temporary is cut short.
fn syncs(case: &Case) -> (BTreeSet<String>, BTreeSet<String>) {
    case.fresh();
    let (mut before, mut behind) = (BTreeSet::new(), BTreeSet::new());
    watched(case, |traced| {
        let is_moved = temporaries(&case.folder).is_empty();
        let list = if is_moved { &mut behind } else { &mut before };
        list.extend(synced(traced).map(|name| match name.strip_prefix(".tardorelga-") {
            Some(_) => "temporary".to_string(),
            None => name,
        }));
    });
    (before, behind)
}

#[test]
fn what_is_done_is_on_the_disk() {
    let set = |names: &[&str]| names.iter().map(|name| name.to_string()).collect::<BTreeSet<_>>();
    let file = syncs(&Case::new("sync-file", PACK, nothing));
    assert_eq!(file, (set(&["temporary"]), set(&["sync-file"])));
    let over = syncs(&Case::new("sync-over", PACK_OVER, an_old_file));
    assert_eq!(over, (set(&["temporary"]), set(&["sync-over"])));
    let reels = syncs(&Case::new("sync-reels", EXPORT_OVER, old_reels));
    assert_eq!(reels, (set(&["temporary"]), set(&["sync-reels"])));
    let records = ["0001.lengths", "0001.records", "0002.lengths", "0002.records", "sheet"];
    let all = set(&[&records[..], &["temporary"]].concat());
    let new = syncs(&Case::new("sync-folder", UNPACK, nothing));
    assert_eq!(new, (all.clone(), set(&["sync-folder"])));
    let empty = syncs(&Case::new("sync-empty", UNPACK, an_empty_folder));
    assert_eq!(empty, (all, set(&["sync-empty"])));
}
