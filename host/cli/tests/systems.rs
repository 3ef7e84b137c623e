//! Outputs on systems that can do less. A small library stands before C's own, and its calls fail as they do on
//! such a system.

mod common;

use common::{folder, names_in, shell, Ran};
use std::fs;
use std::os::unix::fs::{MetadataExt, PermissionsExt};
use std::path::PathBuf;
use std::process::Command;

/// Each call does what it usually does, unless the variable of its case is set.
const CALLS: &str = r#"
#define _GNU_SOURCE
#include <errno.h>
#include <fcntl.h>
#include <stdarg.h>
#include <stdlib.h>
#include <string.h>
#include <sys/stat.h>
#include <sys/syscall.h>
#include <unistd.h>

static int fail(int number) { errno = number; return -1; }

ssize_t getrandom(void *bytes, size_t length, unsigned flags) {
    static unsigned char calls = 0;
    if (getenv("ALWAYS_ZERO")) memset(bytes, 0, length);
    else if (getenv("ZERO_FIRST")) memset(bytes, calls++, length);
    else return syscall(SYS_getrandom, bytes, length, flags);
    return length;
}

int renameat2(int a, const char *from, int b, const char *to, unsigned flags) {
    const char *number = getenv("NEW_RENAME");
    if (getenv("COMES")) close(creat(to, 0600));
    if (number) return fail(atoi(number));
    return syscall(SYS_renameat2, a, from, b, to, flags);
}

int linkat(int a, const char *from, int b, const char *to, int flags) {
    if (getenv("NO_LINK")) return fail(EPERM);
    return syscall(SYS_linkat, a, from, b, to, flags);
}

int rename(const char *from, const char *to) {
    const char *name = getenv("RENAME"), *number = getenv("NUMBER");
    if (name && strstr(to, name)) return fail(atoi(number));
    return syscall(SYS_rename, from, to);
}

int fsync(int file) {
    struct stat there;
    const char *number = getenv("FOLDER_SYNC");
    if (number && fstat(file, &there) == 0 && S_ISDIR(there.st_mode)) return fail(atoi(number));
    return syscall(SYS_fsync, file);
}

int open64(const char *path, int flags, ...) {
    va_list more;
    va_start(more, flags);
    mode_t mode = va_arg(more, mode_t);
    va_end(more);
    struct stat there;
    const char *number = getenv("FOLDER_OPEN");
    int is_folder = !strstr(path, ".part") && stat(path, &there) == 0 && S_ISDIR(there.st_mode);
    if (number && is_folder) return fail(atoi(number));
    return syscall(SYS_openat, AT_FDCWD, path, flags, mode);
}

void sync(void) {
    const char *file = getenv("SYNCED");
    if (file) close(creat(file, 0600));
}

int statx(int folder, const char *path, int flags, unsigned mask, struct statx *there) {
    int answer = syscall(SYS_statx, folder, path, flags, mask, there);
    if (answer == 0 && strstr(path, "foreign")) there->stx_uid = 4321;
    return answer;
}

int fchown(int file, uid_t user, gid_t group) {
    if (getenv("NO_CHOWN")) return fail(EPERM);
    return syscall(SYS_fchown, file, user, group);
}

int fchmod(int file, mode_t mode) {
    if (getenv("NO_CHMOD")) return fail(EPERM);
    if (getenv("OTHER_GROUP")) mode &= ~S_ISGID;
    return syscall(SYS_fchmod, file, mode);
}
"#;

/// A folder for outputs, and the library beside it.
struct System {
    folder: PathBuf,
    library: PathBuf,
}

impl System {
    fn new(name: &str) -> System {
        let all = folder(name);
        let (folder, library) = (all.join("outputs"), all.join("calls.so"));
        fs::create_dir(&folder).unwrap();
        fs::write(all.join("calls.c"), CALLS).unwrap();
        let gcc = Command::new("gcc")
            .args(["-shared", "-fPIC", "-Wall", "-Werror", "-o"])
            .args([&library, &all.join("calls.c")])
            .status();
        assert!(gcc.expect("gcc").success());
        System { folder, library }
    }

    /// Runs the program in a case, with words in which `$D` is the folder.
    fn run(&self, case: &str, words: &str) -> Ran {
        let line = format!("LD_PRELOAD={} {case} $T {words}", self.library.display());
        shell(&line, &self.folder)
    }

    fn told(&self, name: &str, what: &str) -> String {
        format!("{}: {what}", self.folder.join(name).display())
    }

    fn read(&self, name: &str) -> Vec<u8> {
        fs::read(self.folder.join(name)).unwrap()
    }

    fn write(&self, name: &str, text: &str) {
        fs::write(self.folder.join(name), text).unwrap();
    }
}

const PACK: &str = "pack samples/ledger.sheet -o $D/out";
const THERE: &str = "is there already; choose another name, or write over it with --force";

fn temporary(digits: &str) -> String {
    format!(".tardorelga-{}.part", digits.repeat(8))
}

#[test]
fn a_temporary_name_that_is_taken_is_left_to_its_owner() {
    let system = System::new("taken");
    let taken = [temporary("00"), temporary("01"), temporary("02")];
    taken.iter().for_each(|name| system.write(name, "another's"));
    system.run("ZERO_FIRST=1", PACK).done();
    system.run("ZERO_FIRST=1", "unpack samples/ledger.tgi $D/folder").done();
    let none = "no free name for a temporary file beside it; run it again";
    system
        .run("ALWAYS_ZERO=1", "pack samples/ledger.sheet -o $D/none")
        .told(2, &system.told("none", none));
    taken.iter().for_each(|name| assert_eq!(system.read(name), b"another's"));
    let [a, b, c] = &taken[..] else { unreachable!() };
    assert_eq!(names_in(&system.folder), [a, b, c, "folder", "out"]);
}

#[test]
fn without_a_renaming_that_replaces_nothing_nothing_is_replaced() {
    let system = System::new("no-new-rename");
    for case in ["NEW_RENAME=22", "NEW_RENAME=38", "NEW_RENAME=22 NO_LINK=1"] {
        system.run(case, PACK).done();
        system.run(case, PACK).told(2, &system.told("out", THERE));
        system.run(case, "export samples/messages.tgi -o $D/a").done();
        system.run(case, "unpack samples/ledger.tgi $D/folder").done();
        let full = "is there already, and not empty; choose another name";
        system
            .run(case, "unpack samples/ledger.tgi $D/folder")
            .told(2, &system.told("folder", full));
        let names = ["a-1.tap", "a-2.tap", "a-3.tap", "folder", "out"];
        assert_eq!(names_in(&system.folder), names);
        assert_eq!(system.read("out").len(), 448);
        fs::remove_dir_all(&system.folder).unwrap();
        fs::create_dir(&system.folder).unwrap();
    }
}

/// It was not there yet when the output was asked for.
#[test]
fn without_it_a_file_that_comes_meanwhile_is_not_replaced() {
    let system = System::new("comes-meanwhile");
    for case in ["NEW_RENAME=22", "NEW_RENAME=22 NO_LINK=1"] {
        system.run(&format!("COMES=1 {case}"), PACK).told(2, &system.told("out", THERE));
        assert_eq!(names_in(&system.folder), ["out"]);
        assert_eq!(system.read("out"), b"");
        fs::remove_file(system.folder.join("out")).unwrap();
    }
}

#[test]
fn a_renaming_that_fails_is_trouble_and_leaves_nothing() {
    let system = System::new("bad-rename");
    system.run("NEW_RENAME=5", PACK).told(2, &system.told("out", "Input/output error"));
    system
        .run("NEW_RENAME=5", "unpack samples/ledger.tgi $D/folder")
        .told(2, &system.told("folder", "Input/output error"));
    assert_eq!(names_in(&system.folder), [""; 0]);
}

/// Several at once, where a link decides.
#[test]
fn without_it_one_of_several_is_done_all_the_same() {
    let system = System::new("links-at-once");
    for round in 0..10 {
        let run =
            || system.run("NEW_RENAME=22", &format!("pack samples/ledger.sheet -o $D/{round}"));
        let ran: Vec<Ran> = std::thread::scope(|scope| {
            let runs: Vec<_> = (0..4).map(|_| scope.spawn(run)).collect();
            runs.into_iter().map(|run| run.join().unwrap()).collect()
        });
        let done = ran.iter().filter(|ran| ran.status == Some(0)).count();
        assert_eq!(done, 1, "{ran:?}");
        assert_eq!(system.read(&round.to_string()).len(), 448);
    }
    assert_eq!(names_in(&system.folder).len(), 10);
}

#[test]
fn where_one_reel_cannot_be_replaced_the_others_are_put_back() {
    let system = System::new("put-back");
    let export = "export --force samples/messages.tgi -o $D/a";
    system.write("a-1.tap", "old");
    let third = system.told("a-3.tap", "Input/output error");
    system.run("RENAME=-3.tap NUMBER=5", export).told(2, &third);
    assert_eq!(names_in(&system.folder), ["a-1.tap"], "the second was new");
    assert_eq!(system.read("a-1.tap"), b"old");
    system.write("a-3.tap", "old");
    system.run("RENAME=-3.tap NUMBER=5", export).told(2, &third);
    assert_eq!((system.read("a-1.tap"), system.read("a-3.tap")), (b"old".into(), b"old".into()));
    let kept =
        "can't be put back here if another reel fails; remove it first, or choose another name";
    system.run("NO_LINK=1", export).told(2, &system.told("a-1.tap", kept));
    assert_eq!(names_in(&system.folder), ["a-1.tap", "a-3.tap"]);
    assert_eq!(system.read("a-1.tap"), b"old");
}

#[test]
fn what_a_file_system_is_mounted_on_cannot_be_replaced() {
    let system = System::new("mounted");
    system.write("file", "old");
    fs::create_dir(system.folder.join("folder")).unwrap();
    let mounted = "can't be replaced, since a file system is mounted there; choose another name";
    for number in [16, 18] {
        let case = |name: &str| format!("RENAME=/{name} NUMBER={number}");
        system
            .run(&case("file"), "pack --force samples/ledger.sheet -o $D/file")
            .told(2, &system.told("file", mounted));
        system
            .run(&case("folder"), "unpack samples/ledger.tgi $D/folder")
            .told(2, &system.told("folder", mounted));
    }
    assert_eq!(names_in(&system.folder), ["file", "folder"]);
    assert_eq!(system.read("file"), b"old");
}

#[test]
fn a_folder_that_its_file_system_cannot_sync_is_no_trouble() {
    let system = System::new("no-sync");
    let invalid = "FOLDER_SYNC=22";
    system.run(invalid, PACK).done();
    system.run(invalid, "unpack samples/ledger.tgi $D/folder").done();
}

#[test]
fn a_folder_whose_sync_fails_is_trouble() {
    let system = System::new("bad-sync");
    let lost =
        "is written, but its folder can't be synced, and a crash may lose it: Input/output error";
    system.run("FOLDER_SYNC=5", PACK).told(2, &system.told("out", lost));
    assert_eq!(system.read("out").len(), 448);
    system
        .run("FOLDER_SYNC=5", "unpack samples/ledger.tgi $D/folder")
        .told(2, &system.told("folder", "Input/output error"));
    assert_eq!(names_in(&system.folder), ["out"]);
}

/// As for a user who may not read the folder, whoever runs the test.
#[test]
fn a_folder_that_may_not_be_read_is_synced_with_all_else() {
    let system = System::new("unread-folder");
    for (words, name) in [(PACK, "out"), ("unpack samples/ledger.tgi $D/folder", "folder")] {
        system.run("FOLDER_OPEN=13 SYNCED=$D/synced", words).done();
        assert_eq!(names_in(&system.folder), [name, "synced"]);
        fs::remove_file(system.folder.join("synced")).unwrap();
        fs::rename(system.folder.join(name), system.folder.with_file_name(name)).unwrap();
    }
}

#[test]
fn an_owner_that_cannot_be_kept_is_trouble() {
    let system = System::new("no-chown");
    let owner = "is there already, and you can't give a new one its owner and group; \
                 remove it, or choose another name";
    system.write("foreign", "old");
    system
        .run("NO_CHOWN=1", "pack --force samples/ledger.sheet -o $D/foreign")
        .told(2, &system.told("foreign", owner));
    assert_eq!(system.read("foreign"), b"old");
    fs::create_dir(system.folder.join("foreign-folder")).unwrap();
    system
        .run("NO_CHOWN=1", "unpack samples/ledger.tgi $D/foreign-folder")
        .told(2, &system.told("foreign-folder", owner));
    assert_eq!(names_in(&system.folder), ["foreign", "foreign-folder"]);
    assert_eq!(names_in(&system.folder.join("foreign-folder")), [""; 0]);
}

/// To a user who is not of the group, the system gives a file that replaces another all of its mode but one bit.
#[test]
fn a_mode_that_cannot_be_kept_is_told() {
    let system = System::new("other-group");
    let what = "is there already, and you can't give a new one its mode; remove it, or choose another name";
    system.write("out", "old");
    fs::create_dir(system.folder.join("folder")).unwrap();
    let pack = "pack --force samples/ledger.sheet -o $D/out";
    let unpack = "unpack samples/ledger.tgi $D/folder";
    for (name, mode, words) in [("out", 0o2640, pack), ("folder", 0o2750, unpack)] {
        let path = system.folder.join(name);
        fs::set_permissions(&path, fs::Permissions::from_mode(mode)).unwrap();
        for case in ["OTHER_GROUP=1", "NO_CHMOD=1"] {
            system.run(case, words).told(2, &system.told(name, what));
            assert_eq!(fs::metadata(&path).unwrap().mode() & 0o7777, mode);
        }
    }
    assert_eq!(names_in(&system.folder), ["folder", "out"]);
    assert_eq!(system.read("out"), b"old");
}
