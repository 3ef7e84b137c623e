//! The Debian package has what `./install` puts there, says what it needs, and its program runs from it.

mod common;
#[path = "common/installation.rs"]
mod installation;

use common::{folder, root};
use installation::{files_below, install, printed, script, version};
use std::fs;
use std::path::{Path, PathBuf};
use std::process::Command;

/// The package, made into an empty folder of the test's own.
fn package(name: &str) -> PathBuf {
    let place = folder(name);
    printed(&mut script("package/deb", &[Path::new("--as-built"), &place]));
    place.join(format!("tardorelga_{}_amd64.deb", version()))
}

fn dpkg_deb(option: &str, package: &Path, more: &[&str]) -> String {
    printed(Command::new("dpkg-deb").arg(option).arg(package).args(more).env("LC_ALL", "C"))
}

fn unpacked(name: &str) -> PathBuf {
    let package = package(name);
    let tree = package.with_file_name("tree");
    dpkg_deb("-R", &package, &[tree.to_str().unwrap()]);
    tree
}

#[test]
fn its_fields_say_what_it_is_and_what_it_needs() {
    let package = package("package-fields");
    let field = |name: &str| dpkg_deb("-f", &package, &[name]).trim_end().to_string();
    assert_eq!((field("Package"), field("Version")), ("tardorelga".into(), version()));
    assert_eq!((field("Architecture"), field("Recommends")), ("amd64".into(), "python3".into()));
    assert!(field("Description").starts_with("check, read and write labelled magnetic tape sets\n"));
    assert!(field("Installed-Size").parse::<u32>().unwrap() > 100);
    let symbols = printed(
        Command::new("objdump").arg("-T").arg(root().join("host/target/release/tardorelga")),
    );
    let depends = field("Depends");
    let libc =
        depends.split(", ").find_map(|needed| needed.strip_prefix("libc6 (>= ")).expect("libc6");
    let newest = libc.strip_suffix(')').unwrap();
    let parts =
        |version: &str| version.split('.').map(|part| part.parse().unwrap()).collect::<Vec<u32>>();
    let asked = symbols.split("GLIBC_").skip(1).filter_map(|rest| rest.split(')').next());
    assert_eq!(asked.map(parts).max(), Some(parts(newest)));
}

#[test]
fn its_files_are_roots_and_only_the_program_can_be_run() {
    let listed = dpkg_deb("-c", &package("package-modes"), &[]);
    let modes = ["drwxr-xr-x", "-rw-r--r--", "-rwxr-xr-x", "lrwxrwxrwx"];
    for line in listed.lines() {
        let (mode, rest) = line.split_once(' ').expect("a mode");
        assert!(modes.contains(&mode) && rest.starts_with("root/root "), "{line}");
        assert_eq!(mode == "-rwxr-xr-x", line.ends_with(" ./usr/bin/tardorelga"), "{line}");
    }
}

/// The name of an installed file in the package: dpkg keeps a list of its own, and Debian has manual
/// pages and changelogs compressed.
fn packaged(name: &str) -> Option<String> {
    match name {
        "usr/share/tardorelga/manifest" => None,
        "usr/share/doc/tardorelga/CHANGELOG.md" => {
            Some("usr/share/doc/tardorelga/changelog.gz".into())
        }
        page if page.contains("/man/") => Some(format!("{page}.gz")),
        name => Some(name.into()),
    }
}

#[test]
fn it_has_what_is_installed_and_its_copyright_and_nothing_else() {
    let tree = folder("package-installed");
    printed(install(Path::new("/usr")).env("DESTDIR", &tree));
    let below =
        |tree: &Path, file: &Path| file.strip_prefix(tree).unwrap().to_str().unwrap().to_string();
    let installed =
        files_below(&tree).into_iter().filter_map(|file| packaged(&below(&tree, &file)));
    let mut expected: Vec<String> =
        installed.chain(["usr/share/doc/tardorelga/copyright".into()]).collect();
    let unpacked = unpacked("package-content");
    let files = files_below(&unpacked.join("usr"));
    let mut found: Vec<String> = files.iter().map(|file| below(&unpacked, file)).collect();
    expected.sort();
    found.sort();
    assert_eq!(found, expected);
}

#[test]
fn its_program_and_its_module_run_from_where_it_is_unpacked() {
    let package = package("package-run");
    let tree = package.with_file_name("tree");
    dpkg_deb("-x", &package, &[tree.to_str().unwrap()]);
    let mut program = Command::new(tree.join("usr/bin/tardorelga"));
    program.args(["records", "samples/ledger.tgi", "1"]).current_dir(root());
    assert_eq!(printed(&mut program), "0123456789");
    let mut python = Command::new("python3");
    python
        .args(["-B", "-c", "import tardorelga; print(tardorelga.check(b'').number)"])
        .current_dir("/");
    python
        .env("PYTHONPATH", tree.join("usr/lib/python3/dist-packages"))
        .env_remove("TARDORELGA_LIBRARY");
    assert_eq!(printed(&mut python), "1\n");
}

#[test]
fn its_sums_are_those_of_its_files_and_its_copyright_names_no_licence() {
    let tree = unpacked("package-sums");
    let sums = tree.join("DEBIAN/md5sums");
    let mut checked = Command::new("md5sum");
    let answers = printed(
        checked.args(["--check", "--strict"]).arg(&sums).current_dir(&tree).env("LC_ALL", "C"),
    );
    let files = files_below(&tree.join("usr"));
    assert_eq!(answers.lines().count(), files.iter().filter(|file| !file.is_symlink()).count());
    assert_eq!(
        fs::read_to_string(tree.join("DEBIAN/triggers")).unwrap(),
        "activate-noawait ldconfig\n"
    );
    let copyright = fs::read_to_string(tree.join("usr/share/doc/tardorelga/copyright")).unwrap();
    assert!(copyright.contains("The licence is the owner's to choose, and none is chosen yet"));
}

#[test]
fn the_same_files_give_the_same_package() {
    let (first, second) = (package("package-first"), package("package-second"));
    assert!(fs::read(first).unwrap() == fs::read(second).unwrap());
}
