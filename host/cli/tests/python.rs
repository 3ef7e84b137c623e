//! The Python binding, built from the same archive: its own tests, its shared object, and what it says in
//! other words than the library.

mod common;

use common::{folder, names_in, root};
use std::fs::{self, Permissions};
use std::os::unix::fs::PermissionsExt;
use std::path::PathBuf;
use std::process::Command;
use tardorelga::{Field, Item, Kind, Verdict};

/// The folder of the module, with the shared object beside it.
fn built() -> PathBuf {
    let folder = root().join("bindings/python");
    let built = Command::new(folder.join("build")).status().expect("bindings/python/build");
    assert!(built.success());
    folder
}

/// What a command prints in the root of the repository.
#[track_caller]
fn printed(command: &mut Command) -> String {
    let output = command.current_dir(root()).output().expect("the command starts");
    assert!(output.status.success(), "{}", String::from_utf8_lossy(&output.stderr));
    String::from_utf8(output.stdout).expect("text")
}

fn python(program: &str) -> String {
    let folder = built();
    printed(Command::new("python3").args(["-B", "-c", program]).env("PYTHONPATH", folder))
}

#[test]
fn the_python_binding_passes_its_tests() {
    built();
    printed(Command::new("python3").args(["-B", "-m", "unittest", "discover", "bindings/python"]));
}

#[test]
fn the_module_has_the_version_of_the_program() {
    let version = python("import tardorelga; print(tardorelga.__version__)");
    assert_eq!(version.trim_end(), env!("CARGO_PKG_VERSION"));
}

#[test]
fn each_number_has_the_words_of_the_program() {
    let words = "import tardorelga; [print(tardorelga.Verdict(n, 0, 0).words) for n in range(17)]";
    let due = (0..17).map(|number| Verdict { number, item: 0, byte: 0 }.words());
    assert_eq!(python(words).lines().collect::<Vec<_>>(), due.collect::<Vec<_>>());
}

/// Every kind of which fields are known, and some of which none are.
const KINDS: [Kind; 13] = [
    Kind::Vol(1),
    Kind::Vol(2),
    Kind::Uvl(1),
    Kind::Hdr(1),
    Kind::Hdr(2),
    Kind::Hdr(3),
    Kind::Uhl,
    Kind::Eov(1),
    Kind::Eov(2),
    Kind::Eof(1),
    Kind::Eof(2),
    Kind::Utl,
    Kind::TapeMark,
];

#[test]
fn each_field_is_that_of_the_rust_library() {
    let line = |kind: Kind| {
        let fields = tardorelga::fields(kind).map(|Field { first, len, name, holds, .. }| {
            format!("{kind}: {first}, {len}, {name}, {holds}\n")
        });
        fields.collect::<String>()
    };
    let due: String = KINDS.into_iter().map(line).collect();
    assert_eq!(due.lines().count(), 8 + 3 * 13 + 3 * 7 + 2 * 3);
    let kinds: Vec<String> = KINDS.iter().map(Kind::to_string).collect();
    let program = format!(
        "import tardorelga\nfor kind in {kinds:?}:\n    for field in tardorelga.fields(kind):\n        \
         print(kind, ': ', field.first, ', ', field.length, ', ', field.name, ', ', field.holds, sep='')"
    );
    assert_eq!(python(&program), due);
}

/// An image with an item of every kind: head, then items by their lengths and first bytes.
fn items_of_every_kind() -> Vec<u8> {
    let labels = |names: &[&str]| -> Vec<u8> {
        names
            .iter()
            .flat_map(|name| [&[0, 0, 80], format!("{name:80}").as_bytes()].concat())
            .collect()
    };
    let (mark, end) = ([0; 3], [0xFF; 3]);
    [
        &b"TGI\0\x01"[..],
        &labels(&["VOL1", "VOL9", "UVL3", "NONE", "HDR1", "HDR2", "UHLA"]),
        &mark,
        b"\0\0\x04DATA",
        &mark,
        &labels(&["EOF1", "EOV2", "UTLZ"]),
        &mark,
        &end,
        b"\0\0\x02A",
    ]
    .concat()
}

#[test]
fn each_item_is_that_of_the_rust_library() {
    let image = items_of_every_kind();
    let line = |item: Item| {
        let Item { kind, number, at, bytes, behind } = item;
        format!("{kind}, {number}, {at}, {}, {behind}\n", bytes.len())
    };
    let due: String = tardorelga::items(&image).map(line).collect();
    assert_eq!(due.lines().count(), 16);
    let hex: String = image.iter().map(|byte| format!("{byte:02x}")).collect();
    let program = format!(
        "import tardorelga\nfor item in tardorelga.items(bytes.fromhex('{hex}')):\n    \
         print(item.kind, item.number, item.at, len(item.content), item.behind, sep=', ')"
    );
    assert_eq!(python(&program), due);
}

/// A build that fails leaves nothing behind it, and one that is done the shared object alone.
#[test]
fn what_a_build_leaves() {
    let tree = folder("python-build");
    let (place, archive) = (tree.join("bindings/python"), tree.join("target/staticlib"));
    [&place, &archive].iter().for_each(|folder| fs::create_dir_all(folder).expect("a folder"));
    let copy = |from: &str, to: PathBuf| fs::copy(root().join(from), to).expect("a copy");
    copy("bindings/python/build", place.join("build"));
    copy("target/staticlib/libtardorelga.a", archive.join("libtardorelga.a"));
    let build = |path: &str| {
        let mut command = Command::new("bash");
        command.arg(place.join("build")).env("PATH", path).output().expect("bash").status.success()
    };
    // A compiler that fails when it has written half of its output.
    let half = "#!/bin/sh\nwhile [ \"$1\" != -o ]; do shift; done\necho half > \"$2\"\nexit 1\n";
    fs::write(tree.join("gcc"), half).expect("a script");
    fs::set_permissions(tree.join("gcc"), Permissions::from_mode(0o755)).expect("its mode");
    let path = std::env::var("PATH").expect("a path");
    assert!(!build(&format!("{}:{path}", tree.display())));
    assert_eq!(names_in(&place), ["build"]);
    assert!(build(&path));
    assert_eq!(names_in(&place), ["build", "libtardorelga.so"]);
}

/// Programs that were linked with it ask for it by this name, and find nothing else in it.
#[test]
fn the_shared_object_has_its_name_and_our_functions_alone() {
    let object = built().join("libtardorelga.so");
    let dynamic = printed(Command::new("readelf").arg("-dW").arg(&object));
    assert!(dynamic.contains("Library soname: [libtardorelga.so.0]"), "{dynamic}");
    let symbols = printed(Command::new("nm").args(["-D", "--defined-only"]).arg(&object));
    let names: Vec<&str> = symbols.lines().filter_map(|line| line.split(' ').nth(2)).collect();
    assert!(names.len() >= 10 && names.iter().all(|name| name.starts_with("tardorelga_")));
}
