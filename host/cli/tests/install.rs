//! What `./install` puts below a prefix is found and used there by the shell, C and Python, and
//! `./uninstall` takes exactly that away.

mod common;
#[path = "common/installation.rs"]
mod installation;

use common::{folder, names_in, root};
use installation::{files_below, install, is_there, printed, refused, script, uninstall, version};
use std::fs::{self, File};
use std::io::Read;
use std::os::unix::fs::{symlink, MetadataExt, PermissionsExt};
use std::path::{Path, PathBuf};
use std::process::Command;

/// A prefix of the test's own with a blank in its name, and what is installed in it.
fn installed(name: &str) -> PathBuf {
    let prefix = folder(name).join("a prefix");
    printed(&mut install(&prefix));
    prefix
}

/// A command to which the installed program is the one on the path.
fn on_the_path(prefix: &Path, program: &str) -> Command {
    let path = format!("{}:{}", prefix.join("bin").display(), std::env::var("PATH").unwrap());
    let mut command = Command::new(program);
    command.env("PATH", path).env_remove("MANPATH").current_dir(root());
    command
}

fn python_folder(prefix: &Path) -> PathBuf {
    let module =
        files_below(&prefix.join("lib")).into_iter().find(|file| file.ends_with("tardorelga.py"));
    module.expect("the module").parent().expect("its folder").into()
}

#[test]
fn the_shell_finds_the_program_and_man_its_pages() {
    let prefix = installed("install-shell");
    let mut program = on_the_path(&prefix, "sh");
    program.args(["-c", "command -v tardorelga && tardorelga list samples/ledger.tgi"]);
    let place = prefix.join("bin/tardorelga");
    let listing = "SEQ FILE              FMT RECORDS BYTES\n0001 LEDGER            F 1 10\n";
    assert_eq!(printed(&mut program), format!("{}\n{listing}", place.display()));
    for (name, page) in
        [("tardorelga", "man1/tardorelga.1"), ("tardorelga-sheet", "man5/tardorelga-sheet.5")]
    {
        let page = prefix.join("share/man").join(page);
        assert!(fs::read_to_string(&page).unwrap().starts_with(".TH TARDORELGA"), "{page:?}");
        if is_there("man") {
            let found = printed(on_the_path(&prefix, "man").args(["-w", name]));
            assert_eq!(Path::new(found.trim_end()), page);
        }
    }
}

/// What bash completes the last of these words to.
fn completed(prefix: &Path, words: &[&str]) -> Vec<String> {
    let line = r#". "$1" && shift && COMP_WORDS=("$@") COMP_CWORD=$(($# - 1)) &&
        _tardorelga "$1" "${!#}" "${COMP_WORDS[COMP_CWORD - 1]}" && printf '%s\n' "${COMPREPLY[@]}""#;
    let completions = prefix.join("share/bash-completion/completions/tardorelga");
    let mut bash = on_the_path(prefix, "bash");
    bash.args(["--norc", "-c", line, "bash"]).arg(completions).arg("tardorelga").args(words);
    let mut found: Vec<String> = printed(&mut bash).lines().map(String::from).collect();
    found.retain(|word| !word.is_empty());
    found.sort();
    found
}

/// The words of a help's usage and of its lists that name a command or an option.
fn told(prefix: &Path, words: &[&str], wanted: fn(&str) -> bool) -> Vec<String> {
    let help = printed(on_the_path(prefix, "tardorelga").args(words).arg("--help"));
    let lists = help
        .lines()
        .filter(|line| line.starts_with("    "))
        .filter_map(|line| line.split_whitespace().next());
    let usage = help.lines().next().expect("the usage").split(['[', ']', '(', ')', '|', ' ']);
    let all = lists.chain(usage).chain(["--help"]).filter(|word| wanted(word)).map(String::from);
    let mut all: Vec<String> = all.collect();
    all.sort();
    all.dedup();
    all
}

#[test]
fn bash_completes_every_command_and_option_that_the_help_tells() {
    let prefix = installed("install-completion");
    let is_option = |word: &str| word.starts_with('-') && word.len() > 1;
    let is_command = |word: &str| {
        word != "usage:"
            && word.starts_with(|letter: char| letter.is_ascii_lowercase())
            && word != "tardorelga"
    };
    let commands = told(&prefix, &[], is_command);
    assert!(commands.len() >= 9, "{commands:?}");
    let first = [vec!["--help".into(), "--version".into()], commands.clone()].concat();
    assert_eq!(completed(&prefix, &[""]), first);
    assert_eq!(completed(&prefix, &["rew"]), ["rewrite"]);
    for command in &commands {
        assert_eq!(
            completed(&prefix, &[command, "-"]),
            told(&prefix, &[command], is_option),
            "{command}"
        );
    }
    assert_eq!(completed(&prefix, &["rewrite", "set.tgi", "--qu"]), ["--quota"]);
}

#[test]
fn bash_completes_names_of_files_where_no_command_or_option_is_due() {
    let prefix = installed("install-names");
    let source = format!(
        ". '{}'; complete -p tardorelga",
        prefix.join("share/bash-completion/completions/tardorelga").display()
    );
    let said = printed(on_the_path(&prefix, "bash").args(["--norc", "-c", &source]));
    // `-o default` is bash's own completion of names where the function answers nothing.
    assert_eq!(said, "complete -o default -F _tardorelga tardorelga\n");
    for words in [
        &["check", ""][..],
        &["check", "sam"],
        &["pack", "sheet", "-o", ""],
        &["pack", "-o", "-"],
        &["check", "--", "-"],
        &["rewrite", "--quota", ""],
    ] {
        assert_eq!(completed(&prefix, words), [""; 0], "{words:?}");
    }
}

/// The flags for C as pkg-config tells them, or as they stand in the file that it reads.
fn flags(prefix: &Path) -> String {
    let folder = prefix.join("lib/pkgconfig");
    if is_there("pkg-config") {
        let mut asked = Command::new("pkg-config");
        return printed(
            asked.args(["--cflags", "--libs", "tardorelga"]).env("PKG_CONFIG_PATH", folder),
        );
    }
    let text = fs::read_to_string(folder.join("tardorelga.pc")).unwrap();
    let value = |key: &str| {
        text.lines().find_map(|line| line.strip_prefix(key)).expect("a line").to_string()
    };
    let flags = value("Cflags: ") + " " + &value("Libs: ");
    let flags = flags
        .replace("${includedir}", &value("includedir="))
        .replace("${libdir}", &value("libdir="));
    flags.replace("${prefix}", &value("prefix="))
}

const HELLO: &str = r#"#include <stdio.h>
#include <tardorelga.h>
int main(void) {
    static uint8_t image[448];
    tardorelga_verdict verdict = tardorelga_check(image, fread(image, 1, sizeof image, stdin));
    printf("%u\n", verdict.number);
    return 0;
}
"#;

#[test]
fn a_program_in_c_is_linked_with_either_library_by_the_flags_of_pkg_config() {
    let prefix = installed("install-c");
    let place = prefix.parent().unwrap();
    fs::write(place.join("hello.c"), HELLO).unwrap();
    let shared = format!("gcc -Wall -Werror hello.c {} -o shared", flags(&prefix).trim_end());
    let archive =
        shared.replace("-ltardorelga", "-l:libtardorelga.a").replace("-o shared", "-o archive");
    for line in [shared, archive] {
        printed(Command::new("sh").args(["-c", &line]).current_dir(place));
    }
    let run = |program: &str| {
        let mut command = Command::new(place.join(program));
        command.stdin(File::open(root().join("samples/ledger.tgi")).unwrap());
        printed(command.env("LD_LIBRARY_PATH", prefix.join("lib")))
    };
    assert_eq!((run("shared"), run("archive")), ("0\n".into(), "0\n".into()));
    let needs = |program: &str| printed(Command::new("objdump").arg("-p").arg(place.join(program)));
    // A later version that is no longer fit for this program has another name.
    assert!(
        needs("shared").contains("NEEDED               libtardorelga.so.0\n"),
        "{}",
        needs("shared")
    );
    assert!(!needs("archive").contains("libtardorelga"));
}

#[test]
fn python_finds_the_module_and_the_module_its_library() {
    let prefix = installed("install-python");
    let program = "import importlib.metadata as metadata, sys, tardorelga\n\
        print(tardorelga.__file__, metadata.version('tardorelga'), tardorelga.check(sys.stdin.buffer.read()).number)";
    let mut python = Command::new("python3");
    python
        .args(["-c", program])
        .current_dir("/")
        .stdin(File::open(root().join("samples/refused-6.tgi")).unwrap());
    python
        .env_remove("TARDORELGA_LIBRARY")
        .env_remove("LD_LIBRARY_PATH")
        .env("PYTHONPATH", python_folder(&prefix));
    let module = python_folder(&prefix).join("tardorelga.py");
    assert_eq!(printed(&mut python), format!("{} {} 6\n", module.display(), version()));
    // What python3 has compiled beside it goes with it.
    printed(&mut uninstall(&prefix));
    assert!(!prefix.exists());
}

#[test]
fn uninstall_takes_what_install_put_there_and_nothing_else() {
    let place = folder("install-others");
    let others = [place.join("bin/other"), place.join("share/man/man1/other.1")];
    for other in &others {
        fs::create_dir_all(other.parent().unwrap()).unwrap();
        fs::write(other, "other").unwrap();
    }
    printed(&mut install(&place));
    fs::write(place.join("lib/later"), "later").unwrap();
    assert!(files_below(&place).len() > 15);
    printed(&mut uninstall(&place));
    let left = [&others[..1], &[place.join("lib/later")], &others[1..]].concat();
    assert_eq!(files_below(&place), left);
    assert_eq!(
        (names_in(&place), names_in(&place.join("share"))),
        (vec!["bin".into(), "lib".into(), "share".into()], vec!["man".into()])
    );
}

#[test]
fn where_nothing_is_installed_uninstall_says_so() {
    let place = folder("install-nothing");
    let (status, said) = refused(&mut uninstall(&place));
    let (prefix, manifest) = (place.display(), place.join("share/tardorelga/manifest"));
    let manifest = manifest.display();
    assert_eq!(status, Some(2));
    assert_eq!(
        said,
        format!("uninstall: nothing is installed below {prefix}: there is no {manifest}\n")
    );
}

#[test]
fn a_folder_that_was_there_before_stays_and_one_that_was_made_goes() {
    let place = folder("install-folders");
    for (prefix, stays) in [(place.clone(), true), (place.join("made/deep/er"), false)] {
        printed(&mut install(&prefix));
        // A second installation makes no folder, and yet knows the first one's.
        printed(&mut install(&prefix));
        printed(&mut uninstall(&prefix));
        assert_eq!((prefix.exists(), names_in(&place)), (stays, vec![]));
    }
}

#[test]
fn a_newer_version_replaces_files_as_a_whole_and_takes_away_what_it_no_longer_has() {
    let prefix = installed("install-again");
    let program = prefix.join("bin/tardorelga");
    fs::write(&program, "the older program").unwrap();
    let mut running = File::open(&program).unwrap();
    let older = running.metadata().unwrap().ino();
    let (gone, manifest) =
        (prefix.join("lib/libtardorelga.so.0.0.9"), prefix.join("share/tardorelga/manifest"));
    fs::write(&gone, "the older library").unwrap();
    fs::write(&manifest, format!("{}{}\n", fs::read_to_string(&manifest).unwrap(), gone.display()))
        .unwrap();
    printed(&mut install(&prefix));
    let mut text = String::new();
    running.read_to_string(&mut text).unwrap();
    assert_eq!(text, "the older program");
    assert_ne!(fs::metadata(&program).unwrap().ino(), older);
    assert!(!gone.exists());
    assert!(printed(Command::new(&program).arg("--version")).starts_with("tardorelga "));
    assert_eq!(names_in(&prefix.join("bin")), ["tardorelga"]);
}

#[test]
fn the_files_are_for_all_to_read_whatever_the_mask() {
    let prefix = folder("install-modes").join("prefix");
    let line = format!(
        "umask 077 && '{}' --as-built '{}'",
        root().join("install").display(),
        prefix.display()
    );
    printed(&mut install(&prefix));
    printed(&mut uninstall(&prefix));
    printed(Command::new("sh").args(["-c", &line]));
    let mode = |path: &Path| fs::metadata(path).unwrap().permissions().mode() & 0o777;
    for file in files_below(&prefix) {
        let wanted = if file.ends_with("bin/tardorelga") { 0o755 } else { 0o644 };
        assert_eq!((mode(&file), mode(file.parent().unwrap())), (wanted, 0o755), "{file:?}");
    }
}

#[test]
fn a_prefix_that_cannot_be_written_is_told_and_left_as_it_is() {
    let place = folder("install-refused");
    fs::write(place.join("file"), "").unwrap();
    // Nobody makes folders in /proc or below a file, not even root.
    for (prefix, named) in [
        (place.join("file/prefix"), place.join("file")),
        ("/proc/tardorelga".into(), "/proc".into()),
    ] {
        let (status, said) = refused(&mut install(&prefix));
        let advice = "run it as root, or give a folder of your own, as in ./install ~/.local";
        assert_eq!(status, Some(2));
        assert_eq!(
            said,
            format!("install: nothing can be written to {}: {advice}\n", named.display())
        );
    }
    assert_eq!(names_in(&place), ["file"]);
}

/// A folder with these programs and no other.
fn tools(place: &Path, names: &str) -> PathBuf {
    let folder = place.join("tools");
    fs::create_dir(&folder).unwrap();
    for name in names.split(' ') {
        let found = printed(Command::new("sh").args(["-c", "command -v \"$1\"", "sh", name]));
        symlink(found.trim_end(), folder.join(name)).unwrap();
    }
    folder
}

#[test]
fn what_is_missing_to_build_it_is_named_before_anything_is_written() {
    let place = folder("install-without");
    let without = tools(&place, "bash cat dirname env mktemp realpath rm rmdir sed");
    let mut command = Command::new(root().join("install"));
    let (status, said) = refused(command.arg(place.join("prefix")).env("PATH", without));
    let named: Vec<&str> = said.lines().filter_map(|line| line.split('`').nth(1)).collect();
    assert_eq!((status, named), (Some(2), vec!["rt", "cargo", "gcc"]), "{said}");
    assert_eq!(names_in(&place), ["tools"]);
}

#[test]
fn what_is_not_built_is_not_installed_as_built() {
    let place = folder("install-unbuilt");
    fs::create_dir_all(place.join("tree/host/cli")).unwrap();
    symlink(root().join("package"), place.join("tree/package")).unwrap();
    for name in ["install", "host/cli/Cargo.toml"] {
        fs::copy(root().join(name), place.join("tree").join(name)).unwrap();
    }
    let mut command = Command::new(place.join("tree/install"));
    let (status, said) = refused(command.arg("--as-built").arg(place.join("prefix")));
    let advice = "run ./show first, or leave --as-built away";
    assert_eq!(status, Some(2));
    assert_eq!(
        said,
        format!("install: host/target/release/tardorelga is not built yet: {advice}\n")
    );
    assert_eq!(names_in(&place), ["tree"]);
}

#[test]
fn a_broken_installation_can_be_taken_away() {
    let prefix = folder("install-broken").join("prefix");
    let in_the_way = prefix.join("lib/libtardorelga.a/folder");
    fs::create_dir_all(&in_the_way).unwrap();
    let (status, said) = refused(&mut install(&prefix));
    let sentence = format!("install: {}/lib/libtardorelga.a can't be written; what is there by now, ./uninstall takes away\n", prefix.display());
    assert!(status == Some(2) && said.ends_with(&sentence), "{said}");
    assert!(prefix.join("bin/tardorelga").exists());
    printed(&mut uninstall(&prefix));
    assert_eq!(
        (names_in(&prefix), in_the_way.exists(), files_below(&prefix)),
        (vec!["lib".into()], true, vec![])
    );
}

#[test]
fn a_package_is_made_of_a_tree_whose_names_begin_with_destdir() {
    let tree = folder("install-destdir");
    printed(install(Path::new("/usr")).env("DESTDIR", &tree));
    assert_eq!(names_in(&tree), ["usr"]);
    assert!(tree.join("usr/lib/python3/dist-packages/tardorelga.py").exists());
    for file in files_below(&tree).iter().filter(|file| !file.starts_with(tree.join("usr/bin"))) {
        let named =
            String::from_utf8_lossy(&fs::read(file).unwrap()).contains(tree.to_str().unwrap());
        assert!(!named, "{file:?} names the folder in which the package was made");
    }
    printed(uninstall(Path::new("/usr")).env("DESTDIR", &tree));
    assert_eq!(names_in(&tree), [""; 0]);
}

#[test]
fn the_scripts_say_how_they_are_called() {
    for name in ["install", "uninstall", "package/deb"] {
        let help = printed(&mut script(name, &[Path::new("--help")]));
        assert!(help.starts_with(&format!(
            "usage: {}",
            if name.contains('/') { name.into() } else { format!("./{name}") }
        )));
        let (status, said) = refused(&mut script(name, &[Path::new("--wrong")]));
        assert!(status == Some(2) && said.ends_with(&help), "{said}");
    }
}
