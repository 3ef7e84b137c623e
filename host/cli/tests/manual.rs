//! The manual pages tell what `--help` and docs/SHEET.md tell, and their examples run.

mod common;

use common::{folder, root, run, shell};
use std::collections::BTreeSet;
use std::ffi::OsStr;
use std::fs;
use std::os::unix::ffi::OsStrExt;
use std::process::Command;

const PAGES: [&str; 2] = ["docs/tardorelga.1", "docs/tardorelga-sheet.5"];

/// The examples of a page: the lines between `.EX` and `.EE`, as they are shown.
fn examples(page: &str) -> Vec<String> {
    let text = fs::read_to_string(root().join(page)).unwrap().replace("\\-", "-");
    let parts =
        text.split("\n.EX\n").skip(1).map(|part| part.split("\n.EE\n").next().unwrap().into());
    parts.collect()
}

#[test]
fn the_manual_page_has_every_command_and_option() {
    let page = fs::read_to_string(root().join("docs/tardorelga.1")).unwrap();
    let page = page.replace("\\-", "-").replace("\\fB", "").replace("\\fR", "").replace("\\fI", "");
    let all = run(&["--help"]).done();
    let commands = all.text().lines().filter_map(|line| line.strip_prefix("    "));
    for command in commands.filter_map(|line| line.split(' ').next()) {
        let help = run(&[command, "--help"]).done();
        let usage = help.text().lines().next().expect("the usage").replacen("usage: ", "", 1);
        assert!(page.contains(&format!(".B {usage}\n")), "{usage}");
        for line in help.text().lines().filter(|line| line.starts_with("    -")) {
            let option = line.split_whitespace().next().expect("an option");
            assert!(page.matches(option).count() > 1, "{command} {option}");
        }
    }
    assert!(page.contains(run(&["--version"]).done().text().trim_end()));
}

#[test]
fn every_help_fits_a_terminal_and_names_no_file_of_the_source() {
    let all = run(&["--help"]).done();
    let commands =
        all.text().lines().filter_map(|line| line.strip_prefix("    ")?.split(' ').next());
    for words in commands.map(|command| vec![command, "--help"]).chain([vec!["--help"]]) {
        let help = run(&words).done();
        let wide = help.text().lines().find(|line| line.len() > 110);
        assert_eq!((wide, help.text().contains("docs/")), (None, false), "{words:?}");
    }
}

/// The members of the objects in a JSON text.
fn members(json: &str) -> BTreeSet<&str> {
    let ends = json.match_indices("\":").map(|(end, _)| &json[..end]);
    ends.filter_map(|before| before.rsplit_once('"')).map(|(_, name)| name).collect()
}

/// What `check`, `list` and `show` print as JSON: of sets that are accepted, refused and not there, under a
/// name that is no UTF-8 too.
fn objects() -> Vec<String> {
    let odd = folder("manual-json").join(OsStr::from_bytes(b"\xff.tgi"));
    fs::copy(root().join("samples/refused-6.tgi"), &odd).unwrap();
    let samples = ["samples/options.tgi", "samples/refused-6.tgi", "samples/nowhere.tgi"];
    let names = samples.iter().map(OsStr::new).chain([odd.as_os_str()]);
    let words = names.flat_map(|name| {
        let ways: [&[&str]; 6] = [
            &["check", "-r"],
            &["list"],
            &["show"],
            &["check", "--simh"],
            &["list", "--simh"],
            &["show", "--simh"],
        ];
        ways.map(|way| {
            [way.iter().map(OsStr::new).collect(), vec!["--json".as_ref(), name]].concat()
        })
    });
    words.map(|words| run(&words).text().to_string()).collect()
}

#[test]
fn the_manual_page_has_every_member_of_a_json_object() {
    let page = fs::read_to_string(root().join("docs/tardorelga.1")).unwrap();
    let bold = page.lines().filter_map(|line| line.strip_prefix(".B")?.split_once(' '));
    let told: BTreeSet<&str> = bold.map(|(_, text)| text.split(' ').next().unwrap()).collect();
    let objects = objects();
    let printed: BTreeSet<&str> = objects.iter().flat_map(|json| members(json)).collect();
    assert!(printed.len() > 35, "{printed:?}");
    assert_eq!(printed.difference(&told).collect::<Vec<_>>(), [] as [&&str; 0]);
}

#[test]
fn the_examples_of_the_manual_page_run_one_after_the_other() {
    let place = folder("manual-examples");
    fs::copy(root().join("samples/messages.tgi"), place.join("set.tgi")).unwrap();
    let examples = examples("docs/tardorelga.1").join("\n");
    let commands: Vec<&str> = examples.lines().filter_map(|line| line.strip_prefix("$ ")).collect();
    assert!(commands.len() >= 10, "{commands:?}");
    for command in commands {
        let command = command.replacen("tardorelga ", "\"$T\" ", 1);
        shell(&format!("cd \"$D\" && {command}"), &place).done();
    }
}

#[test]
fn the_page_on_order_sheets_has_every_keyword() {
    let sheets = fs::read_to_string(root().join("docs/SHEET.md")).unwrap();
    let page = fs::read_to_string(root().join("docs/tardorelga-sheet.5")).unwrap();
    let keywords =
        sheets.lines().filter_map(|line| line.strip_prefix("| `")?.split([' ', '`']).next());
    assert!(keywords.clone().count() >= 17);
    for keyword in keywords {
        let entry = format!("\n.TP\n.BI {} \"", keyword.replace('-', "\\-"));
        assert!(page.contains(&entry), "{keyword}");
    }
}

#[test]
fn the_first_example_on_order_sheets_is_the_sheet_of_a_sample() {
    let place = folder("manual-sheet");
    fs::write(place.join("sheet"), examples("docs/tardorelga-sheet.5")[0].clone() + "\n").unwrap();
    shell("\"$T\" pack \"$D/sheet\" -o - | cmp - samples/ledger.tgi", &place).done();
}

#[test]
fn the_pages_are_of_this_version_and_well_formed() {
    let version = run(&["--version"]).done();
    for page in PAGES {
        let text = fs::read_to_string(root().join(page)).unwrap();
        assert!(text.lines().next().unwrap().contains(version.text().trim_end()), "{page}");
        let mut groff = Command::new("groff");
        let Ok(said) = groff.args(["-man", "-ww", "-z"]).arg(root().join(page)).output() else {
            println!("manual: groff is not there, and nothing was shown of {page}");
            continue;
        };
        assert_eq!(
            (said.status.success(), String::from_utf8_lossy(&said.stderr)),
            (true, "".into())
        );
    }
}
