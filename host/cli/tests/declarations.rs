//! The C header, the Rust library and the Python module declare the same structs, to the byte, the same
//! functions and the same limits.

mod common;

use common::{folder, root};
use std::collections::BTreeSet;
use std::fs;
use std::mem::{offset_of, size_of};
use std::process::Command;
use tardorelga::{ffi, Verdict, Walk};

type Lines = BTreeSet<String>;

fn text(file: &str) -> String {
    fs::read_to_string(root().join(file)).expect("a text")
}

/// The lines that a command prints.
fn printed(command: &mut Command) -> Lines {
    let output = command.output().expect("the command starts");
    assert!(output.status.success(), "{}", String::from_utf8_lossy(&output.stderr));
    String::from_utf8(output.stdout).expect("text").lines().map(String::from).collect()
}

fn python(program: &str) -> Lines {
    let folder = root().join("bindings/python");
    printed(&mut Command::new(folder.join("build")));
    printed(Command::new("python3").args(["-B", "-c", program]).env("PYTHONPATH", folder))
}

/// The header without its comments.
fn header() -> String {
    let is_code = |line: &&str| !line.starts_with("/*") && !line.starts_with(" *");
    text("include/tardorelga.h").lines().filter(is_code).map(|line| format!("{line}\n")).collect()
}

/// A program in C that prints the size of each struct of the header, and of each field its place and size.
fn sizes_in_c() -> String {
    let mut program =
        String::from("#include <stdio.h>\n#include \"tardorelga.h\"\nint main(void) {\n");
    for part in header().split("typedef struct ").skip(1) {
        let (name, rest) = part.split_once(" {").expect("a struct");
        program += &format!("printf(\"{name} %zu\\n\", sizeof({name}));\n");
        for line in rest.lines().skip(1).take_while(|line| !line.starts_with('}')) {
            let field = line.trim_end_matches(';').rsplit(' ').next().expect("a field");
            let place = format!("offsetof({name}, {field}), sizeof(({name} *) 0)->{field}");
            program += &format!("printf(\"{name} {field} %zu %zu\\n\", {place});\n");
        }
    }
    program + "return 0;\n}\n"
}

fn structs_of_c() -> Lines {
    let folder = folder("structs");
    let (source, program) = (folder.join("structs.c"), folder.join("structs"));
    fs::write(&source, sizes_in_c()).expect("a program");
    let words = ["-Wall", "-Wextra", "-Werror", "-Iinclude"];
    printed(
        Command::new("gcc").args(words).args([&source]).arg("-o").arg(&program).current_dir(root()),
    );
    printed(&mut Command::new(program))
}

fn size_of_field<S, F>(_: fn(&S) -> &F) -> usize {
    size_of::<F>()
}

/// The same lines of a struct in Rust.
macro_rules! lines_of {
    ($name:literal, $kind:ty: $($field:ident)*) => {
        [
            format!("tardorelga_{} {}", $name, size_of::<$kind>()),
            $(format!(
                "tardorelga_{} {} {} {}",
                $name,
                stringify!($field),
                offset_of!($kind, $field),
                size_of_field(|all: &$kind| &all.$field),
            ),)*
        ]
        .to_vec()
    };
}

fn structs_of_rust() -> Lines {
    let structs = [
        lines_of!("verdict", Verdict: number item byte),
        lines_of!("found", ffi::Found: verdict joined start len),
        lines_of!("walk", Walk: format size offset at left),
        lines_of!("begun", ffi::Begun: verdict first second walk),
        lines_of!("stepped", ffi::Stepped: number joined start len walk),
        lines_of!("row", ffi::Row: count walk),
        lines_of!("facts", ffi::Facts: records bytes),
        lines_of!("written", ffi::Written: verdict len),
        lines_of!("tapes", ffi::Tapes: verdict len files),
        lines_of!("item", ffi::Item: kind number group start len behind),
    ];
    structs.into_iter().flatten().collect()
}

const STRUCTS_OF_PYTHON: &str = "
import ctypes, tardorelga
for name, kind in vars(tardorelga).items():
    if isinstance(kind, type) and issubclass(kind, ctypes.Structure):
        print(f'tardorelga{name.lower()}', ctypes.sizeof(kind))
        for field, _ in kind._fields_:
            place = getattr(kind, field)
            print(f'tardorelga{name.lower()}', field, place.offset, place.size)
";

#[test]
fn structs() {
    let due = structs_of_c();
    assert!(due.len() > 40, "{due:?}");
    assert_eq!(structs_of_rust(), due);
    assert_eq!(python(STRUCTS_OF_PYTHON), due);
}

/// Each limit that Python has is the header's.
#[test]
fn limits() {
    let limits = ["LONGEST_IMAGE", "LONGEST_RECORD", "MOST_FILES", "MOST_REELS", "HIGHEST_QUOTA"];
    let header = header();
    let defined = |limit: &&str| {
        let line = format!("#define TARDORELGA_{limit} ");
        let value = header.lines().find_map(|text| text.strip_prefix(&line)).expect("a limit");
        format!("{limit} {value}")
    };
    let program = format!(
        "import tardorelga\nfor limit in {limits:?}:\n    print(limit, getattr(tardorelga, limit))"
    );
    assert_eq!(python(&program), limits.iter().map(defined).collect());
}

/// The type of C that Rust writes so.
fn in_c(kind: &str) -> String {
    match kind {
        "*const u8" => "const uint8_t *".into(),
        "*mut u8" => "uint8_t *".into(),
        "*const u64" => "const uint64_t *".into(),
        "*mut u64" => "uint64_t *".into(),
        "usize" => "size_t".into(),
        "u64" => "uint64_t".into(),
        "u32" => "uint32_t".into(),
        name => format!("tardorelga_{}", name.to_lowercase()),
    }
}

/// The class of ctypes that Python has for a type of C; there a size has the class of a number of 64 bits.
fn in_ctypes(kind: &str) -> String {
    match kind {
        "const uint8_t *" => "c_char_p".into(),
        "size_t" | "uint64_t" => "c_ulong".into(),
        "uint32_t" => "c_uint".into(),
        pointer if pointer.ends_with('*') => "c_void_p".into(),
        name => name.replacen("tardorelga_", "_", 1),
    }
}

/// Name, result and parameters of each function, in types of C.
type Functions = Vec<(String, Vec<String>)>;

fn functions_of_c() -> Functions {
    let header = header();
    let function = |statement: &str| {
        let (front, parameters) = statement.split_once('(')?;
        let mut front = front.split_whitespace().rev();
        let (name, result) = (front.next()?, front.next()?);
        let kind = |parameter: &str| -> String {
            let words = parameter.trim_end_matches(')').trim();
            words.trim_end_matches(|c: char| c.is_alphanumeric() || c == '_').trim_end().into()
        };
        Some((
            name.into(),
            [result.into()].into_iter().chain(parameters.split(',').map(kind)).collect(),
        ))
    };
    header.split(';').filter_map(function).collect()
}

fn functions_of_rust() -> Functions {
    let declared = text("host/tardorelga/src/ffi.rs");
    let function = |statement: &str| {
        let (front, result) = statement.split_once("->")?;
        let (name, parameters) = front.split_once("pub fn ")?.1.split_once('(')?;
        let kinds = parameters.split(',').filter_map(|parameter| parameter.split_once(": "));
        let kinds = kinds.map(|(_, kind)| in_c(kind.trim().trim_end_matches(')')));
        Some((name.into(), [in_c(result.trim())].into_iter().chain(kinds).collect()))
    };
    declared.split(';').filter_map(function).collect()
}

const FUNCTIONS_OF_PYTHON: &str = "
import tardorelga
for name, kinds in tardorelga._FUNCTIONS.items():
    print(f'tardorelga_{name}', *(kind.__name__.lower() for kind in kinds))
";

#[test]
fn functions() {
    let due = functions_of_c();
    assert!(due.len() >= 14, "{due:?}");
    let sorted = |functions: Functions| functions.into_iter().collect::<BTreeSet<_>>();
    assert_eq!(sorted(functions_of_rust()), sorted(due.clone()));
    let line = |(name, kinds): (String, Vec<String>)| {
        [vec![name], kinds.iter().map(|kind| in_ctypes(kind)).collect()].concat().join(" ")
    };
    let due: Lines = due.into_iter().map(line).collect();
    let python = python(FUNCTIONS_OF_PYTHON);
    assert!(python.len() >= 13 && python.is_subset(&due), "{python:?}\n{due:?}");
}
