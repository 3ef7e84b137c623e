//! `operations WHAT SEED COUNT`: archive and oracle on so many generated inputs of one operation; prints
//! how often each answer came, and fails at the first input on which they differ.

use oracle::generate::{illegal_order, legal_order};
use std::process::ExitCode;
use trials::{images::generated, listing, records, rewriting, simh, states, writing};

/// An operation, and its trial of so many inputs from a seed.
type Operation = (&'static str, fn(u64, u64) -> String);

const OPERATIONS: [Operation; 9] = [
    ("records", |seed, count| records::compare(generated, seed, count).to_string()),
    ("states", |seed, count| states::compare(seed, count).to_string()),
    ("legal-sheets", |seed, count| writing::compare(legal_order, seed, count).to_string()),
    ("illegal-sheets", |seed, count| writing::compare(illegal_order, seed, count).to_string()),
    ("listings", |seed, count| listing::compare(generated, seed, count).to_string()),
    ("rewriting", |seed, count| rewriting::compare(generated, seed, count).to_string()),
    ("meanings", |seed, count| rewriting::compare_disguised(seed, count).to_string()),
    ("from-simh", |seed, count| simh::compare_files(seed, count).to_string()),
    ("to-simh", |seed, count| simh::compare_images(seed, count).to_string()),
];

fn main() -> ExitCode {
    let words: Vec<String> = std::env::args().skip(1).collect();
    let [what, seed, count] = &words[..] else { return misused() };
    let operation = OPERATIONS.iter().find(|(name, _)| name == what);
    let (Some((_, trial)), Ok(seed), Ok(count)) = (operation, seed.parse(), count.parse()) else {
        return misused();
    };
    println!("{what}, seed {seed}: {}", trial(seed, count));
    ExitCode::SUCCESS
}

fn misused() -> ExitCode {
    let names: Vec<&str> = OPERATIONS.iter().map(|(name, _)| *name).collect();
    eprintln!("usage: operations WHAT SEED COUNT, where WHAT is one of {}", names.join(", "));
    ExitCode::from(2)
}
