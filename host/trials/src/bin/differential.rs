//! `differential SEED COUNT`: archive and oracle on so many generated sets; prints how often each
//! number and place came, and fails at the first set on which they differ.

use std::process::ExitCode;
use trials::{compare, images::generated};

fn main() -> ExitCode {
    let arguments: Vec<_> = std::env::args().skip(1).map(|word| word.parse().ok()).collect();
    let [Some(seed), Some(count)] = arguments[..] else {
        eprintln!("usage: differential SEED COUNT");
        return ExitCode::from(2);
    };
    print!("{}", compare(generated, seed, count));
    ExitCode::SUCCESS
}
