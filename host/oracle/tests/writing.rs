//! Writing order sheets and rewriting images.

use cases::{rewriting, writing};
use oracle::rewrite;

#[test]
fn sheets() {
    writing::run(&writing::cases(), |sheet, out| sheet.write(out));
}

#[test]
fn images() {
    rewriting::run(rewrite);
}
