//! Plays a bench script: `rust_tag IMAGE < LINES` (document 01, "Image file and bench program").

#![forbid(unsafe_code)]

// The program needs neither `save` nor the single-block cipher, which the library offers to others.
#[allow(dead_code)]
#[path = "lib.rs"]
mod rust_tag;

use std::io;

/// The exit status is 0 in every case (D56): a failed reading or writing only ends the script (D55).
fn main() {
    let name = std::env::args_os().nth(1);
    let _ = rust_tag::bench::run(name.as_deref(), io::stdin().lock(), io::stdout().lock());
}
