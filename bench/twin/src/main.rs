//! Reads a script on standard input and prints one line for each of its lines, as `airbench` does.
//!
//! Written from the pages in `docs/`. See `bench/README.md`.

mod content;
mod form;
mod items;
mod play;
mod print;
mod reader;
mod service;
mod set;
mod slot;

use std::io::{self, Read, Write};

/// A script has at most this many bytes, line ends counted.
const SCRIPT_BYTES: usize = 65_536;

fn main() -> io::Result<()> {
    let mut script = Vec::new();
    // One byte past the limit is enough to know that there are too many.
    io::stdin().lock().take(SCRIPT_BYTES as u64 + 1).read_to_end(&mut script)?;
    let printed = if script.len() > SCRIPT_BYTES { print::TOO_LONG.to_string() } else { play::play(&script) };
    io::stdout().lock().write_all(printed.as_bytes())
}
