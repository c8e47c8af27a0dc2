//! The small program of document 01: a map from standard input, one line per
//! fragment on standard output.

use std::io::{self, Read, Write};

use reference::lines::{lines, LONGEST_MAP};

fn main() -> io::Result<()> {
    let mut map = Vec::new();
    // One byte more than the longest map is enough to see that it is longer.
    io::stdin()
        .take(LONGEST_MAP as u64 + 1)
        .read_to_end(&mut map)?;
    io::stdout().write_all(lines(&map).as_bytes())
}
