//! The script program over standard input and output (docs/SPECIFICATION.md, 8).

use oracle::limits::SCRIPT_BYTES;
use std::io::{Read, Write};

fn main() -> std::io::Result<()> {
    let mut input = Vec::new();
    std::io::stdin()
        .take(SCRIPT_BYTES as u64)
        .read_to_end(&mut input)?;
    std::io::stdout().write_all(oracle::script::run(&input).as_bytes())
}
