//! Reads a shop from standard input and prints its log.

use independent::text::{answer, INPUT_MAX};
use std::io::{self, Read, Write};

fn main() -> io::Result<()> {
    let mut input = Vec::new();
    // One byte more than an input may have is enough to see that it has too many.
    io::stdin().take(INPUT_MAX as u64 + 1).read_to_end(&mut input)?;
    io::stdout().write_all(&answer(&input))
}
