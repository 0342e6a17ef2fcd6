//! FORMAT, "The listing": a reel on standard input, its listing on standard output.

use second::lister::{listing, LONGEST_INPUT};
use std::io::{stdin, stdout, Read, Result, Write};

fn main() -> Result<()> {
    let mut input = Vec::new();
    stdin().take(LONGEST_INPUT as u64 + 1).read_to_end(&mut input)?;
    stdout().write_all(&listing(&input))
}
