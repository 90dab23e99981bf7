//! The statement program of the second settlement: a month file in, its statement out.

use second::statement::{statement, MOST_BYTES};
use std::io::{self, Read, Write};

fn main() -> io::Result<()> {
    // One byte past the limit tells that there is more, whatever follows.
    let mut text = Vec::new();
    let mut input = io::stdin().lock().take(MOST_BYTES as u64 + 1);
    input.read_to_end(&mut text)?;
    io::stdout().write_all(&statement(&text))
}
