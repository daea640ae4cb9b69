//! The program over standard input and output, worked by the second implementation.

use reference::limits::LIST_BYTES;
use reference::program::survey;
use std::io::{self, Read, Write};

fn main() -> io::Result<()> {
    let mut input = Vec::new();
    // One byte beyond the limit is enough to see that the list is too long.
    io::stdin().lock().take(LIST_BYTES as u64 + 1).read_to_end(&mut input)?;
    io::stdout().lock().write_all(&survey(&input))
}
