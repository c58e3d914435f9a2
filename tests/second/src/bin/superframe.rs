//! The program of request 2 of document 02, by the second planner: a set on standard input, its superframe on standard
//! output.

use std::io::{Read, Write};

fn main() -> std::io::Result<()> {
    let mut input = Vec::new();
    // One byte more than is read tells that the input is too long.
    let most = second::plan::MOST_BYTES as u64 + 1;
    std::io::stdin().take(most).read_to_end(&mut input)?;
    std::io::stdout().write_all(&second::superframe_text(&input))
}
