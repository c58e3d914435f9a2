//! The program of request 4 of document 02, by the second planner: a set on standard input, its bounds and slots by fixed
//! priority on standard output.

use std::io::{Read, Write};

fn main() -> std::io::Result<()> {
    let mut input = Vec::new();
    // One byte more than is read tells that the input is too long.
    let most = second::plan::MOST_BYTES as u64 + 1;
    std::io::stdin().take(most).read_to_end(&mut input)?;
    std::io::stdout().write_all(&second::fixed_text(&input))
}
