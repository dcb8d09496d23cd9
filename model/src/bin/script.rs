//! Writes a random script. Arguments: its seed, how many lines.

use std::io::{self, Write};

fn main() -> io::Result<()> {
    let words: Vec<u64> = std::env::args().skip(1).filter_map(|word| word.parse().ok()).collect();
    let (seed, lines) = (words.first().copied().unwrap_or(1), words.get(1).copied().unwrap_or(500));
    io::stdout().write_all(&model::scripts::script(seed, lines as usize))
}
