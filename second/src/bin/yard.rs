//! Reads a schedule of the yard from standard input and prints the answers.

use std::io::{self, Read, Write};

fn main() -> io::Result<()> {
    let mut input = Vec::new();
    io::stdin().lock().read_to_end(&mut input)?;
    io::stdout()
        .lock()
        .write_all(second::simulator::run(&input).as_bytes())
}
