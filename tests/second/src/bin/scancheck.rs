//! What the program scancheck prints for its standard input, by the second program.
use std::io::{self, Read, Write};

fn main() -> io::Result<()> {
    let mut input = Vec::new();
    io::stdin().read_to_end(&mut input)?;
    io::stdout().write_all(&second::report::report(&input))
}
