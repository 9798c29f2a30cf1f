//! Behaves as the program `listing` byte for byte: standard input in, standard output out.

use std::io::{self, Read, Write};

fn main() -> io::Result<()> {
    let mut input = Vec::new();
    io::stdin().read_to_end(&mut input)?;
    io::stdout().write_all(&second::listing(&input))
}
