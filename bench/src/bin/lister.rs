//! The session list in Rust as a program: standard input in, standard output out.

use std::io::{self, Read};

fn main() -> io::Result<()> {
    let mut input = Vec::new();
    io::stdin().lock().read_to_end(&mut input)?;
    bench::lister::list(&input, io::stdout().lock())
}
