//! The oracle: reads a script on standard input and writes what it finds to standard output,
//! as docs/SCRIPT.md says.

use std::io::{self, BufWriter};

fn main() -> io::Result<()> {
    oracle::script::run(io::stdin().lock(), BufWriter::new(io::stdout().lock()))
}
