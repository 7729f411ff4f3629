//! Reads a call log on standard input and writes its lines on standard output.

use std::io::{self, BufReader, BufWriter};

fn main() -> io::Result<()> {
    let input = BufReader::new(io::stdin().lock());
    let output = BufWriter::new(io::stdout().lock());
    reference::log::replay(input, output)
}
