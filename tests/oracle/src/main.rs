//! The oracle: answers objectives with the given Rust's `reduce`. One objective
//! a line on standard input, one answer a line on standard output.
use oracle::ask;
use std::io::{self, BufRead, BufWriter, Write};

fn main() -> io::Result<()> {
    let mut out = BufWriter::new(io::stdout().lock());
    for line in io::stdin().lock().lines() {
        writeln!(out, "{}", ask::answer(&ask::read(&line?)))?;
    }
    out.flush()
}
