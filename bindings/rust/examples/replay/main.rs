//! Reads cases on standard input, one a line, and writes what the layout of each comes to.
//!
//! `docs/CASES.md`, at the top of the repository, has the language. A line that is no case is answered by `error`.

mod case;

use std::io::{self, BufRead, BufWriter, Write};

fn main() -> io::Result<()> {
    let mut out = BufWriter::new(io::stdout().lock());
    for line in io::stdin().lock().split(b'\n') {
        if let Some(answer) = case::answer(&line?) {
            writeln!(out, "{answer}")?;
        }
    }
    out.flush()
}
