//! Lines in, lines out: what the programs over lists of numbers share.
use std::io::{self, BufRead, Write};

/// Answers every line of standard input but comments and empty ones. Each answer is written at once: a chain of calls is
/// made by reading one answer before the next call is written.
pub fn answer_lines(mut answer: impl FnMut(&str) -> Result<String, String>) -> io::Result<()> {
    let mut out = io::stdout().lock();
    for (number, line) in (1..).zip(io::stdin().lock().lines()) {
        let line = line?;
        if line.is_empty() || line.starts_with('#') {
            continue;
        }
        let answered = answer(&line).unwrap_or_else(|e| panic!("line {number}: {e}"));
        writeln!(out, "{answered}")?;
    }
    Ok(())
}
