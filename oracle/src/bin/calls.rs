//! Reads generator calls, one a line, and prints what each of them leaves, one line each.
use oracle::calls::{Call, Caller};
use oracle::lines::answer_lines;
use std::io;

fn main() -> io::Result<()> {
    let mut caller = Caller::default();
    answer_lines(|line| Call::parse(line).map(|call| caller.answer(&call).to_string()))
}
