//! Reads problems, one a line, and prints what solving each of them leaves, one line each.
use oracle::answer::answer;
use oracle::lent::Lent;
use oracle::lines::answer_lines;
use std::io;

fn main() -> io::Result<()> {
    answer_lines(|line| Lent::parse(line).map(|lent| answer(&lent).to_string()))
}
