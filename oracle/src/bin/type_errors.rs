//! Reads problems, one a line, and prints the type errors that solving each of them gives, one line each.
use oracle::lent::Lent;
use oracle::lines::answer_lines;
use oracle::type_errors::type_errors;
use std::io;

fn main() -> io::Result<()> {
    answer_lines(|line| Lent::parse(line).map(|lent| type_errors(&lent).to_string()))
}
