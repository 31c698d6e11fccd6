//! Reads rule bodies, one a line, and prints what the groundedness check leaves of each, one line each.
use oracle::grounded::{Body, answer};
use oracle::lines::answer_lines;
use std::io;

fn main() -> io::Result<()> {
    answer_lines(|line| Body::parse(line).map(|body| answer(&body).to_string()))
}
