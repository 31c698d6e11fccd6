//! Reads a text from standard input and prints what document 01's program `sorts` prints for it. With `--list`,
//! standard input is a list of texts, each its byte count, a line feed, its bytes and a line feed, and so is the output.
use oracle::text::{framed, read_framed, sorts};
use std::io::{self, Read, Write};

fn main() -> io::Result<()> {
    let mut input = vec![];
    io::stdin().lock().read_to_end(&mut input)?;
    let output = match std::env::args().nth(1).as_deref() {
        None => sorts(&input).into_bytes(),
        Some("--list") => {
            let texts = read_framed(&input).unwrap_or_else(|e| panic!("{e}"));
            let outputs = texts.into_iter().map(|text| framed(sorts(text).as_bytes()));
            outputs.collect::<Vec<_>>().concat()
        }
        Some(other) => panic!("{other:?} is no option"),
    };
    io::stdout().lock().write_all(&output)
}
