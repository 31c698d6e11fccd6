//! Whole texts: the library's output beside the oracle's, every byte, and every byte of the memory that is lent for it.
use crate::random::Random;
use crate::random_texts::text;
use crate::spread::spread;
use crate::tally::Tally;
use oracle::text::sorts;
use sortlib::raw;

/// What a text can be answered with: all sorted, the first error, open, or refused.
pub const NUMBERS: [usize; 13] = [0, 7, 8, 10, 20, 21, 30, 31, 32, 33, 50, 51, 52];

/// What lent bytes hold before.
const FILL: u8 = 0xA5;

pub fn random(count: u64) -> Tally {
    spread("texts at random", count, |seed, tally| {
        one(&mut Random::new(seed + 1), tally);
    })
}

pub fn one(random: &mut Random, tally: &mut Tally) {
    let text = text(random);
    let lent = random.below(8);
    compare(&text, lent, tally);
}

/// Lent are just as many bytes as the output has.
pub const EXACT: usize = 3;

/// Lent are just as many bytes as the output has, one less, none, or more.
pub fn compare(text: &[u8], lent: usize, tally: &mut Tally) {
    let theirs = sorts(text).into_bytes();
    let size = match lent {
        0 => theirs.len() - 1,
        1 => 0,
        2 => theirs.len() + 1000,
        _ => theirs.len(),
    };
    let mut ours = vec![FILL; size];
    let bytes = raw::text(text, &mut ours);
    let mut expected = vec![FILL; size];
    if theirs.len() <= size {
        expected[..theirs.len()].copy_from_slice(&theirs);
    }
    if bytes == theirs.len() && ours == expected {
        tally.same(number_of(&theirs));
    } else {
        let ours = format!("{bytes} bytes {:?}", shown(&ours));
        let theirs = format!("{} bytes {:?}", theirs.len(), shown(&expected));
        tally.differs(text.len(), format!("{:?}", shown(text)), ours, theirs);
    }
}

fn shown(bytes: &[u8]) -> String {
    bytes.escape_ascii().to_string()
}

/// The number of an output: that of its refusal, of the first error, or of what is open.
pub fn number_of(output: &[u8]) -> usize {
    let output = std::str::from_utf8(output).expect("names are ASCII");
    let mut rows = output.lines();
    let words: Vec<&str> = rows.next().expect("a first row").split(' ').collect();
    let error = rows.next().and_then(|row| row.split(' ').next());
    match (words[0], error) {
        ("ok", _) => 0,
        ("open", _) => 31,
        ("refused", _) => words[1].parse().expect("a number"),
        ("conflict", Some("mismatch")) => 30,
        ("conflict", Some("none")) => 32,
        ("conflict", Some("arity")) => 33,
        _ => panic!("no such output: {output}"),
    }
}
