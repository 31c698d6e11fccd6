//! Texts of five kinds, each of so many lines, that differ in the names that they compare.

pub const NAMES: [&str; 5] = [
    "declarations",
    "equalities",
    "long names",
    "prefixes",
    "short names",
];

/// The template of that number with so many lines.
pub fn text_template(number: usize, lines: usize) -> String {
    match number {
        0 => declarations(lines),
        1 => equalities(lines, ""),
        2 => equalities(lines, LONG),
        3 => prefixes(lines),
        _ => short_names(lines),
    }
}

/// What a long name begins with: two of them differ in their last bytes alone.
const LONG: &str = "the-distance-until-the-wheels-stand-still-";

/// A sort, then functions from that sort to itself.
fn declarations(lines: usize) -> String {
    let functions = (1..lines).map(|n| format!("fun takes-{n} Reading Reading\n"));
    format!("sort Reading\n{}", functions.collect::<String>())
}

/// Each variable is the next one, and the first is a reading.
fn equalities(lines: usize, prefix: &str) -> String {
    let equal = (2..lines).map(|n| format!("eq {prefix}v{n} {prefix}v{}\n", n - 1));
    format!(
        "sort Reading\neq {prefix}v1 =Reading:1\n{}",
        equal.collect::<String>()
    )
}

/// Sorts of which each one's name is a prefix of the next one's.
fn prefixes(lines: usize) -> String {
    (1..=lines)
        .map(|n| format!("sort {}\n", "x".repeat(n)))
        .collect()
}

/// Sorts with names of two bytes, then as many functions over eight of them each: nearly all the work is looking names up.
fn short_names(lines: usize) -> String {
    let sorts = lines / 2;
    let letter = |n: usize| (b'A' + n as u8) as char;
    let name = |n: usize| format!("{}{}", letter(n / 16), letter(n % 16));
    let mut text = String::new();
    for n in 0..sorts {
        text += &format!("sort {}\n", name(n));
    }
    for n in 0..sorts {
        let words = (0..8).map(|k| format!(" {}", name((n * 8 + k * 37) % sorts)));
        text += &format!("fun {}{}\n", name(n), words.collect::<String>());
    }
    text
}
