//! The forms of a line. What fits none of them is 50.
use crate::calls::lent::Kind;

#[derive(Clone, Copy, Debug)]
pub enum Word<'a> {
    Variable,
    Global(&'a str),
    Literal { sort: &'a str },
}

/// A term is its whole word; `form` is what the word says.
#[derive(Clone, Copy, Debug)]
pub struct TermWord<'a> {
    pub word: &'a str,
    pub form: Word<'a>,
}

#[derive(Clone, Debug)]
pub enum Line<'a> {
    Sort(&'a str),
    /// Input sorts, then the output.
    Function {
        constructor: bool,
        name: &'a str,
        sorts: Vec<&'a str>,
    },
    Simple {
        name: &'a str,
        mask: usize,
        sorts: Vec<&'a str>,
    },
    AllEqual {
        name: &'a str,
        mask: usize,
        common: Option<&'a str>,
        length: Option<usize>,
        output: Option<&'a str>,
    },
    Global {
        name: &'a str,
        sort: &'a str,
    },
    Context(usize),
    Rule(Rule<'a>),
}

/// A line that is a call. Its terms are numbered in this order: the variable that `let`, `bind` and `local` begin with,
/// then the others; the last of `set`'s is its right side.
#[derive(Clone, Debug)]
pub struct Rule<'a> {
    pub kind: Kind,
    pub variable: Option<TermWord<'a>>,
    pub head: Option<&'a str>,
    pub terms: Vec<TermWord<'a>>,
    /// A typed local's.
    pub sort: Option<&'a str>,
}

const MASKS: usize = 256;
const CONTEXTS: usize = 8;
const MOST_DIGITS: usize = 4;

/// Words are parted by one space, so a further space makes an empty word, which is no name.
pub fn parse(line: &str) -> Option<Line<'_>> {
    let words: Vec<&str> = line.split(' ').collect();
    Some(match *words.as_slice() {
        ["sort", name] => Line::Sort(a_name(name)?),
        [kind @ ("fun" | "ctor"), name, ref sorts @ ..] if !sorts.is_empty() => Line::Function {
            constructor: kind == "ctor",
            name: a_name(name)?,
            sorts: names(sorts)?,
        },
        ["prim", name, mask, "simple", ref sorts @ ..] => Line::Simple {
            name: a_name(name)?,
            mask: number_below(mask, MASKS)?,
            sorts: names(sorts)?,
        },
        ["prim", name, mask, "equal", common, length, output] => Line::AllEqual {
            name: a_name(name)?,
            mask: number_below(mask, MASKS)?,
            common: optional(common, a_name)?,
            length: optional(length, number)?,
            output: optional(output, a_name)?,
        },
        ["global", name, sort] => Line::Global {
            name: a_name(name)?,
            sort: a_name(sort)?,
        },
        ["ctx", context] => Line::Context(number_below(context, CONTEXTS)?),
        _ => Line::Rule(rule(&words)?),
    })
}

fn rule<'a>(words: &[&'a str]) -> Option<Rule<'a>> {
    let empty = |kind| Rule {
        kind,
        variable: None,
        head: None,
        terms: vec![],
        sort: None,
    };
    let with_head = |kind, head, words| {
        Some(Rule {
            head: Some(a_name(head)?),
            terms: terms(words)?,
            ..empty(kind)
        })
    };
    let of_two = |kind, words| {
        let terms = terms(words)?;
        Some(Rule {
            terms,
            ..empty(kind)
        })
    };
    let of_variable = |rule: Rule<'a>, name| {
        let variable = Some(variable(name)?);
        Some(Rule { variable, ..rule })
    };
    match *words {
        ["atom", head, ref terms @ ..] => with_head(Kind::Head, head, terms),
        ["set", head, ref terms @ ..] if !terms.is_empty() => with_head(Kind::Set, head, terms),
        ["change", head, ref terms @ ..] => with_head(Kind::Change, head, terms),
        ["eq", ref terms @ ..] if terms.len() == 2 => of_two(Kind::Equality, terms),
        ["union", ref terms @ ..] if terms.len() == 2 => of_two(Kind::Union, terms),
        ["let", name, head, ref terms @ ..] => {
            of_variable(with_head(Kind::Let, head, terms)?, name)
        }
        ["bind", name, right] => {
            let terms = vec![term(right)?];
            of_variable(
                Rule {
                    terms,
                    ..empty(Kind::LetAtomTerm)
                },
                name,
            )
        }
        ["local", name, sort] => {
            let sort = Some(a_name(sort)?);
            of_variable(
                Rule {
                    sort,
                    ..empty(Kind::Local)
                },
                name,
            )
        }
        ["panic"] => Some(empty(Kind::Panic)),
        _ => None,
    }
}

fn is_name(word: &str) -> bool {
    let fits = |byte: u8| byte.is_ascii_alphanumeric() || byte == b'_' || byte == b'-';
    !word.is_empty() && word != "-" && word.bytes().all(fits)
}

fn a_name(word: &str) -> Option<&str> {
    is_name(word).then_some(word)
}

fn names<'a>(words: &[&'a str]) -> Option<Vec<&'a str>> {
    words.iter().map(|word| a_name(word)).collect()
}

/// One to four digits.
fn number(word: &str) -> Option<usize> {
    let fits = word.len() <= MOST_DIGITS && word.bytes().all(|byte| byte.is_ascii_digit());
    if fits { word.parse().ok() } else { None }
}

fn number_below(word: &str, bound: usize) -> Option<usize> {
    number(word).filter(|&number| number < bound)
}

/// A lone `-` is absent.
fn optional<'a, T>(word: &'a str, read: impl Fn(&'a str) -> Option<T>) -> Option<Option<T>> {
    match word {
        "-" => Some(None),
        _ => read(word).map(Some),
    }
}

fn variable(word: &str) -> Option<TermWord<'_>> {
    let form = Word::Variable;
    is_name(word).then_some(TermWord { word, form })
}

fn term(word: &str) -> Option<TermWord<'_>> {
    let form = if let Some(name) = word.strip_prefix('@') {
        Word::Global(a_name(name)?)
    } else if let Some(literal) = word.strip_prefix('=') {
        let (sort, name) = literal.split_once(':')?;
        a_name(name)?; // a second `:` is in no name
        Word::Literal {
            sort: a_name(sort)?,
        }
    } else {
        return variable(word);
    };
    Some(TermWord { word, form })
}

fn terms<'a>(words: &[&'a str]) -> Option<Vec<TermWord<'a>>> {
    words.iter().map(|word| term(word)).collect()
}
