//! Texts at random: lines that fit what was declared, mostly; texts at a limit; damaged ones.
use crate::random::Random;

const SORTS: [&str; 4] = ["S", "T", "Reading", "Metre"];
const HEADS: [&str; 4] = ["f", "g", "dist", "f1"];
const VARIABLES: [&str; 5] = ["a", "b", "c", "d", "x-1"];
const MOST_BYTES: usize = 32_768;

/// The largest sizes that a text can reach, and the line of which one more is wanted for each: `#` is a number.
const GROWING: [(usize, &str); 9] = [
    (256, "sort s#"),
    (256, "global k# S"),
    (256, "prim p# 1 simple S T"),
    (128, "prim p 1 simple S S S S S S S S T T T T T T T T"),
    (254, "local v# S"),
    (512, "eq a b"),
    (256, "atom f a b"),
    (64, "atom g a b"),
    (3000, "panic"),
];

pub fn text(random: &mut Random) -> Vec<u8> {
    let mut writer = Writer::new(random);
    writer.declarations();
    if writer.random.one_in(12) {
        writer.grow();
    }
    writer.rules();
    let mut text = writer.lines.join("\n").into_bytes();
    if !random.one_in(5) {
        text.push(b'\n');
    }
    if random.one_in(40) {
        text.resize(MOST_BYTES - 1 + random.below(3), b'\n');
    }
    if random.one_in(3) {
        for _ in 0..random.between(1, 2) {
            damage(&mut text, random);
        }
    }
    text
}

/// Writes lines that fit what was declared.
struct Writer<'a> {
    random: &'a mut Random,
    lines: Vec<String>,
    sort_names: Vec<&'static str>,
    global_names: Vec<&'static str>,
    function_names: Vec<&'static str>,
    /// A head, and how many terms one of its signatures takes.
    arities: Vec<(&'static str, usize)>,
}

impl Writer<'_> {
    fn new(random: &mut Random) -> Writer<'_> {
        Writer {
            random,
            lines: vec![],
            sort_names: vec![],
            global_names: vec![],
            function_names: vec![],
            arities: vec![],
        }
    }

    fn say(&mut self, words: &[&str]) {
        self.lines.push(words.join(" "));
    }

    fn declarations(&mut self) {
        for name in &SORTS[..self.random.between(1, 4)] {
            self.say(&["sort", name]);
            self.sort_names.push(name);
        }
        for _ in 0..self.random.between(2, 7) {
            self.declare();
        }
    }

    /// One line over and over, about as often as it may be.
    fn grow(&mut self) {
        let (limit, line) = self.random.pick(&GROWING);
        let times =
            (limit + self.random.below(8)).saturating_sub(self.random.pick(&[4, 4, 12, 30]));
        for number in 0..times {
            self.lines.push(line.replace('#', &number.to_string()));
        }
    }

    fn rules(&mut self) {
        for _ in 0..self.random.between(1, 9) {
            if self.random.one_in(12) {
                self.declare();
            }
            if self.random.one_in(25) {
                self.lines.push(String::new());
            }
            self.rule();
        }
    }

    fn sort(&mut self) -> &'static str {
        self.random.pick(&self.sort_names)
    }

    fn some_sorts(&mut self, fewest: usize) -> Vec<&'static str> {
        (0..self.random.between(fewest, 3))
            .map(|_| self.sort())
            .collect()
    }

    fn mask(&mut self) -> String {
        let any = self.random.below(256);
        self.random
            .pick(&[1, 1, 255, 255, 255, 3, 131, any])
            .to_string()
    }

    fn declare(&mut self) {
        let head = self.random.pick(&HEADS);
        match self.random.below(8) {
            0..3 => self.declare_function(head),
            3..5 => self.declare_simple(head),
            5..7 => self.declare_equal(head),
            _ => self.declare_global(),
        }
    }

    fn declare_function(&mut self, head: &'static str) {
        if !self.function_names.contains(&head) {
            let kind = self.random.pick(&["fun", "fun", "ctor"]);
            let sorts = self.some_sorts(1);
            self.say(&[&[kind, head], &sorts[..]].concat());
            self.function_names.push(head);
            self.arities.push((head, sorts.len()));
        }
    }

    fn declare_simple(&mut self, head: &'static str) {
        let fewest = usize::from(!self.random.one_in(20));
        let (mask, sorts) = (self.mask(), self.some_sorts(fewest));
        self.say(&[&["prim", head, &mask, "simple"], &sorts[..]].concat());
        self.arities.push((head, sorts.len()));
    }

    fn declare_equal(&mut self, head: &'static str) {
        let length = self
            .random
            .pick(&["1", "2", "2", "3", "3", "0002", "2", "0"]);
        let (mask, common, output) = (self.mask(), self.sort(), self.sort());
        let [common, shown, output] = [common, length, output].map(|word| self.maybe(word));
        self.say(&["prim", head, &mask, "equal", common, shown, output]);
        self.arities.push((head, length.parse().expect("a length")));
    }

    fn maybe(&mut self, word: &'static str) -> &'static str {
        self.random.pick(&[word, word, "-", "-", "-"])
    }

    fn declare_global(&mut self) {
        let name = self.random.pick(&["g", "k", "S"]);
        if !self.global_names.contains(&name) {
            let sort = self.sort();
            self.say(&["global", name, sort]);
            self.global_names.push(name);
        }
    }

    fn term(&mut self) -> String {
        match self.random.below(8) {
            0 if !self.global_names.is_empty() => {
                format!("@{}", self.random.pick(&self.global_names))
            }
            1 => format!("={}:{}", self.sort(), self.random.pick(&["l", "0", "m"])),
            _ => self.random.pick(&VARIABLES).to_owned(),
        }
    }

    /// A head and as many terms as some signature of it takes, mostly, less those that the line itself adds.
    fn call(&mut self, added: usize) -> Vec<String> {
        let undeclared = (self.random.pick(&HEADS), 2);
        let (head, mut count) = match self.random.below(32) {
            0 => undeclared,
            _ if self.arities.is_empty() => undeclared,
            _ => self.random.pick(&self.arities),
        };
        if self.random.one_in(8) {
            count = self.random.between(1, 4);
        }
        let terms = (added..count).map(|_| self.term());
        let terms: Vec<String> = terms.collect();
        [vec![head.to_owned()], terms].concat()
    }

    fn rule(&mut self) {
        let variable = self.random.pick(&VARIABLES).to_owned();
        let words = match self.random.below(18) {
            0..6 => [vec!["atom".to_owned()], self.call(0)].concat(),
            6..8 => vec!["eq".to_owned(), self.term(), self.term()],
            8 => vec!["union".to_owned(), self.term(), self.term()],
            9..11 => [vec!["let".to_owned(), variable], self.call(1)].concat(),
            11 => {
                let call = self.call(1);
                [vec!["set".to_owned()], call, vec![self.term()]].concat()
            }
            12 => [vec!["change".to_owned()], self.call(1)].concat(),
            13 => vec!["bind".to_owned(), variable, self.term()],
            14..16 => vec!["local".to_owned(), variable, self.sort().to_owned()],
            16 => vec!["panic".to_owned()],
            _ => vec![
                "ctx".to_owned(),
                self.random.pick(&["0", "0", "1", "7", "3"]).to_owned(),
            ],
        };
        self.lines.push(words.join(" "));
    }
}

const ODD: [&[u8]; 20] = [
    b" ",
    b"  ",
    b"\n",
    b"\t",
    b"\r",
    b"\x00",
    b"\x80",
    b"\xff",
    b"-",
    b"@",
    b"=",
    b":",
    b"#",
    b"0",
    b"a",
    b"S",
    b"9999",
    b"sort ",
    b"atom f ",
    b"\xc3\xa9",
];

/// A byte or a line is put in, taken out, doubled or exchanged with another.
fn damage(text: &mut Vec<u8>, random: &mut Random) {
    let at = random.below(text.len() + 1);
    match random.below(6) {
        0 => {
            text.splice(at..at, random.pick(&ODD).iter().copied());
        }
        1 => {
            text.splice(
                at..text.len().min(at + 1),
                random.pick(&ODD).iter().copied(),
            );
        }
        2 => {
            text.drain(at..text.len().min(at + random.between(1, 3)));
        }
        3 => text.truncate(at),
        kind => {
            let mut lines: Vec<&[u8]> = text.split(|&byte| byte == b'\n').collect();
            let (one, other) = (random.below(lines.len()), random.below(lines.len()));
            if kind == 4 {
                lines.swap(one, other);
            } else {
                lines.insert(one, lines[other]);
            }
            *text = lines.join(&b'\n');
        }
    }
}
