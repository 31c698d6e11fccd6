//! Reads back what the crate's generators made. A constraint only shows itself by its printed form; every term that can
//! stand in it is known beforehand, so its parts are looked up by the text that they print as.
use super::layout::Tree;
use super::names::{head_name, number_in};
use crate::constraint::ImpossibleConstraint;
use crate::core::{Atom, AtomTerm};
use egglog_ast::span::Span;

/// An atom or action whose constraints are read: its arguments with their numbers, the appended one included.
pub struct Known {
    pub head: usize,
    pub place: usize,
    pub arguments: Vec<(usize, AtomTerm)>,
}

const XOR_WORD: &str = " \\/ ";
const AND_WORD: &str = " /\\ ";
const EQUAL_WORD: &str = " = ";
const EXPECTED_WORD: &str = ", expected: ";

impl Known {
    /// The generators make no other compound than an Xor of Ands.
    pub fn tree(&self, text: &str) -> Tree {
        match inside(text) {
            None => self.leaf(text),
            Some(ands) => Tree::Xor(ands.split(XOR_WORD).map(|and| self.and(and)).collect()),
        }
    }

    fn and(&self, text: &str) -> Tree {
        let leaves = inside(text).unwrap_or_else(|| panic!("no And: {text}"));
        match leaves {
            "" => Tree::And(vec![]),
            _ => Tree::And(leaves.split(AND_WORD).map(|leaf| self.leaf(leaf)).collect()),
        }
    }

    fn leaf(&self, text: &str) -> Tree {
        if text.starts_with("ArityMismatch") {
            return self.impossible(text);
        }
        let (left, right) = text.split_once(EQUAL_WORD).expect("an Eq or an Assign");
        let x = self.term(left).expect("an argument on the left");
        match self.term(right) {
            Some(y) => Tree::Eq(x, y),
            None => Tree::Assign(x, number_in(right, "NamedSort(\"s", "\")")),
        }
    }

    fn term(&self, text: &str) -> Option<usize> {
        let mut arguments = self.arguments.iter();
        let found = arguments.find(|(_, term)| format!("{term:?}") == text);
        found.map(|(number, _)| *number)
    }

    /// Its atom must be this one with all its arguments.
    fn impossible(&self, text: &str) -> Tree {
        let (_, expected) = text.rsplit_once(EXPECTED_WORD).expect("an expected count");
        let expected = number_in(expected, "", " }");
        let whole = ImpossibleConstraint::ArityMismatch {
            atom: Atom {
                span: Span::At(self.place),
                head: head_name(self.head),
                args: self
                    .arguments
                    .iter()
                    .map(|(_, term)| term.clone())
                    .collect(),
            },
            expected,
        };
        assert_eq!(format!("{whole:?}"), text, "another atom");
        let head = self.head;
        Tree::Impossible { head, expected }
    }
}

fn inside(text: &str) -> Option<&str> {
    text.strip_prefix('(')?.strip_suffix(')')
}
