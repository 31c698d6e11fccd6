//! What the lines so far have declared, as the flat tables that a call is lent.
use super::grammar::{Line, TermWord, Word};
use crate::calls::lent::*;
use crate::calls::refusals::{MOST_GLOBALS, MOST_SIGNATURE_SORTS, MOST_SIGNATURES};
use crate::refusals::MOST_SORTS;

const UNKNOWN_OR_TWICE: usize = 51;
const TOO_MANY: usize = 10;

#[derive(Default)]
pub struct Tables {
    pub sort_names: Vec<String>,
    pub global_names: Vec<String>,
    /// Every head named so far, declared or not; its number is its place here.
    pub head_names: Vec<String>,
    function_names: Vec<String>,
    /// Every term so far by its word; a fresh one's word is no word of the text.
    pub term_names: Vec<String>,
    pub signature_list: Vec<usize>,
    pub signature_sort_list: Vec<usize>,
    pub global_list: Vec<usize>,
    pub context: usize,
}

impl Tables {
    /// 51, if the line names an undeclared sort or global, or declares a name again.
    pub fn names_fit(&self, line: &Line) -> Result<(), usize> {
        let known = |name: &&str| position(&self.sort_names, name).is_some();
        let fits = match line {
            Line::Sort(name) => !known(name),
            Line::Function { name, sorts, .. } => {
                position(&self.function_names, name).is_none() && sorts.iter().all(known)
            }
            Line::Simple { sorts, .. } => sorts.iter().all(known),
            Line::AllEqual { common, output, .. } => common.iter().chain(output).all(known),
            Line::Global { name, sort } => {
                position(&self.global_names, name).is_none() && known(sort)
            }
            Line::Context(_) => true,
            Line::Rule(rule) => rule.sort.iter().all(known) && self.terms_fit(&rule.terms),
        };
        if fits { Ok(()) } else { Err(UNKNOWN_OR_TWICE) }
    }

    fn terms_fit(&self, terms: &[TermWord]) -> bool {
        terms.iter().all(|term| match term.form {
            Word::Variable => true,
            Word::Global(name) => position(&self.global_names, name).is_some(),
            Word::Literal { sort } => position(&self.sort_names, sort).is_some(),
        })
    }

    /// Takes in a declaration or a context; 10 past a largest size. A rule declares nothing.
    pub fn declare(&mut self, line: &Line) -> Result<(), usize> {
        match line {
            Line::Sort(name) => self.sort_names.push(name.to_string()),
            Line::Function {
                constructor,
                name,
                sorts,
            } => {
                let kind = if *constructor { CONSTRUCTOR } else { FUNCTION };
                self.function_names.push(name.to_string());
                self.add_with_sorts(kind, name, 0, sorts);
            }
            Line::Simple { name, mask, sorts } => {
                self.add_with_sorts(SIMPLE, name, *mask, sorts);
            }
            Line::AllEqual {
                name,
                mask,
                common,
                length,
                output,
            } => {
                let sort = |name: &Option<&str>| name.map_or(0, |name| self.sort(name) + 1);
                let (common, output) = (sort(common), sort(output));
                let length = length.map_or(0, |length| length + 1);
                let cells = [ALL_EQUAL, 0, *mask, 0, 0, common, length, output, 0, 0];
                self.add_signature(cells, name);
            }
            Line::Global { name, sort } => {
                self.global_names.push(name.to_string());
                self.global_list.push(self.sort(sort) + 1);
            }
            Line::Context(context) => self.context = *context,
            Line::Rule(_) => {}
        }
        if self.is_too_large() {
            Err(TOO_MANY)
        } else {
            Ok(())
        }
    }

    fn add_with_sorts(&mut self, kind: usize, name: &str, mask: usize, sorts: &[&str]) {
        let (start, count) = (self.signature_sort_list.len(), sorts.len());
        let numbers: Vec<usize> = sorts.iter().map(|name| self.sort(name)).collect();
        self.signature_sort_list.extend(numbers);
        self.add_signature([kind, 0, mask, start, count, 0, 0, 0, 0, 0], name);
    }

    /// The signature's head, its second cell, is filled in here.
    fn add_signature(&mut self, mut cells: [usize; SIGNATURE_CELLS], name: &str) {
        cells[1] = self.head(name);
        self.signature_list.extend(cells);
    }

    fn is_too_large(&self) -> bool {
        self.sort_names.len() > MOST_SORTS
            || self.signature_list.len() > MOST_SIGNATURES * SIGNATURE_CELLS
            || self.signature_sort_list.len() > MOST_SIGNATURE_SORTS
            || self.global_names.len() > MOST_GLOBALS
    }

    /// A declared sort's number.
    pub fn sort(&self, name: &str) -> usize {
        position(&self.sort_names, name).expect("a declared sort")
    }

    /// A head's number; a new one gets the next.
    pub fn head(&mut self, name: &str) -> usize {
        number_in(&mut self.head_names, name)
    }

    /// A term's number; a new one gets the next.
    pub fn term(&mut self, term: TermWord) -> usize {
        number_in(&mut self.term_names, term.word)
    }

    /// What a term's word stands for, as the two cells that a call is lent.
    pub fn term_cells(&self, term: TermWord) -> [usize; TERM_CELLS] {
        match term.form {
            Word::Variable => [VARIABLE, 0],
            Word::Global(name) => {
                let global = position(&self.global_names, name).expect("a declared global");
                [GLOBAL, global]
            }
            Word::Literal { sort } => [LITERAL, self.sort(sort)],
        }
    }
}

fn position(names: &[String], name: &str) -> Option<usize> {
    names.iter().position(|known| known == name)
}

fn number_in(names: &mut Vec<String>, name: &str) -> usize {
    position(names, name).unwrap_or_else(|| {
        names.push(name.to_owned());
        names.len() - 1
    })
}
