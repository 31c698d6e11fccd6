//! A generator call as it is lent: tables, terms, the problem so far and what the call adds, read from one line.
use crate::lent::{Lent, Numbers};

pub const SIGNATURE_CELLS: usize = 10;
pub const TERM_CELLS: usize = 2;
pub const ITEM_CELLS: usize = 8;
pub const LOCAL_CELLS: usize = 3;

pub const FUNCTION: usize = 0;
pub const CONSTRUCTOR: usize = 1;
pub const SIMPLE: usize = 2;
pub const ALL_EQUAL: usize = 3;

pub const VARIABLE: usize = 0;
pub const GLOBAL: usize = 1;
pub const LITERAL: usize = 2;

#[derive(Clone, Copy, Debug, PartialEq, Eq)]
pub enum Which {
    Query,
    Actions,
    Local,
}

#[derive(Clone, Debug)]
pub struct Call {
    pub which: Which,
    pub context: usize,
    /// Counts of what is lent besides the problem, as claimed.
    pub signatures: usize,
    pub signature_sorts: usize,
    pub globals: usize,
    pub items: usize,
    pub arguments: usize,
    /// The lists, cell by cell.
    pub signature_list: Vec<usize>,
    pub signature_sort_list: Vec<usize>,
    pub global_list: Vec<usize>,
    pub term_list: Vec<usize>,
    pub item_list: Vec<usize>,
    pub argument_list: Vec<usize>,
    /// The problem so far, with the counts of terms and sorts. It has no buffers.
    pub problem: Lent,
}

/// An entry of the signature list. What each kind reads of it is told apart by its readers.
#[derive(Clone, Copy, Debug)]
pub struct Signature {
    pub kind: usize,
    pub head: usize,
    pub mask: usize,
    pub start: usize,
    pub count: usize,
    /// 0 for absent, else the value + 1.
    pub common: usize,
    pub length: usize,
    pub output: usize,
}

#[derive(Clone, Copy, Debug, PartialEq, Eq)]
pub struct Term {
    pub kind: usize,
    pub value: usize,
}

/// What the cells of an atom or action are, its kind still a number.
#[derive(Clone, Copy, Debug)]
pub struct ItemCells {
    pub kind: usize,
    pub head: usize,
    pub start: usize,
    pub count: usize,
    pub x: usize,
    pub y: usize,
    pub place: usize,
}

#[derive(Clone, Copy, Debug, PartialEq, Eq)]
pub enum Kind {
    /// A query's atoms.
    Head,
    Equality,
    /// Actions.
    Let,
    Set,
    Change,
    Union,
    LetAtomTerm,
    Panic,
    /// A typed local: `x` is the term, `y` the sort.
    Local,
}

#[derive(Clone, Copy, Debug)]
pub struct Item {
    pub kind: Kind,
    pub cells: ItemCells,
}

impl Call {
    pub fn parse(line: &str) -> Result<Call, String> {
        let mut numbers = Numbers::of(line);
        let which = match numbers.next()? {
            0 => Which::Query,
            1 => Which::Actions,
            2 => Which::Local,
            other => return Err(format!("no call has the number {other}")),
        };
        let (context, signatures) = (numbers.next()?, numbers.next()?);
        let (signature_sorts, globals) = (numbers.next()?, numbers.next()?);
        let (items, arguments) = (numbers.next()?, numbers.next()?);
        let counts = numbers.counts()?;
        let (signature_list, signature_sort_list) = (numbers.list()?, numbers.list()?);
        let (global_list, term_list) = (numbers.list()?, numbers.list()?);
        let problem = Lent {
            line: line.to_owned(),
            counts,
            work: 0,
            sort_list: 0,
            errors: 0,
            record_list: numbers.list()?,
            side_list: numbers.list()?,
            top_list: numbers.list()?,
            range_list: numbers.list()?,
        };
        let (item_list, argument_list) = (numbers.list()?, numbers.list()?);
        numbers.end()?;
        if which == Which::Local && item_list.len() != LOCAL_CELLS {
            return Err("a typed local has three numbers".to_owned());
        }
        Ok(Call {
            which,
            context,
            signatures,
            signature_sorts,
            globals,
            items,
            arguments,
            signature_list,
            signature_sort_list,
            global_list,
            term_list,
            item_list,
            argument_list,
            problem,
        })
    }

    /// The signature of that number; the list must reach that far.
    pub fn signature(&self, number: usize) -> Signature {
        let cells = &self.signature_list[number * SIGNATURE_CELLS..][..SIGNATURE_CELLS];
        Signature {
            kind: cells[0],
            head: cells[1],
            mask: cells[2],
            start: cells[3],
            count: cells[4],
            common: cells[5],
            length: cells[6],
            output: cells[7],
        }
    }

    pub fn all_signatures(&self) -> impl Iterator<Item = Signature> + '_ {
        (0..self.signatures).map(|number| self.signature(number))
    }

    /// The sorts of a function or of a simple primitive.
    pub fn sorts_of(&self, signature: Signature) -> &[usize] {
        &self.signature_sort_list[signature.start..][..signature.count]
    }

    pub fn term(&self, number: usize) -> Term {
        let cells = &self.term_list[number * TERM_CELLS..][..TERM_CELLS];
        Term {
            kind: cells[0],
            value: cells[1],
        }
    }

    /// A global's sort, if the table reaches so far and has one there.
    pub fn global_sort(&self, global: usize) -> Option<usize> {
        let cell = self.global_list[..self.globals].get(global)?;
        cell.checked_sub(1)
    }

    pub fn item_cells(&self, number: usize) -> ItemCells {
        let cells = &self.item_list[number * ITEM_CELLS..][..ITEM_CELLS];
        ItemCells {
            kind: cells[0],
            head: cells[1],
            start: cells[2],
            count: cells[3],
            x: cells[4],
            y: cells[5],
            place: cells[6],
        }
    }

    /// A typed local's three numbers.
    pub fn local(&self) -> (usize, usize, usize) {
        (self.item_list[0], self.item_list[1], self.item_list[2])
    }

    /// What the call adds, in order. Only asked once the kinds are known to be in range.
    pub fn all_items(&self) -> Vec<Item> {
        if self.which == Which::Local {
            return vec![self.local_item()];
        }
        let item = |number| {
            let cells = self.item_cells(number);
            let kind = kind_of(self.which, cells.kind).expect("a kind in range");
            Item { kind, cells }
        };
        (0..self.items).map(item).collect()
    }

    fn local_item(&self) -> Item {
        let (x, y, place) = self.local();
        let cells = ItemCells {
            kind: 0,
            head: 0,
            start: 0,
            count: 0,
            x,
            y,
            place,
        };
        Item {
            kind: Kind::Local,
            cells,
        }
    }

    /// The part of the argument list that an atom or action names.
    pub fn part(&self, item: ItemCells) -> &[usize] {
        &self.argument_list[item.start..][..item.count]
    }
}

pub fn kind_of(which: Which, kind: usize) -> Option<Kind> {
    let atoms = [Kind::Head, Kind::Equality];
    let actions = [
        Kind::Let,
        Kind::Set,
        Kind::Change,
        Kind::Union,
        Kind::LetAtomTerm,
        Kind::Panic,
    ];
    match which {
        Which::Query => atoms.get(kind).copied(),
        Which::Actions => actions.get(kind).copied(),
        Which::Local => None,
    }
}

impl Kind {
    /// Whether it names a part of the argument list.
    pub fn has_part(self) -> bool {
        self.has_head() || self == Kind::Equality
    }

    pub fn has_head(self) -> bool {
        matches!(self, Kind::Head | Kind::Let | Kind::Set | Kind::Change)
    }
}
