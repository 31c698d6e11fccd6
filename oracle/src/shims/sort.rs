//! Stands in for the crate's src/sort: a sort is its name.
use egglog_ast::generic_ast::Literal;
use std::fmt::Debug;
use std::sync::Arc;

pub trait Sort: Debug + Send + Sync {
    fn name(&self) -> &str;

    fn is_eq_sort(&self) -> bool {
        false
    }
}

pub type ArcSort = Arc<dyn Sort>;

#[derive(Debug)]
pub struct NamedSort(pub String);

impl Sort for NamedSort {
    fn name(&self) -> &str {
        &self.0
    }
}

/// Named by core.rs.
pub struct UnitSort;

impl UnitSort {
    pub fn to_arcsort(&self) -> ArcSort {
        named_sort("Unit")
    }
}

pub fn named_sort(name: &str) -> ArcSort {
    Arc::new(NamedSort(name.to_owned()))
}

/// A literal of ours carries its sort's name.
pub fn literal_sort(literal: &Literal) -> ArcSort {
    match literal {
        Literal::Named { sort, .. } => named_sort(sort),
        Literal::Unit => UnitSort.to_arcsort(),
    }
}
