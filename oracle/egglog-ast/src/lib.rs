//! Stands in for the crate of the same name, with the names and fields that egglog's constraint.rs, core.rs, util.rs and
//! ast/expr.rs read, and no more.

pub mod span {
    use std::fmt;

    /// A place: carried, never looked into.
    #[derive(Clone, Debug, PartialEq, Eq, Hash)]
    pub enum Span {
        Panic,
        At(usize),
    }

    impl fmt::Display for Span {
        fn fmt(&self, f: &mut fmt::Formatter<'_>) -> fmt::Result {
            write!(f, "{self:?}")
        }
    }
}

pub mod generic_ast {
    use crate::span::Span;
    use std::fmt;

    /// A literal is a name with the name of its sort; `Unit` is named by core.rs.
    #[derive(Clone, Debug, PartialEq, Eq, Hash)]
    pub enum Literal {
        Named { sort: String, name: String },
        Unit,
    }

    impl fmt::Display for Literal {
        fn fmt(&self, f: &mut fmt::Formatter<'_>) -> fmt::Result {
            match self {
                Literal::Named { sort, name } => write!(f, "={sort}:{name}"),
                Literal::Unit => write!(f, "()"),
            }
        }
    }

    #[derive(Clone, Copy, Debug, PartialEq, Eq, Hash)]
    pub enum Change {
        Delete,
        Subsume,
    }

    #[derive(Clone, Debug, PartialEq, Eq, Hash)]
    pub enum GenericExpr<Head, Leaf> {
        Lit(Span, Literal),
        Var(Span, Leaf),
        Call(Span, Head, Vec<GenericExpr<Head, Leaf>>),
    }

    #[derive(Clone, Debug, PartialEq, Eq, Hash)]
    pub enum GenericFact<Head, Leaf> {
        Eq(Span, GenericExpr<Head, Leaf>, GenericExpr<Head, Leaf>),
        Fact(GenericExpr<Head, Leaf>),
    }

    #[derive(Clone, Debug, PartialEq, Eq, Hash)]
    pub enum GenericAction<Head, Leaf> {
        Let(Span, Leaf, GenericExpr<Head, Leaf>),
        Set(
            Span,
            Head,
            Vec<GenericExpr<Head, Leaf>>,
            GenericExpr<Head, Leaf>,
        ),
        Change(Span, Change, Head, Vec<GenericExpr<Head, Leaf>>),
        Union(Span, GenericExpr<Head, Leaf>, GenericExpr<Head, Leaf>),
        Panic(Span, String),
        Expr(Span, GenericExpr<Head, Leaf>),
    }

    #[derive(Clone, Debug, PartialEq, Eq, Hash)]
    pub struct GenericActions<Head, Leaf>(pub Vec<GenericAction<Head, Leaf>>);

    impl<Head, Leaf> GenericActions<Head, Leaf> {
        pub fn new(actions: Vec<GenericAction<Head, Leaf>>) -> Self {
            GenericActions(actions)
        }

        pub fn iter(&self) -> std::slice::Iter<'_, GenericAction<Head, Leaf>> {
            self.0.iter()
        }
    }

    #[derive(Clone, Debug, PartialEq, Eq, Hash)]
    pub struct GenericRule<Head, Leaf> {
        pub span: Span,
        pub head: GenericActions<Head, Leaf>,
        pub body: Vec<GenericFact<Head, Leaf>>,
    }
}

pub mod generic_ast_helpers {
    pub const INTERNAL_SYMBOL_PREFIX: &str = "@";
}

pub mod util {
    use std::fmt;

    /// The items of a list with a separator between them.
    pub struct ListDisplay<'a, Item>(pub &'a [Item], pub &'a str);

    impl<Item: fmt::Display> fmt::Display for ListDisplay<'_, Item> {
        fn fmt(&self, f: &mut fmt::Formatter<'_>) -> fmt::Result {
            for (i, item) in self.0.iter().enumerate() {
                if i > 0 {
                    f.write_str(self.1)?;
                }
                write!(f, "{item}")?;
            }
            Ok(())
        }
    }
}
