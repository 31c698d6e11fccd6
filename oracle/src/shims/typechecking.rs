//! Stands in for the crate's tables of functions, primitives and globals, and for its type errors. The tables are real:
//! the module's generators read them.
use crate::ast::{Expr, FunctionSubtype};
use crate::constraint::{
    AllEqualTypeConstraint, Problem, SimpleTypeConstraint, TypeConstraint, assign,
};
use crate::core::AtomTerm;
use crate::sort::ArcSort;
use crate::util::HashMap;
use egglog_ast::span::Span;
use std::hash::{Hash, Hasher};
use std::ops::Index;
use std::sync::Arc;

/// A context: a number below 8.
#[derive(Clone, Copy, Debug, PartialEq, Eq, Hash)]
pub struct Context(pub usize);

#[derive(Clone, Copy, Debug, PartialEq, Eq, Hash)]
pub struct ExternalFunctionId(pub usize);

/// For each context the primitive's function there, if the context is permitted.
#[derive(Clone, Debug, PartialEq, Eq, Hash)]
pub struct ContextIds(pub [Option<ExternalFunctionId>; 8]);

impl ContextIds {
    /// Bit N of the mask permits context N; `id` tells registrations apart.
    pub fn from_mask(mask: usize, id: usize) -> Self {
        ContextIds(std::array::from_fn(|context| {
            (mask >> context & 1 == 1).then_some(ExternalFunctionId(id))
        }))
    }
}

impl Index<Context> for ContextIds {
    type Output = Option<ExternalFunctionId>;

    fn index(&self, context: Context) -> &Self::Output {
        &self.0[context.0]
    }
}

#[derive(Clone, Debug)]
pub struct FuncType {
    pub name: String,
    pub subtype: FunctionSubtype,
    pub input: Vec<ArcSort>,
    pub output: ArcSort,
}

/// Functions are declared once by name, so the name tells them apart.
impl PartialEq for FuncType {
    fn eq(&self, other: &Self) -> bool {
        self.name == other.name
    }
}

impl Eq for FuncType {}

impl Hash for FuncType {
    fn hash<H: Hasher>(&self, state: &mut H) {
        self.name.hash(state);
    }
}

/// What a primitive asks of its arguments, for the two forms that the module has.
#[derive(Clone, Debug)]
pub enum Signature {
    Simple(Vec<ArcSort>),
    AllEqual {
        common: Option<ArcSort>,
        length: Option<usize>,
        output: Option<ArcSort>,
    },
}

#[derive(Clone, Debug)]
pub struct Primitive {
    name: String,
    signature: Signature,
}

impl Primitive {
    pub fn new(name: &str, signature: Signature) -> Self {
        let name = name.to_owned();
        Primitive { name, signature }
    }

    pub fn name(&self) -> &str {
        &self.name
    }

    pub fn get_type_constraints(&self, span: &Span) -> Box<dyn TypeConstraint> {
        match &self.signature {
            Signature::Simple(sorts) => {
                SimpleTypeConstraint::new(&self.name, sorts.clone(), span.clone()).into_box()
            }
            Signature::AllEqual {
                common,
                length,
                output,
            } => {
                let mut all = AllEqualTypeConstraint::new(&self.name, span.clone());
                if let Some(sort) = common {
                    all = all.with_all_arguments_sort(sort.clone());
                }
                if let Some(length) = length {
                    all = all.with_exact_length(*length);
                }
                if let Some(sort) = output {
                    all = all.with_output_sort(sort.clone());
                }
                all.into_box()
            }
        }
    }
}

/// Named by core.rs; no primitive here has one.
#[derive(Clone, Debug)]
pub struct PrimitiveValidator;

#[derive(Clone, Debug)]
pub struct PrimitiveWithId {
    pub primitive: Primitive,
    pub validator: Option<PrimitiveValidator>,
    pub context_ids: ContextIds,
}

impl PrimitiveWithId {
    /// Whether arguments of these sorts meet the primitive's constraints.
    pub fn accept(&self, types: &[ArcSort], typeinfo: &TypeInfo) -> bool {
        let names = (0..types.len()).map(|i| AtomTerm::Var(Span::Panic, i.to_string()));
        let arguments: Vec<AtomTerm> = names.collect();
        let asked = self.primitive.get_type_constraints(&Span::Panic);
        let mut problem = Problem::default();
        problem.constraints = asked.get(&arguments, typeinfo);
        for (argument, sort) in arguments.into_iter().zip(types) {
            problem.constraints.push(assign(argument, sort.clone()));
        }
        problem.solve(|sort| sort.name()).is_ok()
    }
}

#[derive(Default)]
pub struct TypeInfo {
    pub functions: HashMap<String, Arc<FuncType>>,
    pub primitives: HashMap<String, Vec<PrimitiveWithId>>,
    pub globals: HashMap<String, ArcSort>,
}

impl TypeInfo {
    pub fn get_func_type(&self, name: &str) -> Option<&Arc<FuncType>> {
        self.functions.get(name)
    }

    pub fn get_prims(&self, name: &str) -> Option<&[PrimitiveWithId]> {
        self.primitives.get(name).map(Vec::as_slice)
    }

    pub fn get_global_sort(&self, name: &str) -> Option<&ArcSort> {
        self.globals.get(name)
    }

    pub fn is_global(&self, name: &str) -> bool {
        self.globals.contains_key(name)
    }

    pub fn is_constructor(&self, name: &str) -> bool {
        let function = self.get_func_type(name);
        function.is_some_and(|f| f.subtype == FunctionSubtype::Constructor)
    }

    /// Asked by the annotate functions alone, which are never run here.
    pub fn is_sort_unionable(&self, _: &ArcSort) -> bool {
        unreachable!("nothing is annotated here")
    }
}

/// The type errors that constraint.rs and core.rs make.
#[derive(Clone, Debug)]
pub enum TypeError {
    Mismatch {
        expr: Expr,
        expected: ArcSort,
        actual: ArcSort,
    },
    InferenceFailure(Expr),
    AllAlternativeFailed(Vec<TypeError>),
    Arity {
        expr: Expr,
        expected: usize,
    },
    FunctionTypeMismatch(ArcSort, Vec<ArcSort>, ArcSort, Vec<ArcSort>),
    UnboundFunction(String, Span),
    SetConstructorDisallowed(String, Span),
    Ungrounded(String, Span),
    NonEqsortUnion(ArcSort, Span),
    NonUnionableSort(ArcSort, Span),
    AlreadyDefined(String, Span),
    Unbound(String, Span),
    AmbiguousPrimitive {
        name: String,
        ctx: Context,
        span: Span,
    },
    UnresolvedPrimitive {
        name: String,
        ctx: Context,
        span: Span,
    },
}
