//! Tables: signatures of heads, sorts of globals.
use crate::layout::SIGNATURE_CELLS;
use crate::number::{Contexts, Global, Head, Sort};

const SIGNATURE_FUNCTION: usize = 0;
const SIGNATURE_CONSTRUCTOR: usize = 1;
const SIGNATURE_SIMPLE: usize = 2;
const SIGNATURE_ALL_EQUAL: usize = 3;

/// Signatures of heads, and sorts of globals. Only a head's first function counts; primitives of a head are
/// alternatives.
///
/// ```
/// use sortlib::{Contexts, Head, Sort, Tables};
///
/// let (certificate, reading, setpoint) = (Sort(0), Sort(1), Sort(2));
/// let (measured, shows) = (Head(0), Head(1));
/// let mut tables = Tables::new();
/// tables.function(measured, &[certificate, reading]);
/// tables.simple(shows, Contexts::EVERY, &[certificate, setpoint]);
/// tables.simple(shows, Contexts::EVERY, &[certificate, reading]);
/// ```
#[derive(Clone, Debug, Default, PartialEq, Eq)]
pub struct Tables {
    pub(crate) signatures: Vec<usize>,
    pub(crate) signature_sorts: Vec<usize>,
    pub(crate) globals: Vec<usize>,
}

impl Tables {
    /// Without signatures and globals.
    ///
    /// ```
    /// use sortlib::Tables;
    ///
    /// assert_eq!(Tables::new(), Tables::default());
    /// ```
    pub fn new() -> Tables {
        Tables::default()
    }

    /// A function. The sorts are those of its inputs, then the output's.
    ///
    /// ```
    /// use sortlib::{Head, Sort, Tables};
    ///
    /// let (reading, metre) = (Sort(0), Sort(1));
    /// Tables::new().function(Head(0), &[reading, metre]);
    /// ```
    pub fn function(&mut self, head: Head, sorts: &[Sort]) {
        self.with_sorts(SIGNATURE_FUNCTION, head, Contexts::EVERY, sorts);
    }

    /// A constructor: a function that [`Actions::set`](crate::Actions::set) refuses.
    ///
    /// ```
    /// use sortlib::{Head, Sort, Tables};
    ///
    /// let (reading, certificate) = (Sort(0), Sort(1));
    /// Tables::new().constructor(Head(0), &[reading, certificate]);
    /// ```
    pub fn constructor(&mut self, head: Head, sorts: &[Sort]) {
        self.with_sorts(SIGNATURE_CONSTRUCTOR, head, Contexts::EVERY, sorts);
    }

    /// A primitive with a sort for each input and for the output, which comes last.
    ///
    /// ```
    /// use sortlib::{Contexts, Head, Sort, Tables};
    ///
    /// let (certificate, setpoint) = (Sort(0), Sort(1));
    /// Tables::new().simple(Head(0), Contexts::EVERY, &[certificate, setpoint]);
    /// ```
    pub fn simple(&mut self, head: Head, contexts: Contexts, sorts: &[Sort]) {
        self.with_sorts(SIGNATURE_SIMPLE, head, contexts, sorts);
    }

    /// A primitive whose terms all have one sort.
    ///
    /// ```
    /// use sortlib::{AllEqual, Contexts, Head, Tables};
    ///
    /// let three = AllEqual::new().with_exact_length(3);
    /// Tables::new().all_equal(Head(0), Contexts::EVERY, three);
    /// ```
    pub fn all_equal(&mut self, head: Head, contexts: Contexts, form: AllEqual) {
        let AllEqual {
            common,
            length,
            output,
        } = form;
        self.add([
            SIGNATURE_ALL_EQUAL,
            head.0,
            contexts.mask,
            0,
            0,
            common,
            length,
            output,
            0,
            0,
        ]);
    }

    /// A global of that sort. A rule that names one without a sort is refused.
    ///
    /// ```
    /// use sortlib::{Global, Sort, Tables};
    ///
    /// let mut tables = Tables::new();
    /// let last_year = tables.global(Some(Sort(0)));
    /// let unknown = tables.global(None);
    /// assert_eq!((last_year, unknown), (Global(0), Global(1)));
    /// ```
    pub fn global(&mut self, sort: Option<Sort>) -> Global {
        let number = self.globals.len();
        self.globals
            .push(sort.map_or(ABSENT, |sort| present(sort.0)));
        Global(number)
    }

    fn with_sorts(&mut self, kind: usize, head: Head, contexts: Contexts, sorts: &[Sort]) {
        let start = self.signature_sorts.len();
        self.signature_sorts.extend(sorts.iter().map(|sort| sort.0));
        self.add([
            kind,
            head.0,
            contexts.mask,
            start,
            sorts.len(),
            0,
            0,
            0,
            0,
            0,
        ]);
    }

    fn add(&mut self, cells: [usize; SIGNATURE_CELLS]) {
        self.signatures.extend(cells);
    }
}

/// An all-equal primitive: every term has one sort. It begins without further conditions and is narrowed.
///
/// ```
/// use sortlib::{AllEqual, Sort};
///
/// let (reading, truth) = (Sort(0), Sort(1));
/// let two_readings_to_a_truth = AllEqual::new()
///     .with_exact_length(3)
///     .with_all_arguments_sort(reading)
///     .with_output_sort(truth);
/// assert_ne!(two_readings_to_a_truth, AllEqual::new());
/// ```
#[derive(Clone, Copy, Debug, Default, PartialEq, Eq)]
pub struct AllEqual {
    common: usize,
    length: usize,
    output: usize,
}

impl AllEqual {
    /// Any number of terms, all of one sort, whichever it is.
    ///
    /// ```
    /// use sortlib::AllEqual;
    ///
    /// assert_eq!(AllEqual::new(), AllEqual::default());
    /// ```
    pub fn new() -> AllEqual {
        AllEqual::default()
    }

    /// The same with this sort for all terms; where the output has a sort of its own, for all inputs.
    ///
    /// ```
    /// use sortlib::{AllEqual, Sort};
    ///
    /// let readings = AllEqual::new().with_all_arguments_sort(Sort(0));
    /// assert_ne!(readings, AllEqual::new());
    /// ```
    #[must_use = "the narrowed form is handed back"]
    pub fn with_all_arguments_sort(mut self, sort: Sort) -> AllEqual {
        self.common = present(sort.0);
        self
    }

    /// The same for exactly so many terms, the output counted: at most 9,999, and not 0.
    ///
    /// ```
    /// use sortlib::AllEqual;
    ///
    /// let two_inputs = AllEqual::new().with_exact_length(3);
    /// assert_ne!(two_inputs, AllEqual::new());
    /// ```
    #[must_use = "the narrowed form is handed back"]
    pub fn with_exact_length(mut self, length: usize) -> AllEqual {
        self.length = present(length);
        self
    }

    /// The same with this sort for the output, which then need not have the inputs' sort.
    ///
    /// ```
    /// use sortlib::{AllEqual, Sort};
    ///
    /// let to_truth = AllEqual::new().with_output_sort(Sort(1));
    /// assert_ne!(to_truth, AllEqual::new());
    /// ```
    #[must_use = "the narrowed form is handed back"]
    pub fn with_output_sort(mut self, sort: Sort) -> AllEqual {
        self.output = present(sort.0);
        self
    }
}

/// The cell of a value that is left out.
const ABSENT: usize = 0;

/// The cell of a value: one more. The largest number has no cell of its own and gets that of the number below it; both
/// are far out of range, and refused alike.
fn present(value: usize) -> usize {
    value.saturating_add(1)
}
