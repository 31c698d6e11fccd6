//! The static library's functions. Each takes any numbers and any slices: what is wrong with them it refuses itself, so
//! that nothing but the slices' own validity, which Rust gives, has to hold. `docs/LAYOUTS.md` of the repository has
//! the flat layouts, and what each function leaves in the lists that it may write.
//!
//! ```
//! use sortlib::raw::{solve, Counts};
//!
//! let too_many = Counts { terms: 257, ..Counts::default() };
//! let refused = solve(too_many, &[], &[], &[], &[], &mut [], &mut [], &mut []);
//! assert_eq!(refused.number, 1);
//! ```

/// How many of each thing a problem has.
///
/// ```
/// use sortlib::raw::Counts;
///
/// let two_terms = Counts { terms: 2, sorts: 1, ..Counts::default() };
/// assert_eq!(two_terms.records, 0);
/// ```
#[repr(C)]
#[derive(Clone, Copy, Debug, Default, PartialEq, Eq)]
pub struct Counts {
    /// Records, of 8 cells each.
    pub records: usize,
    /// Cells of the side list.
    pub side: usize,
    /// Top-level entries.
    pub tops: usize,
    /// Range entries, of 2 cells each.
    pub range: usize,
    /// Terms.
    pub terms: usize,
    /// Sorts.
    pub sorts: usize,
}

/// The answer's number, the passes begun, and for 31 and 40 the term and the place.
///
/// ```
/// use sortlib::raw::{solve, Counts, Outcome};
///
/// let nothing = solve(Counts::default(), &[], &[], &[], &[], &mut [], &mut [], &mut []);
/// assert_eq!(nothing, Outcome { number: 0, passes: 1, term: 0, place: 0 });
/// ```
#[repr(C)]
#[derive(Clone, Copy, Debug, Default, PartialEq, Eq)]
pub struct Outcome {
    /// The answer number.
    pub number: usize,
    /// Passes begun, the last or failing one included.
    pub passes: usize,
    /// Of 31 and 40, the term.
    pub term: usize,
    /// Of 31 and 40, the place.
    pub place: usize,
}

/// A type error: 30 to 33, 0 for none, 1 or 2 for a refusal; and its values. What has no meaning is 0.
///
/// ```
/// use sortlib::raw::{type_error, Told};
///
/// let arity = [33, 0, 7, 5, 3, 0, 0, 0]; // record 0 at place 7: head 5, 3 terms with the output
/// assert_eq!(type_error(1, 0, &arity), Told { number: 33, first: 5, second: 2, third: 0 });
/// ```
#[repr(C)]
#[derive(Clone, Copy, Debug, Default, PartialEq, Eq)]
pub struct Told {
    /// The answer number.
    pub number: usize,
    /// Of 30 and 31 the term, of 32 how many alternatives, of 33 the head.
    pub first: usize,
    /// Of 30 the expected sort, of 33 the expected count without the output.
    pub second: usize,
    /// Of 30 the actual sort.
    pub third: usize,
}

/// The counts of what a generator's call is lent besides the problem, and its context.
///
/// ```
/// use sortlib::raw::Lent;
///
/// let nothing = Lent { context: 7, ..Lent::default() };
/// assert_eq!(nothing.calls, 0);
/// ```
#[repr(C)]
#[derive(Clone, Copy, Debug, Default, PartialEq, Eq)]
pub struct Lent {
    /// Signatures, of 10 cells each.
    pub signatures: usize,
    /// Signature sorts.
    pub signature_sorts: usize,
    /// Globals.
    pub globals: usize,
    /// The context, below 8.
    pub context: usize,
    /// Calls, of 8 cells each.
    pub calls: usize,
    /// Arguments.
    pub arguments: usize,
}

/// A generator's answer: its number, for 20 and 21 the head and the place, and the counts after the call.
///
/// ```
/// use sortlib::raw::{assign_local, Added, Counts};
///
/// let counts = Counts { terms: 1, sorts: 1, ..Counts::default() };
/// let refused = assign_local(counts, 1, 0, 7, &[0, 0], &[], &mut [], &mut [], &mut []);
/// assert_eq!(refused, Added { number: 2, head: 0, place: 0, counts });
/// ```
#[repr(C)]
#[derive(Clone, Copy, Debug, Default, PartialEq, Eq)]
pub struct Added {
    /// The answer number.
    pub number: usize,
    /// Of 20 and 21, the head.
    pub head: usize,
    /// Of 20 and 21, the place.
    pub place: usize,
    /// After the call; of a refusal, those before it.
    pub counts: Counts,
}

/// How many atoms, arguments and terms a rule's body has.
///
/// ```
/// use sortlib::raw::BodyCounts;
///
/// let one_variable = BodyCounts { terms: 1, ..BodyCounts::default() };
/// assert_eq!(one_variable.atoms, 0);
/// ```
#[repr(C)]
#[derive(Clone, Copy, Debug, Default, PartialEq, Eq)]
pub struct BodyCounts {
    /// Atoms, of 8 cells each.
    pub atoms: usize,
    /// Arguments.
    pub arguments: usize,
    /// Terms, of 2 cells each.
    pub terms: usize,
}

/// A slice's first cell, to be written where the slice may be.
trait List {
    type Cell;
    fn start(&mut self) -> *mut Self::Cell;
}

impl<Cell> List for &[Cell] {
    type Cell = Cell;
    fn start(&mut self) -> *mut Cell {
        self.as_ptr().cast_mut()
    }
}

impl<Cell> List for &mut [Cell] {
    type Cell = Cell;
    fn start(&mut self) -> *mut Cell {
        self.as_mut_ptr()
    }
}

/// Declares each exported function, and a safe one over it. A slice crosses as its pointer and its length.
macro_rules! exported {
    ($(
        $(#[$about:meta])*
        $name:ident = $symbol:ident($($number:ident: $kind:ty),*; $($list:ident: $slice:ty),*) -> $result:ty;
    )*) => {
        #[link(name = "sortlib", kind = "static")]
        unsafe extern "C" {
            $(fn $symbol($($number: $kind,)* $($list: *mut <$slice as List>::Cell, _: usize,)*) -> $result;)*
        }

        $(
            $(#[$about])*
            #[allow(clippy::too_many_arguments)]
            pub fn $name($($number: $kind,)* $(mut $list: $slice,)*) -> $result {
                // Safe: the proved function asks nothing of its caller, and writes only within `&mut` slices.
                unsafe { $symbol($($number,)* $($list.start(), $list.len(),)*) }
            }
        )*
    };
}

exported! {
    /// Solves a problem. A thread should have 80 kB of [stack](crate#stack) for it.
    ///
    /// ```
    /// use sortlib::raw::{solve, Counts};
    ///
    /// let assign = [1, 0, 0, 0, 0, 0, 7, 0]; // term 0 has sort 0, at place 7
    /// let counts = Counts { records: 1, tops: 1, terms: 1, sorts: 1, ..Counts::default() };
    /// let (mut work, mut sort_list, mut errors) = ([0; 18 * 2], [0; 1], [0; 8]);
    /// let outcome = solve(counts, &assign, &[], &[0], &[], &mut work, &mut sort_list, &mut errors);
    /// assert_eq!((outcome.number, outcome.passes), (0, 2));
    /// assert_eq!(sort_list, [1]); // the sort + 1
    /// ```
    solve = sortlib_solve(
        counts: Counts;
        records: &[usize], side: &[usize], tops: &[usize], range: &[usize],
        work: &mut [usize], sort_list: &mut [usize], errors: &mut [usize]
    ) -> Outcome;

    /// What the numbered entry of the error list that [`solve`] left for so many records is as a type error.
    ///
    /// ```
    /// use sortlib::raw::type_error;
    ///
    /// let mismatch = [30, 4, 7, 0, 1, 2, 0, 0]; // record 4 at place 7: term 0, expected 1, actual 2
    /// let told = type_error(1, 0, &mismatch);
    /// assert_eq!((told.number, told.first, told.second, told.third), (30, 0, 1, 2));
    ///
    /// let no_error = [0, 4, 7, 0, 1, 2, 0, 0]; // the number 0 is no error, whatever the other cells are
    /// assert_eq!(type_error(1, 0, &no_error), Default::default());
    /// ```
    type_error = sortlib_type_error(records: usize, entry: usize; errors: &[usize]) -> Told;

    /// What the outcome 31 is as a type error.
    ///
    /// ```
    /// use sortlib::raw::{outcome_type_error, Outcome};
    ///
    /// let told = outcome_type_error(Outcome { number: 31, passes: 1, term: 3, place: 7 });
    /// assert_eq!((told.number, told.first), (31, 3));
    /// ```
    outcome_type_error = sortlib_outcome_type_error(outcome: Outcome;) -> Told;

    /// Adds what a query's atoms give. A thread should have 64 kB of [stack](crate#stack) for it.
    ///
    /// ```
    /// use sortlib::raw::{add_query, Counts, Lent};
    ///
    /// let equality = [1, 0, 0, 2, 0, 0, 7, 0]; // of the arguments from 0 on, two; at place 7
    /// let lent = Lent { calls: 1, arguments: 2, ..Lent::default() };
    /// let counts = Counts { terms: 2, sorts: 1, ..Counts::default() };
    /// let (variables, arguments) = ([0; 4], [0, 1]);
    /// let (mut records, mut tops, mut range) = ([0; 8], [0; 1], [0; 4]);
    /// let added = add_query(
    ///     lent, counts, &[], &[], &[], &variables, &equality, &arguments,
    ///     &mut records, &mut [], &mut tops, &mut range,
    /// );
    /// assert_eq!((added.number, added.counts.records, added.counts.range), (0, 1, 2));
    /// assert_eq!(range, [0, 7, 1, 7]);
    /// ```
    add_query = sortlib_add_query(
        lent: Lent, counts: Counts;
        signatures: &[usize], signature_sorts: &[usize], globals: &[usize], terms: &[usize],
        calls: &[usize], arguments: &[usize],
        records: &mut [usize], side: &mut [usize], tops: &mut [usize], range: &mut [usize]
    ) -> Added;

    /// Adds what actions give; a Change's fresh term, too. A thread should have 64 kB of [stack](crate#stack) for it.
    ///
    /// ```
    /// use sortlib::raw::{add_actions, Counts, Lent};
    ///
    /// let union = [3, 0, 0, 0, 0, 1, 7, 0]; // terms 0 and 1, at place 7
    /// let lent = Lent { calls: 1, ..Lent::default() };
    /// let counts = Counts { terms: 2, sorts: 1, ..Counts::default() };
    /// let (mut variables, mut records, mut tops) = ([0; 4], [0; 8], [0; 1]);
    /// let added = add_actions(
    ///     lent, counts, &[], &[], &[], &mut variables, &union, &[],
    ///     &mut records, &mut [], &mut tops, &mut [],
    /// );
    /// assert_eq!((added.number, added.counts.records, added.counts.range), (0, 1, 0));
    /// ```
    add_actions = sortlib_add_actions(
        lent: Lent, counts: Counts;
        signatures: &[usize], signature_sorts: &[usize], globals: &[usize], terms: &mut [usize],
        calls: &[usize], arguments: &[usize],
        records: &mut [usize], side: &mut [usize], tops: &mut [usize], range: &mut [usize]
    ) -> Added;

    /// Adds what a typed local gives.
    ///
    /// ```
    /// use sortlib::raw::{assign_local, Counts};
    ///
    /// let counts = Counts { terms: 1, sorts: 1, ..Counts::default() };
    /// let (variable, term, sort, place) = ([0; 2], 0, 0, 7);
    /// let (mut records, mut tops, mut range) = ([0; 8], [0; 1], [0; 2]);
    /// let added = assign_local(
    ///     counts, term, sort, place, &variable, &[], &mut records, &mut tops, &mut range,
    /// );
    /// assert_eq!(added.number, 0);
    /// assert_eq!(range, [0, 7]);
    /// ```
    assign_local = sortlib_assign_local(
        counts: Counts, term: usize, sort: usize, place: usize;
        terms: &[usize], side: &[usize], records: &mut [usize], tops: &mut [usize], range: &mut [usize]
    ) -> Added;

    /// Whether every variable of a rule's body is grounded: 0, or 40 with the first that is not. A thread should have
    /// 96 kB of [stack](crate#stack) for it.
    ///
    /// ```
    /// use sortlib::raw::{grounded_check, BodyCounts};
    ///
    /// let equality = [2, 0, 0, 2, 0, 0, 0, 0]; // of the arguments from 0 on, two
    /// let counts = BodyCounts { atoms: 1, arguments: 2, terms: 2 };
    /// let (arguments, variables) = ([0, 1], [0; 4]);
    /// let (mut work, mut sort_list, mut errors) = (vec![0; 18 * 514], [0; 2], vec![0; 4096]);
    /// let outcome = grounded_check(
    ///     counts, 7, &equality, &arguments, &variables, &mut work, &mut sort_list, &mut errors,
    /// );
    /// assert_eq!((outcome.number, outcome.term, outcome.place), (40, 0, 7));
    /// ```
    grounded_check = sortlib_grounded_check(
        counts: BodyCounts, place: usize;
        atoms: &[usize], arguments: &[usize], terms: &[usize],
        work: &mut [usize], sort_list: &mut [usize], errors: &mut [usize]
    ) -> Outcome;

    /// Puts the whole output of a text at the front of `out` where it fits; where it does not, `out` is as it was.
    /// Answers how many bytes the output has, whether it fits or not. A thread should have 1,024 kB of
    /// [stack](crate#stack) for it; for [`crate::text`] 16 kB are enough.
    ///
    /// ```
    /// let mut out = [0; 14];
    /// assert_eq!(sortlib::raw::text(b"", &mut out), 14);
    /// assert_eq!(&out, b"ok 0 passes 1\n");
    /// ```
    text = sortlib_text(; text: &[u8], out: &mut [u8]) -> usize;
}
