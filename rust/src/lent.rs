//! The calls on memory that is lent: slices as the library lays them out, in which nothing is allocated, without std.
//!
//! Start values and values are bytes: 0, 1, or [`FREE`]. Entries rise strictly by column, then row. In a list the library
//! writes the number of a variable as a `u16`; what it writes stands at the front, and is as long as the count tells.
//!
//! ```
//! use ombradiec::lent::{closure, floats, words, Field, Scratch, FREE};
//!
//! let field = Field { linear: &[-5.0, -1.0], rows: &[0], cols: &[1], quad: &[4.0] };
//! let (mut f, mut u) = ([0.0; floats(2, 1)], [0; words(2, 1)]);
//! let mut start = [FREE; 2];
//! closure(&field, &mut start, &mut Scratch { floats: &mut f, words: &mut u })?;
//! assert_eq!(start, [1, 0]);
//! # Ok::<(), ombradiec::Refusal>(())
//! ```
use crate::answer::{read, read_reason, Done, Grade, Mended, Reason, Reduced, Refusal};
use crate::constraint::Constraint;
use crate::library::*;
use core::mem::take;

/// Calls a function of the library: with `on` a field, `in` a slice that it reads, `out` one that it writes, and `as` a plain
/// argument. Each pointer and length are those of one slice that is borrowed for the call, so the memory is there, and what
/// the library writes to overlaps nothing else. The library asks no more.
macro_rules! call {
    ($call:ident, $($rest:tt)*) => { call!(@ $call [] $($rest)*) };
    (@ $call:ident [$($done:tt)*]) => { unsafe { $call($($done)*) } };
    (@ $call:ident [$($done:tt)*] on $field:expr $(, $($rest:tt)*)?) => {
        call!(@ $call [$($done)*] in $field.linear, in $field.rows, in $field.cols, in $field.quad $(, $($rest)*)?)
    };
    (@ $call:ident [$($done:tt)*] in $slice:expr $(, $($rest:tt)*)?) => {
        call!(@ $call [$($done)* $slice.as_ptr(), $slice.len(),] $($($rest)*)?)
    };
    (@ $call:ident [$($done:tt)*] out $slice:expr $(, $($rest:tt)*)?) => {
        call!(@ $call [$($done)* $slice.as_mut_ptr(), $slice.len(),] $($($rest)*)?)
    };
    // A constraint, and a change in a report, is three u16 and nothing else.
    (@ $call:ident [$($done:tt)*] in3 $slice:expr $(, $($rest:tt)*)?) => {
        call!(@ $call [$($done)* $slice.as_ptr().cast(), 3 * $slice.len(),] $($($rest)*)?)
    };
    (@ $call:ident [$($done:tt)*] out3 $slice:expr $(, $($rest:tt)*)?) => {
        call!(@ $call [$($done)* $slice.as_mut_ptr().cast(), 3 * $slice.len(),] $($($rest)*)?)
    };
    (@ $call:ident [$($done:tt)*] as $plain:expr $(, $($rest:tt)*)?) => {
        call!(@ $call [$($done)* $plain,] $($($rest)*)?)
    };
}

mod probes;
mod records;
mod sizes;
pub use probes::{cold_probe, cold_probe_limited, cold_probe_one, probe, probe_limited, probe_one};
pub use records::{close, keep, pin, release};
pub use sizes::{
    floats, found, found_limited, found_pairs, longs, words, FREE, MOST_CONSTRAINTS, MOST_ENTRIES, MOST_PAIRS,
    MOST_REACHED, MOST_VARIABLES,
};

/// How many of the values are free.
pub(crate) fn free(values: &[u8]) -> usize {
    values.iter().filter(|&&value| value == FREE).count()
}

/// A field: n linear weights c, and entries (row, column, q) in three lists of one length. It stands for the objective: the
/// sum of c_i x_i, and half the sum of q x_row x_column.
#[derive(Clone, Copy, Debug, Default, PartialEq)]
pub struct Field<'a> {
    /// The linear weights.
    pub linear: &'a [f64],
    /// The row of each entry.
    pub rows: &'a [u16],
    /// The column of each entry.
    pub cols: &'a [u16],
    /// The weight of each entry.
    pub quad: &'a [f64],
}

/// A field that a call changes. Once it is done, the slices are those of the field that is left.
#[derive(Debug, Default, PartialEq)]
pub struct FieldMut<'a> {
    /// The linear weights.
    pub linear: &'a mut [f64],
    /// The row of each entry.
    pub rows: &'a mut [u16],
    /// The column of each entry.
    pub cols: &'a mut [u16],
    /// The weight of each entry.
    pub quad: &'a mut [f64],
}

impl FieldMut<'_> {
    /// The same field, to be read.
    pub fn read(&self) -> Field<'_> {
        Field { linear: self.linear, rows: self.rows, cols: self.cols, quad: self.quad }
    }

    /// Leaves so many variables and entries.
    fn keep(&mut self, variables: usize, entries: usize) {
        self.linear = &mut take(&mut self.linear)[..variables];
        self.rows = &mut take(&mut self.rows)[..entries];
        self.cols = &mut take(&mut self.cols)[..entries];
        self.quad = &mut take(&mut self.quad)[..entries];
    }
}

/// Scratch: at least [`floats`] and [`words`] of the field; what it holds does not matter.
#[derive(Debug, Default)]
pub struct Scratch<'a> {
    /// Memory for floats.
    pub floats: &'a mut [f64],
    /// Memory for words.
    pub words: &'a mut [u32],
}

/// Puts every value that the gradient forces into `start`, and counts the free variables whose row is flat at the end. The
/// example stands at the head of this module.
pub fn closure(field: &Field, start: &mut [u8], scratch: &mut Scratch) -> Result<Done, Refusal> {
    read(call!(ombradiec_closure, on field, out start, out scratch.floats, out scratch.words), 0)
}

/// Puts the values of all components of at most 10 free variables into `start`.
///
/// ```
/// # use ombradiec::lent::*;
/// # let (mut f, mut u) = ([0.0; floats(2, 1)], [0; words(2, 1)]);
/// # let mut scratch = Scratch { floats: &mut f, words: &mut u };
/// let field = Field { linear: &[-0.5, -0.5], rows: &[0], cols: &[1], quad: &[2.0] };
/// let mut start = [FREE; 2];
/// components(&field, &mut start, &mut scratch)?;
/// assert_eq!(start, [1, 0]);
/// # Ok::<(), ombradiec::Refusal>(())
/// ```
pub fn components(field: &Field, start: &mut [u8], scratch: &mut Scratch) -> Result<Done, Refusal> {
    read(call!(ombradiec_components, on field, out start, out scratch.floats, out scratch.words), 0)
}

/// Puts the closure, the small components, and 0 for a free variable of no effect into `start`.
///
/// ```
/// # use ombradiec::lent::*;
/// # let (mut f, mut u) = ([0.0; floats(2, 1)], [0; words(2, 1)]);
/// # let mut scratch = Scratch { floats: &mut f, words: &mut u };
/// let mut start = [FREE; 2];
/// preprocess(&Field { linear: &[0.0, -1.0], ..Field::default() }, &mut start, &mut scratch)?;
/// assert_eq!(start, [0, 1]);
/// # Ok::<(), ombradiec::Refusal>(())
/// ```
pub fn preprocess(field: &Field, start: &mut [u8], scratch: &mut Scratch) -> Result<Done, Refusal> {
    read(call!(ombradiec_preprocess, on field, out start, out scratch.floats, out scratch.words), 0)
}

/// Puts what [`preprocess`] and the probes find, round after round until nothing is added, into `start`.
///
/// ```
/// # use ombradiec::lent::*;
/// # let (mut f, mut u) = ([0.0; floats(2, 1)], [0; words(2, 1)]);
/// # let mut scratch = Scratch { floats: &mut f, words: &mut u };
/// let field = Field { linear: &[-0.5, -0.5], rows: &[0], cols: &[1], quad: &[2.0] };
/// let mut start = [FREE; 2];
/// heavy(&field, &mut start, &mut scratch)?;
/// assert_eq!(start, [1, 0]);
/// # Ok::<(), ombradiec::Refusal>(())
/// ```
pub fn heavy(field: &Field, start: &mut [u8], scratch: &mut Scratch) -> Result<Done, Refusal> {
    read(call!(ombradiec_heavy, on field, out start, out scratch.floats, out scratch.words), 0)
}

/// Puts the variables with no entry and c = 0 at the front of `list`, rising, and counts them; n places are enough.
///
/// ```
/// # use ombradiec::lent::*;
/// # let (mut f, mut u) = ([0.0; floats(3, 0)], [0; words(3, 0)]);
/// # let mut scratch = Scratch { floats: &mut f, words: &mut u };
/// let mut list = [0; 3];
/// let done = no_effect(&Field { linear: &[0.0, 1.0, 0.0], ..Field::default() }, &mut list, &mut scratch)?;
/// assert_eq!(list[..done.count], [0, 2]);
/// # Ok::<(), ombradiec::Refusal>(())
/// ```
pub fn no_effect(field: &Field, list: &mut [u16], scratch: &mut Scratch) -> Result<Done, Refusal> {
    read(call!(ombradiec_no_effect, on field, out list, out scratch.words), field.linear.len())
}

/// Adds half of each diagonal entry to its c and drops the entry.
///
/// ```
/// # use ombradiec::lent::*;
/// let (mut c, mut rows, mut cols, mut q) = ([1.0, 0.0], [0, 0], [0, 1], [4.0, 2.0]);
/// let mut field = FieldMut { linear: &mut c, rows: &mut rows, cols: &mut cols, quad: &mut q };
/// shift(&mut field)?;
/// assert_eq!(field.read(), Field { linear: &[3.0, 0.0], rows: &[0], cols: &[1], quad: &[2.0] });
/// # Ok::<(), ombradiec::Refusal>(())
/// ```
pub fn shift(field: &mut FieldMut) -> Result<Done, Refusal> {
    let FieldMut { linear, rows, cols, quad } = field;
    let done = read(call!(ombradiec_shift, out linear, out rows, out cols, out quad), 0)?;
    field.keep(field.linear.len(), done.count);
    Ok(done)
}

/// Leaves the field without the variables that `start` gives, and the old number of each variable left at the front of `map`.
///
/// ```
/// # use ombradiec::lent::*;
/// # let (mut f, mut u) = ([0.0; floats(2, 1)], [0; words(2, 1)]);
/// # let mut scratch = Scratch { floats: &mut f, words: &mut u };
/// let (mut c, mut rows, mut cols, mut q, mut map) = ([-5.0, -1.0], [0], [1], [4.0], [0]);
/// let mut field = FieldMut { linear: &mut c, rows: &mut rows, cols: &mut cols, quad: &mut q };
/// let done = sub_problem(&mut field, &[1, FREE], &mut map, &mut scratch)?;
/// assert_eq!(field.read(), Field { linear: &[1.0], ..Field::default() });
/// assert_eq!((map, done.constant), ([1], -5.0));
/// # Ok::<(), ombradiec::Refusal>(())
/// ```
pub fn sub_problem(
    field: &mut FieldMut,
    start: &[u8],
    map: &mut [u16],
    scratch: &mut Scratch,
) -> Result<Reduced, Refusal> {
    let FieldMut { linear, rows, cols, quad } = field;
    let mut constant = 0.0;
    let answer = call!(ombradiec_sub_problem, out linear, out rows, out cols, out quad, in start, out map, as &mut constant, out scratch.floats, out scratch.words);
    let done = read(answer, free(start))?;
    let (entries, variables) = (done.count, done.pairs);
    field.keep(variables, entries);
    Ok(Reduced { grade: done.grade, variables, entries, constant })
}

/// Mends the entry list: drops the entries outside the field, puts the others in order, and adds those at one place. Each
/// change goes into `report` as the numbers of a [`Change`](crate::Change); a place for each entry is enough.
///
/// ```
/// # use ombradiec::lent::*;
/// # let (mut f, mut u) = ([0.0; floats(2, 2)], [0; words(2, 2)]);
/// # let mut scratch = Scratch { floats: &mut f, words: &mut u };
/// use ombradiec::Change;
/// let (mut c, mut rows, mut cols, mut q, mut report) = ([0.0, 0.0], [0, 0], [1, 1], [2.0, 0.5], [[0; 3]; 2]);
/// let mut field = FieldMut { linear: &mut c, rows: &mut rows, cols: &mut cols, quad: &mut q };
/// let done = mend(&mut field, &mut report, &mut scratch)?;
/// assert_eq!(field.read(), Field { linear: &[0.0, 0.0], rows: &[0], cols: &[1], quad: &[2.5] });
/// assert_eq!((done.changes, Change::from(report[0])), (1, Change::Joined { from: 1, to: 0 }));
/// # Ok::<(), ombradiec::Refusal>(())
/// ```
pub fn mend(field: &mut FieldMut, report: &mut [[u16; 3]], scratch: &mut Scratch) -> Result<Mended, Refusal> {
    let FieldMut { linear, rows, cols, quad } = field;
    let answer = call!(ombradiec_mend, in linear, out rows, out cols, out quad, out3 report, out scratch.floats, out scratch.words);
    let done = read(answer, quad.len())?;
    field.keep(field.linear.len(), done.count);
    Ok(Mended { grade: done.grade, entries: done.count, changes: done.pairs })
}

/// Puts one variable of each complement-symmetric component of at least `least` variables, none of which has a start value,
/// at the front of `list`, and counts them; n places are enough.
///
/// ```
/// # use ombradiec::lent::*;
/// # let (mut f, mut u) = ([0.0; floats(2, 1)], [0; words(2, 1)]);
/// # let mut scratch = Scratch { floats: &mut f, words: &mut u };
/// let field = Field { linear: &[-0.5, -0.5], rows: &[0], cols: &[1], quad: &[2.0] };
/// let mut list = [0; 2];
/// let done = anchors(&field, &[FREE; 2], 2, &mut list, &mut scratch)?;
/// assert_eq!(list[..done.count], [0]);
/// # Ok::<(), ombradiec::Refusal>(())
/// ```
pub fn anchors(
    field: &Field,
    start: &[u8],
    least: usize,
    list: &mut [u16],
    scratch: &mut Scratch,
) -> Result<Done, Refusal> {
    let answer =
        call!(ombradiec_anchors, on field, in start, as least, out list, out scratch.floats, out scratch.words);
    read(answer, field.linear.len())
}

/// Examines the first `limit` free pairs, at most [`MOST_PAIRS`], and puts what they give at the front of `constraints`;
/// [`found_pairs`] places are enough.
///
/// ```
/// # use ombradiec::lent::*;
/// # let (mut f, mut u) = ([0.0; floats(2, 1)], [0; words(2, 1)]);
/// # let mut scratch = Scratch { floats: &mut f, words: &mut u };
/// use ombradiec::{Constraint, Kind};
/// let field = Field { linear: &[-1.0, -1.0], rows: &[0], cols: &[1], quad: &[6.0] };
/// let mut constraints = [Constraint::default(); found_pairs(2, MOST_PAIRS)];
/// let done = pairs(&field, &[FREE; 2], MOST_PAIRS, &mut constraints, &mut scratch)?;
/// assert_eq!(constraints[..done.count], [Constraint::new(0, 1, Kind::NoMoreThanOne)]);
/// # Ok::<(), ombradiec::Refusal>(())
/// ```
pub fn pairs(
    field: &Field,
    start: &[u8],
    limit: usize,
    constraints: &mut [Constraint],
    scratch: &mut Scratch,
) -> Result<Done, Refusal> {
    let answer =
        call!(ombradiec_pairs, on field, in start, as limit, out3 constraints, out scratch.floats, out scratch.words);
    read(answer, found_pairs(free(start), limit))
}

/// Says why a variable has its value in the closure, with the neighbours that this rests on at the front of `list`, rising; n
/// places are enough.
///
/// ```
/// # use ombradiec::lent::*;
/// # let (mut f, mut u) = ([0.0; floats(2, 1)], [0; words(2, 1)]);
/// # let mut scratch = Scratch { floats: &mut f, words: &mut u };
/// let field = Field { linear: &[-5.0, -1.0], rows: &[0], cols: &[1], quad: &[4.0] };
/// let mut list = [9; 2];
/// let why = reason(&field, &[FREE; 2], 1, &mut list, &mut scratch)?;
/// assert_eq!((why.bound(), &list[..why.count]), (1.0, &[0][..]));
/// # Ok::<(), ombradiec::Refusal>(())
/// ```
pub fn reason(
    field: &Field,
    start: &[u8],
    variable: usize,
    list: &mut [u16],
    scratch: &mut Scratch,
) -> Result<Reason, Refusal> {
    let mut bound = 0.0;
    let answer = call!(ombradiec_reason, on field, in start, as variable, out list, as &mut bound, out scratch.floats, out scratch.words);
    read_reason(answer, field.linear.len(), bound)
}

/// Puts every value that the constraints imply into `start`, or finds that they clash; it needs the [`words`] of the scratch.
///
/// ```
/// # use ombradiec::lent::*;
/// use ombradiec::{Constraint, Kind};
/// let mut start = [1, FREE];
/// propagate(&mut start, &[Constraint::new(0, 1, Kind::ExactlyOne)], &mut [0; words(2, 1)])?;
/// assert_eq!(start, [1, 0]);
/// # Ok::<(), ombradiec::Refusal>(())
/// ```
pub fn propagate(start: &mut [u8], constraints: &[Constraint], scratch: &mut [u32]) -> Result<(), Refusal> {
    read(call!(ombradiec_propagate, out start, in3 constraints, out scratch), 0).map(|_| ())
}

/// Says whether some assignment meets every constraint: where one does the least is left in the first n places of
/// `assignment`; where none does the answer is the lowest variable each of whose values implies the other. What follows from
/// each value is counted in `counts`, which has 2n places. The scratch is [`longs`] and [`words`].
///
/// ```
/// # use ombradiec::lent::*;
/// use ombradiec::{Constraint, Kind};
/// let one = [Constraint::new(0, 1, Kind::ExactlyOne), Constraint::new(0, 1, Kind::Equal)];
/// let (mut assignment, mut counts) = ([0; 2], [0; 4]);
/// let (mut w, mut u) = ([0; longs(2)], [0; words(2, 2)]);
/// assert_eq!(allow(2, &one[..1], &mut assignment, &mut counts, &mut w, &mut u)?, None);
/// assert_eq!((assignment, counts), ([0, 1], [2; 4]));
/// assert_eq!(allow(2, &one, &mut assignment, &mut counts, &mut w, &mut u)?, Some(0));
/// # Ok::<(), ombradiec::Refusal>(())
/// ```
pub fn allow(
    variables: usize,
    constraints: &[Constraint],
    assignment: &mut [u8],
    counts: &mut [u16],
    longs: &mut [u64],
    words: &mut [u32],
) -> Result<Option<usize>, Refusal> {
    let enough = if assignment.len() < variables { variables } else { 2 * variables.min(MOST_REACHED) };
    let answer =
        call!(ombradiec_allow, as variables, in3 constraints, out assignment, out counts, out longs, out words);
    let done = read(answer, enough)?;
    // Yes stands where a field's grade stands elsewhere.
    Ok(if done.grade == Grade::Exact { None } else { Some(done.count) })
}
