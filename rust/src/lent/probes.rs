//! The probes, over remembered rows and with rows made afresh.
use super::{found, found_limited, free, Field, Scratch};
use crate::answer::{read, Done, Refusal};
use crate::constraint::Constraint;
use crate::library::*;

/// What is enough for the first list that does not fit: values are n long, and of constraints there are so many at most.
fn enough(field: &Field, values: &[u8], most: usize) -> usize {
    let n = field.linear.len();
    if values.len() == n {
        most
    } else {
        n
    }
}

/// Puts what the closure finds with one more value given into `values`, which is n long, without the start values.
///
/// ```
/// # use ombradiec::lent::*;
/// # let (mut f, mut u) = ([0.0; floats(2, 1)], [0; words(2, 1)]);
/// # let mut scratch = Scratch { floats: &mut f, words: &mut u };
/// let field = Field { linear: &[-1.0, -1.0], rows: &[0], cols: &[1], quad: &[4.0] };
/// let mut values = [FREE; 2];
/// probe_one(&field, &[FREE; 2], 0, true, &mut values, &mut scratch)?;
/// assert_eq!(values, [1, 0]);
/// # Ok::<(), ombradiec::Refusal>(())
/// ```
pub fn probe_one(
    field: &Field,
    start: &[u8],
    variable: usize,
    value: bool,
    values: &mut [u8],
    scratch: &mut Scratch,
) -> Result<Done, Refusal> {
    let answer = call!(ombradiec_probe_one, on field, in start, as variable, as value.into(), out values, out scratch.floats, out scratch.words);
    read(answer, field.linear.len())
}

/// The same as [`probe_one`] with rows made afresh, as a second opinion: on every field and on every refusal the answers are
/// equal.
///
/// ```
/// # use ombradiec::lent::*;
/// # let (mut f, mut u) = ([0.0; floats(2, 1)], [0; words(2, 1)]);
/// # let mut scratch = Scratch { floats: &mut f, words: &mut u };
/// let field = Field { linear: &[-1.0, -1.0], rows: &[0], cols: &[1], quad: &[4.0] };
/// let mut values = [FREE; 2];
/// cold_probe_one(&field, &[FREE; 2], 0, true, &mut values, &mut scratch)?;
/// assert_eq!(values, [1, 0]);
/// # Ok::<(), ombradiec::Refusal>(())
/// ```
pub fn cold_probe_one(
    field: &Field,
    start: &[u8],
    variable: usize,
    value: bool,
    values: &mut [u8],
    scratch: &mut Scratch,
) -> Result<Done, Refusal> {
    let answer = call!(ombradiec_cold_probe_one, on field, in start, as variable, as value.into(), out values, out scratch.floats, out scratch.words);
    read(answer, field.linear.len())
}

/// Puts what both probes of every free variable find into `values`, which is n long, and at the front of `constraints`, one
/// for one pair and rising by it; counts the constraints, of which there are at most [`found`].
///
/// ```
/// # use ombradiec::lent::*;
/// # let (mut f, mut u) = ([0.0; floats(2, 1)], [0; words(2, 1)]);
/// # let mut scratch = Scratch { floats: &mut f, words: &mut u };
/// use ombradiec::{Constraint, Kind};
/// let field = Field { linear: &[-1.0, -1.0], rows: &[0], cols: &[1], quad: &[4.0] };
/// let (mut values, mut constraints) = ([FREE; 2], [Constraint::default(); found(2)]);
/// let done = probe(&field, &[FREE; 2], &mut values, &mut constraints, &mut scratch)?;
/// assert_eq!((values, &constraints[..done.count]), ([FREE; 2], &[Constraint::new(0, 1, Kind::ExactlyOne)][..]));
/// # Ok::<(), ombradiec::Refusal>(())
/// ```
pub fn probe(
    field: &Field,
    start: &[u8],
    values: &mut [u8],
    constraints: &mut [Constraint],
    scratch: &mut Scratch,
) -> Result<Done, Refusal> {
    let answer =
        call!(ombradiec_probe, on field, in start, out values, out3 constraints, out scratch.floats, out scratch.words);
    read(answer, enough(field, values, found(free(start))))
}

/// The same as [`probe`] with rows made afresh for every probe, as a second opinion: equal answers, in the time of 2k closures
/// for k free variables.
///
/// ```
/// # use ombradiec::lent::*;
/// # let (mut f, mut u) = ([0.0; floats(2, 1)], [0; words(2, 1)]);
/// # let mut scratch = Scratch { floats: &mut f, words: &mut u };
/// use ombradiec::{Constraint, Kind};
/// let field = Field { linear: &[-1.0, -1.0], rows: &[0], cols: &[1], quad: &[4.0] };
/// let (mut values, mut constraints) = ([FREE; 2], [Constraint::default(); found(2)]);
/// let done = cold_probe(&field, &[FREE; 2], &mut values, &mut constraints, &mut scratch)?;
/// assert_eq!(constraints[..done.count], [Constraint::new(0, 1, Kind::ExactlyOne)]);
/// # Ok::<(), ombradiec::Refusal>(())
/// ```
pub fn cold_probe(
    field: &Field,
    start: &[u8],
    values: &mut [u8],
    constraints: &mut [Constraint],
    scratch: &mut Scratch,
) -> Result<Done, Refusal> {
    let answer = call!(ombradiec_cold_probe, on field, in start, out values, out3 constraints, out scratch.floats, out scratch.words);
    read(answer, enough(field, values, found(free(start))))
}

/// The same as [`probe`] of up to `candidates` free variables, those of the greatest sum of |q| over entries with both ends
/// free; there are at most [`found_limited`] constraints.
///
/// ```
/// # use ombradiec::lent::*;
/// # let (mut f, mut u) = ([0.0; floats(2, 1)], [0; words(2, 1)]);
/// # let mut scratch = Scratch { floats: &mut f, words: &mut u };
/// use ombradiec::Constraint;
/// let field = Field { linear: &[-1.0, -1.0], rows: &[0], cols: &[1], quad: &[4.0] };
/// let (mut values, mut constraints) = ([FREE; 2], [Constraint::default(); found_limited(2, 1)]);
/// let done = probe_limited(&field, &[FREE; 2], 1, &mut values, &mut constraints, &mut scratch)?;
/// assert_eq!((done.count, constraints[0].set()), (1, 9));
/// # Ok::<(), ombradiec::Refusal>(())
/// ```
pub fn probe_limited(
    field: &Field,
    start: &[u8],
    candidates: usize,
    values: &mut [u8],
    constraints: &mut [Constraint],
    scratch: &mut Scratch,
) -> Result<Done, Refusal> {
    let answer = call!(ombradiec_probe_limited, on field, in start, as candidates, out values, out3 constraints, out scratch.floats, out scratch.words);
    read(answer, enough(field, values, found_limited(free(start), candidates)))
}

/// The same as [`probe_limited`] with rows made afresh for every probe, as a second opinion: equal answers.
///
/// ```
/// # use ombradiec::lent::*;
/// # let (mut f, mut u) = ([0.0; floats(2, 1)], [0; words(2, 1)]);
/// # let mut scratch = Scratch { floats: &mut f, words: &mut u };
/// use ombradiec::Constraint;
/// let field = Field { linear: &[-1.0, -1.0], rows: &[0], cols: &[1], quad: &[4.0] };
/// let (mut values, mut constraints) = ([FREE; 2], [Constraint::default(); found_limited(2, 1)]);
/// let done = cold_probe_limited(&field, &[FREE; 2], 1, &mut values, &mut constraints, &mut scratch)?;
/// assert_eq!((done.count, constraints[0].set()), (1, 9));
/// # Ok::<(), ombradiec::Refusal>(())
/// ```
pub fn cold_probe_limited(
    field: &Field,
    start: &[u8],
    candidates: usize,
    values: &mut [u8],
    constraints: &mut [Constraint],
    scratch: &mut Scratch,
) -> Result<Done, Refusal> {
    let answer = call!(ombradiec_cold_probe_limited, on field, in start, as candidates, out values, out3 constraints, out scratch.floats, out scratch.words);
    read(answer, enough(field, values, found_limited(free(start), candidates)))
}
