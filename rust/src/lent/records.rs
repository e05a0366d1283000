//! The rows of an exact field, kept as variables are pinned and released: `values`, `bounds` and `strict` are the record, to be
//! kept together with the same field.
use super::{Field, Scratch};
use crate::answer::{read, Done, Refusal};
use crate::library::*;

/// Makes the record of the values: in `bounds`, which is 2n long, the lower bound of free variable i at i and its upper bound at
/// n + i, and in `strict` how many free variables have a strict row. Only exact fields have one.
///
/// ```
/// # use ombradiec::lent::*;
/// # let (mut f, mut u) = ([0.0; floats(2, 1)], [0; words(2, 1)]);
/// # let mut scratch = Scratch { floats: &mut f, words: &mut u };
/// let field = Field { linear: &[-1.0, -5.0], rows: &[0], cols: &[1], quad: &[4.0] };
/// let (mut values, mut bounds, mut strict) = ([FREE; 2], [0.0; 4], 0);
/// keep(&field, &values, &mut bounds, &mut strict, &mut scratch)?;
/// assert_eq!((bounds, strict), ([-1.0, -5.0, 1.0, -3.0], 1));
/// pin(&field, &mut values, &mut bounds, &mut strict, 1, true)?;
/// assert_eq!((values, bounds, strict), ([FREE, 1], [1.0, 0.0, 1.0, 0.0], 1));
/// let mut list = [0; 2];
/// close(&field, &values, &bounds, &mut list, &mut scratch)?;
/// assert_eq!(list, [0, 1]);
/// release(&field, &mut values, &mut bounds, &mut strict, 1)?;
/// assert_eq!((bounds, strict), ([-1.0, -5.0, 1.0, -3.0], 1));
/// # Ok::<(), ombradiec::Refusal>(())
/// ```
pub fn keep(
    field: &Field,
    values: &[u8],
    bounds: &mut [f64],
    strict: &mut u32,
    scratch: &mut Scratch,
) -> Result<Done, Refusal> {
    read(call!(ombradiec_keep, on field, in values, out bounds, as strict, out scratch.floats, out scratch.words), 0)
}

/// Gives a free variable of the record a value; nothing is forced. The example is at [`keep`].
pub fn pin(
    field: &Field,
    values: &mut [u8],
    bounds: &mut [f64],
    strict: &mut u32,
    variable: usize,
    value: bool,
) -> Result<(), Refusal> {
    read(call!(ombradiec_pin, on field, out values, out bounds, as strict, as variable, as value.into()), 0).map(|_| ())
}

/// Frees a variable of the record that has a value. The example is at [`keep`].
pub fn release(
    field: &Field,
    values: &mut [u8],
    bounds: &mut [f64],
    strict: &mut u32,
    variable: usize,
) -> Result<(), Refusal> {
    read(call!(ombradiec_release, on field, out values, out bounds, as strict, as variable), 0).map(|_| ())
}

/// Puts the closure of the record's values, from its bounds, into `list`, which is n long, and counts the flat rows as
/// [`closure`](super::closure) does. The example is at [`keep`].
pub fn close(
    field: &Field,
    values: &[u8],
    bounds: &[f64],
    list: &mut [u8],
    scratch: &mut Scratch,
) -> Result<Done, Refusal> {
    let answer =
        call!(ombradiec_close, on field, in values, in bounds, out list, out scratch.floats, out scratch.words);
    read(answer, field.linear.len())
}
