use crate::answer::{Done, Refusal};
use crate::field::{Field, Scratch};
use crate::lent;
use crate::values::Values;
use alloc::vec;
use alloc::vec::Vec;

/// The rows of an exact field, kept as variables are pinned and released: each free variable's two bounds, and how many rows
/// are strict. It owns its field and its lists, so that what it holds is always that of its values.
///
/// ```
/// use ombradiec::{Field, Kept, Refusal, Scratch, Values};
/// let mut scratch = Scratch::new();
/// let field = Field::new(&[-1.0, -5.0, 0.5], &[(0, 1, 4.0), (1, 2, -2.0)]);
/// let mut kept = Kept::new(field, Values::free(3), &mut scratch)?;
/// assert_eq!((kept.bounds(1), kept.strict()), (Some((-6.0, -3.0)), 1));
///
/// kept.pin(1, false)?;
/// assert_eq!((kept.bounds(1), kept.bounds(2), kept.strict()), (None, Some((0.5, 0.5)), 2));
/// assert_eq!(kept.close(&mut scratch)?.0, [true, false, false].iter().copied().collect());
/// assert_eq!(kept.pin(1, false), Err(Refusal::Argument));
///
/// kept.release(1)?;
/// assert_eq!((kept.bounds(1), kept.strict()), (Some((-6.0, -3.0)), 1));
/// # Ok::<(), Refusal>(())
/// ```
#[derive(Clone, Debug, PartialEq)]
pub struct Kept {
    field: Field,
    values: Values,
    bounds: Vec<f64>,
    strict: u32,
}

impl Kept {
    /// The record of the values. Only exact fields have one: another is [`Refusal::Inexact`].
    pub fn new(field: Field, values: Values, scratch: &mut Scratch) -> Result<Kept, Refusal> {
        let (mut bounds, mut strict) = (vec![0.0; 2 * field.variables()], 0);
        lent::keep(&field.lent(), values.lent(), &mut bounds, &mut strict, &mut scratch.lend_for(&field))?;
        Ok(Kept { field, values, bounds, strict })
    }

    /// Gives a free variable a value. The rows of its neighbours and its own change, and no other; nothing is forced.
    /// [`Refusal::Argument`] where the variable is not below n or not free; then nothing changes.
    pub fn pin(&mut self, variable: usize, value: bool) -> Result<(), Refusal> {
        let field = self.field.lent();
        lent::pin(&field, &mut self.values.0, &mut self.bounds, &mut self.strict, variable, value)
    }

    /// Frees a variable that has a value, whether pinned or given at the start.
    /// [`Refusal::Argument`] where it is not below n or is free; then nothing changes.
    pub fn release(&mut self, variable: usize) -> Result<(), Refusal> {
        let field = self.field.lent();
        lent::release(&field, &mut self.values.0, &mut self.bounds, &mut self.strict, variable)
    }

    /// What [`closure`](crate::closure) gives at the values, from the rows that are kept; the record does not change.
    pub fn close(&self, scratch: &mut Scratch) -> Result<(Values, Done), Refusal> {
        let (field, mut list) = (self.field.lent(), Values::free(self.field.variables()));
        let done =
            lent::close(&field, self.values.lent(), &self.bounds, &mut list.0, &mut scratch.lend_for(&self.field))?;
        Ok((list, done))
    }

    /// The lower and the upper bound of a free variable; none where it has a value.
    ///
    /// # Panics
    /// Where i is not below n.
    pub fn bounds(&self, i: usize) -> Option<(f64, f64)> {
        match self.values.get(i) {
            None => Some((self.bounds[i], self.bounds[self.field.variables() + i])),
            Some(_) => None,
        }
    }

    /// How many free variables have a strict row: a lower bound above 0, or an upper bound below 0.
    pub fn strict(&self) -> usize {
        self.strict as usize
    }

    /// The field.
    pub fn field(&self) -> &Field {
        &self.field
    }

    /// The values.
    pub fn values(&self) -> &Values {
        &self.values
    }
}
