use crate::lent::FREE;
use alloc::vec;
use alloc::vec::Vec;

/// A value for each variable, or none: what is given before a call, and what it finds.
///
/// ```
/// use ombradiec::Values;
/// let values: Values = [Some(true), None, Some(false)].iter().copied().collect();
/// assert_eq!((values.len(), values.get(0), values.get(1)), (3, Some(true), None));
/// assert_eq!(values.iter_forced().collect::<Vec<_>>(), [(0, true), (2, false)]);
/// assert_eq!([true, false].iter().copied().collect::<Values>().iter().next(), Some(Some(true)));
/// ```
#[derive(Clone, Debug, Default, PartialEq, Eq, Hash)]
pub struct Values(pub(crate) Vec<u8>);

impl Values {
    /// n variables, all free.
    pub fn free(n: usize) -> Values {
        Values(vec![FREE; n])
    }

    /// How many variables there are.
    pub fn len(&self) -> usize {
        self.0.len()
    }

    /// Whether there is no variable.
    pub fn is_empty(&self) -> bool {
        self.0.is_empty()
    }

    /// The value of variable i, if it has one.
    ///
    /// ```
    /// let mut values = ombradiec::Values::free(3);
    /// values.set(1, Some(true));
    /// assert_eq!(values.get(1), Some(true));
    /// assert_eq!(values.get(2), None);
    /// ```
    ///
    /// # Panics
    /// Where i is not below n, as with a slice.
    pub fn get(&self, i: usize) -> Option<bool> {
        value(self.0[i])
    }

    /// Gives variable i a value, or none.
    ///
    /// # Panics
    /// Where i is not below n.
    pub fn set(&mut self, i: usize, value: Option<bool>) {
        self.0[i] = byte(value);
    }

    /// The value of each variable, if it has one, in the order of the variables.
    pub fn iter(&self) -> impl DoubleEndedIterator<Item = Option<bool>> + ExactSizeIterator + '_ {
        self.0.iter().map(|&byte| value(byte))
    }

    /// The variables that have a value, given or forced, rising, with their values.
    pub fn iter_forced(&self) -> impl DoubleEndedIterator<Item = (usize, bool)> + '_ {
        self.iter().enumerate().filter_map(|(i, value)| value.map(|value| (i, value)))
    }

    /// The bytes of these values, as the calls of [`lent`](crate::lent) take them.
    pub fn lent(&self) -> &[u8] {
        &self.0
    }
}

impl FromIterator<Option<bool>> for Values {
    fn from_iter<I: IntoIterator<Item = Option<bool>>>(values: I) -> Values {
        Values(values.into_iter().map(byte).collect())
    }
}

impl FromIterator<bool> for Values {
    fn from_iter<I: IntoIterator<Item = bool>>(values: I) -> Values {
        values.into_iter().map(Some).collect()
    }
}

/// The byte of a value.
fn byte(value: Option<bool>) -> u8 {
    value.map_or(FREE, u8::from)
}

/// The value of a byte.
fn value(byte: u8) -> Option<bool> {
    match byte {
        FREE => None,
        value => Some(value == 1),
    }
}
