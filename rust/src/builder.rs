use crate::answer::Refusal;
use crate::field::Field;
use crate::lent::{MOST_ENTRIES, MOST_VARIABLES};
use alloc::vec::Vec;

/// What a [`Builder`] does with an entry whose place, row and column, was given before.
#[derive(Clone, Copy, Debug, PartialEq, Eq, Hash)]
pub enum Repeats {
    /// It is added to the earlier one, in the order given, from the first weight on.
    Add,
    /// It is refused.
    Refuse,
}

/// Makes a field of entries in any order. What it builds is refused by no call but for an entry on the diagonal, which
/// [`shift`](crate::shift) removes.
///
/// ```
/// use ombradiec::{Builder, Field, Refusal, Repeats};
/// let mut builder = Builder::new(Repeats::Add);
/// let (log, prices) = (builder.variable(-2.5), builder.variable(-3.0));
/// builder.entry(prices, log, 2.0).entry(log, prices, 1.0).entry(prices, log, 0.5);
/// assert_eq!(builder.build()?, Field::new(&[-2.5, -3.0], &[(1, 0, 2.5), (0, 1, 1.0)]));
///
/// let mut builder = Builder::new(Repeats::Refuse);
/// let (log, prices) = (builder.variable(-2.5), builder.variable(-3.0));
/// builder.entry(prices, log, 2.0).entry(log, prices, 1.0).entry(prices, log, 0.5);
/// assert_eq!(builder.build(), Err(Refusal::Repeat { at: 2 }));
/// # Ok::<(), Refusal>(())
/// ```
#[derive(Clone, Debug, PartialEq)]
pub struct Builder {
    repeats: Repeats,
    linear: Vec<f64>,
    entries: Vec<(usize, usize, f64)>,
}

impl Builder {
    /// Nothing yet.
    pub fn new(repeats: Repeats) -> Builder {
        Builder { repeats, linear: Vec::new(), entries: Vec::new() }
    }

    /// Adds a variable with its linear weight, and says its number.
    pub fn variable(&mut self, weight: f64) -> usize {
        self.linear.push(weight);
        self.linear.len() - 1
    }

    /// Adds an entry, whose weight counts by half where both variables are 1; these may be added later.
    pub fn entry(&mut self, row: usize, column: usize, weight: f64) -> &mut Builder {
        self.entries.push((row, column, weight));
        self
    }

    /// The field, or what a call would refuse of it: more than 4,096 variables; an entry with an end that is no variable, or
    /// with the place of an earlier one where repeats are refused, `at` its position in the order added; a weight or a sum
    /// that is not finite; or more than 32,768 places.
    pub fn build(&self) -> Result<Field, Refusal> {
        if self.linear.len() > MOST_VARIABLES {
            return Err(Refusal::Variables);
        }
        let order = self.ordered();
        self.tested(&order)?;
        let mut entries: Vec<(usize, usize, f64)> = Vec::with_capacity(order.len());
        for &k in &order {
            let (row, column, weight) = self.entries[k];
            match entries.last_mut() {
                Some(last) if (last.0, last.1) == (row, column) => last.2 += weight,
                _ => entries.push((row, column, weight)),
            }
        }
        if entries.iter().any(|entry| !entry.2.is_finite()) {
            return Err(Refusal::Sum);
        }
        if entries.len() > MOST_ENTRIES {
            return Err(Refusal::Lists);
        }
        Ok(Field::listed(&self.linear, &entries))
    }

    /// The positions of the entries by column, then row, and at one place in the order added.
    fn ordered(&self) -> Vec<usize> {
        let mut order: Vec<usize> = (0..self.entries.len()).collect();
        order.sort_by_key(|&k| (self.entries[k].1, self.entries[k].0));
        order
    }

    /// Tests the ends and, where they are refused, the repeats of the first entry at fault, and then all weights.
    fn tested(&self, order: &[usize]) -> Result<(), Refusal> {
        let place = |k: usize| (self.entries[k].0, self.entries[k].1);
        let again = match self.repeats {
            Repeats::Add => None,
            Repeats::Refuse => order.windows(2).filter(|two| place(two[0]) == place(two[1])).map(|two| two[1]).min(),
        };
        let n = self.linear.len();
        for (at, &(row, column, _)) in self.entries.iter().enumerate() {
            if row >= n {
                return Err(Refusal::Row { at });
            }
            if column >= n {
                return Err(Refusal::Column { at });
            }
            if again == Some(at) {
                return Err(Refusal::Repeat { at });
            }
        }
        let finite = self.linear.iter().all(|c| c.is_finite()) && self.entries.iter().all(|entry| entry.2.is_finite());
        if finite {
            Ok(())
        } else {
            Err(Refusal::Weights)
        }
    }
}
