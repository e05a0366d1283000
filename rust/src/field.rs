use crate::constraint::number;
use crate::lent;
use crate::values::Values;
use alloc::vec::Vec;

/// A field: n linear weights c, and entries (row, column, q). It stands for the objective: the sum of c_i x_i, and half the
/// sum of q x_row x_column, which is to be made least.
#[derive(Clone, Debug, Default, PartialEq)]
pub struct Field {
    pub(crate) linear: Vec<f64>,
    pub(crate) rows: Vec<u16>,
    pub(crate) cols: Vec<u16>,
    pub(crate) quad: Vec<f64>,
}

impl Field {
    /// A field of these weights, with its entries put in order: by column, then row, repeats and entries outside it too.
    /// Whether it is well-formed is what each call tests; a [`Builder`](crate::Builder) tests it first, and adds repeats up
    /// where it is told to.
    ///
    /// ```
    /// let field = ombradiec::Field::new(&[0.5, -1.0], &[(1, 0, 3.0), (0, 1, 4.0)]);
    /// assert_eq!(field.variables(), 2);
    /// assert_eq!(field.entries().next(), Some((1, 0, 3.0)));
    /// ```
    pub fn new(linear: &[f64], entries: &[(usize, usize, f64)]) -> Field {
        let mut entries = entries.to_vec();
        entries.sort_by_key(|&(row, column, _)| (column, row));
        Field::listed(linear, &entries)
    }

    /// A field whose entry list stays as it is given, for [`mend`](crate::mend). An end of 65,535 or above, which no field
    /// has, is kept as 65,535.
    pub fn listed(linear: &[f64], entries: &[(usize, usize, f64)]) -> Field {
        Field {
            linear: linear.to_vec(),
            rows: entries.iter().map(|e| number(e.0)).collect(),
            cols: entries.iter().map(|e| number(e.1)).collect(),
            quad: entries.iter().map(|e| e.2).collect(),
        }
    }

    /// How many variables there are.
    pub fn variables(&self) -> usize {
        self.linear.len()
    }

    /// The linear weights.
    pub fn linear(&self) -> &[f64] {
        &self.linear
    }

    /// The entries (row, column, q), in the order of the list.
    pub fn entries(&self) -> impl DoubleEndedIterator<Item = (usize, usize, f64)> + ExactSizeIterator + '_ {
        (0..self.quad.len()).map(move |k| (self.rows[k].into(), self.cols[k].into(), self.quad[k]))
    }

    /// The objective at these values: the sum of c_i x_i and half the sum of q x_row x_column, added in the order of the
    /// lists. None where they are not n, where one is free, or where an entry lies outside the field. On an exact field no
    /// sum rounds.
    ///
    /// ```
    /// use ombradiec::{Field, Values};
    /// let field = Field::new(&[-5.0, -1.0], &[(0, 1, 4.0)]);
    /// assert_eq!(field.value(&[true, true].iter().copied().collect()), Some(-4.0));
    /// assert_eq!(field.value(&[true, false].iter().copied().collect()), Some(-5.0));
    /// assert_eq!(field.value(&Values::free(2)), None);
    /// ```
    pub fn value(&self, values: &Values) -> Option<f64> {
        let n = self.variables();
        if values.len() != n || values.iter().any(|value| value.is_none()) {
            return None;
        }
        let on = |i: usize| values.get(i) == Some(true);
        let mut sum = 0.0;
        for (i, c) in self.linear.iter().enumerate() {
            if on(i) {
                sum += c;
            }
        }
        for (row, column, q) in self.entries() {
            if row >= n || column >= n {
                return None;
            }
            if on(row) && on(column) {
                sum += 0.5 * q;
            }
        }
        Some(sum)
    }

    /// The same field, as the calls of [`lent`](crate::lent) take it.
    pub fn lent(&self) -> lent::Field<'_> {
        lent::Field { linear: &self.linear, rows: &self.rows, cols: &self.cols, quad: &self.quad }
    }

    /// The same field, for a call that changes it.
    pub(crate) fn lent_mut(&mut self) -> lent::FieldMut<'_> {
        lent::FieldMut { linear: &mut self.linear, rows: &mut self.rows, cols: &mut self.cols, quad: &mut self.quad }
    }

    /// Drops what stands behind so many variables and entries.
    pub(crate) fn truncate(&mut self, variables: usize, entries: usize) {
        self.linear.truncate(variables);
        self.rows.truncate(entries);
        self.cols.truncate(entries);
        self.quad.truncate(entries);
    }
}

/// The memory that calls work in. It grows to what a field needs and is kept for the next call.
#[derive(Clone, Debug, Default)]
pub struct Scratch {
    floats: Vec<f64>,
    words: Vec<u32>,
    longs: Vec<u64>,
}

impl Scratch {
    /// No memory yet.
    pub fn new() -> Scratch {
        Scratch::default()
    }

    /// Scratch for n variables and m entries, or m constraints; no more than the largest field needs, since a call refuses
    /// what is larger before it looks at the scratch.
    pub fn lend(&mut self, n: usize, m: usize) -> lent::Scratch<'_> {
        let (n, m) = (n.min(lent::MOST_VARIABLES), m.min(lent::MOST_CONSTRAINTS));
        let (floats, words) = (lent::floats(n, m), lent::words(n, m));
        self.floats.resize(floats.max(self.floats.len()), 0.0);
        self.words.resize(words.max(self.words.len()), 0);
        lent::Scratch { floats: &mut self.floats[..floats], words: &mut self.words[..words] }
    }

    /// Scratch for a field.
    pub(crate) fn lend_for(&mut self, field: &Field) -> lent::Scratch<'_> {
        self.lend(field.variables(), field.quad.len())
    }

    /// Scratch of [`allow`](crate::allow) for n variables and k constraints; no more than the most that it takes need.
    pub(crate) fn lend_longs(&mut self, n: usize, k: usize) -> (&mut [u64], &mut [u32]) {
        let (n, k) = (n.min(lent::MOST_REACHED), k.min(lent::MOST_CONSTRAINTS));
        let (longs, words) = (lent::longs(n), lent::words(n, k));
        self.longs.resize(longs.max(self.longs.len()), 0);
        self.words.resize(words.max(self.words.len()), 0);
        (&mut self.longs[..longs], &mut self.words[..words])
    }
}
