//! Stands in for sprs: a compressed sparse matrix, walked outer line by outer line, and a list of triplets.

use ndarray::{Array1, Array2};
use std::ops::{Add, Mul};

/// Stands in for `sprs::CsMat`: the stored places of each outer line, which is a row or a column, with rising inner places.
#[derive(Clone, Debug)]
pub struct CsMat<N> {
    by_columns: bool,
    shape: (usize, usize),
    offsets: Vec<usize>,
    inner: Vec<usize>,
    data: Vec<N>,
}

/// Stands in for a view of one outer line.
pub struct CsVecView<'a> {
    inner: &'a [usize],
    data: &'a [f64],
}

impl<'a> CsVecView<'a> {
    pub fn iter(&self) -> impl Iterator<Item = (usize, &'a f64)> {
        self.inner.iter().copied().zip(self.data)
    }
}

/// Stands in for `sprs::CsIter`: one walk over the stored places, in which the outer line moves on at its end.
#[derive(Clone)]
pub struct CsIter<'a> {
    matrix: &'a CsMat<f64>,
    outer: usize,
    at: usize,
}

impl<'a> Iterator for CsIter<'a> {
    type Item = (&'a f64, (usize, usize));

    #[inline]
    fn next(&mut self) -> Option<Self::Item> {
        let matrix = self.matrix;
        let &inner = matrix.inner.get(self.at)?;
        while self.at == matrix.offsets[self.outer + 1] {
            self.outer += 1;
        }
        let value = &matrix.data[self.at];
        self.at += 1;
        Some((value, matrix.place(self.outer, inner)))
    }

    fn size_hint(&self) -> (usize, Option<usize>) {
        let left = self.matrix.inner.len() - self.at;
        (left, Some(left))
    }
}

impl CsMat<f64> {
    /// Takes a matrix by columns and panics, as sprs does, where the structure is broken.
    pub fn new_csc(
        shape: (usize, usize),
        offsets: Vec<usize>,
        inner: Vec<usize>,
        data: Vec<f64>,
    ) -> Self {
        assert_eq!(offsets.len(), shape.1 + 1);
        assert_eq!(offsets.first(), Some(&0));
        assert_eq!(offsets.last(), Some(&inner.len()));
        assert_eq!(inner.len(), data.len());
        for ends in offsets.windows(2) {
            let line = &inner[ends[0]..ends[1]];
            assert!(line.windows(2).all(|pair| pair[0] < pair[1]));
            assert!(line.iter().all(|&i| i < shape.0));
        }
        Self {
            by_columns: true,
            shape,
            offsets,
            inner,
            data,
        }
    }

    pub fn rows(&self) -> usize {
        self.shape.0
    }

    pub fn cols(&self) -> usize {
        self.shape.1
    }

    pub fn nnz(&self) -> usize {
        self.data.len()
    }

    #[inline]
    fn place(&self, outer: usize, inner: usize) -> (usize, usize) {
        if self.by_columns {
            (inner, outer)
        } else {
            (outer, inner)
        }
    }

    /// Walks the stored values with their (row, column), outer line by outer line.
    #[inline]
    pub fn iter(&self) -> CsIter<'_> {
        CsIter {
            matrix: self,
            outer: 0,
            at: 0,
        }
    }

    #[inline]
    pub fn get(&self, row: usize, column: usize) -> Option<&f64> {
        let (outer, inner) = if self.by_columns {
            (column, row)
        } else {
            (row, column)
        };
        let range = *self.offsets.get(outer)?..*self.offsets.get(outer + 1)?;
        let at = self.inner[range.clone()].binary_search(&inner).ok()?;
        Some(&self.data[range.start + at])
    }

    pub fn outer_view(&self, outer: usize) -> Option<CsVecView<'_>> {
        let range = *self.offsets.get(outer)?..*self.offsets.get(outer + 1)?;
        Some(CsVecView {
            inner: &self.inner[range.clone()],
            data: &self.data[range],
        })
    }

    /// Hands back a transposed copy where sprs hands back a view.
    pub fn transpose_view(&self) -> Self {
        let mut other = self.clone();
        other.by_columns = !self.by_columns;
        other.shape = (self.shape.1, self.shape.0);
        other
    }

    pub fn to_dense(&self) -> Array2<f64> {
        Array2::undefined()
    }
}

impl<'a> IntoIterator for &'a CsMat<f64> {
    type Item = (&'a f64, (usize, usize));
    type IntoIter = CsIter<'a>;
    #[inline]
    fn into_iter(self) -> Self::IntoIter {
        self.iter()
    }
}

impl Add for &CsMat<f64> {
    type Output = CsMat<f64>;
    fn add(self, other: Self) -> CsMat<f64> {
        let mut sum = TriMat::new(self.shape);
        for (&value, (i, j)) in self.iter().chain(other.iter()) {
            sum.add_triplet(i, j, value);
        }
        sum.to_csr()
    }
}

impl Mul<&Array1<f64>> for &CsMat<f64> {
    type Output = Array1<f64>;
    fn mul(self, x: &Array1<f64>) -> Array1<f64> {
        let mut product = Array1::zeros(self.rows());
        for (&value, (i, j)) in self {
            product[i] += value * x[j];
        }
        product
    }
}

/// Stands in for `sprs::TriMat`: triplets in the order in which they were added.
pub struct TriMat<N> {
    shape: (usize, usize),
    triplets: Vec<(usize, usize, N)>,
}

impl TriMat<f64> {
    pub fn new(shape: (usize, usize)) -> Self {
        Self {
            shape,
            triplets: Vec::new(),
        }
    }

    #[inline]
    pub fn add_triplet(&mut self, row: usize, column: usize, value: f64) {
        assert!(row < self.shape.0 && column < self.shape.1);
        self.triplets.push((row, column, value));
    }

    pub fn to_csc(&self) -> CsMat<f64> {
        self.compressed(true)
    }

    pub fn to_csr(&self) -> CsMat<f64> {
        self.compressed(false)
    }

    /// Sorts the triplets by outer line, adds up repeats and keeps stored zeros.
    fn compressed(&self, by_columns: bool) -> CsMat<f64> {
        let turned = |&(i, j, value): &(usize, usize, f64)| {
            if by_columns {
                (j, i, value)
            } else {
                (i, j, value)
            }
        };
        let mut sorted: Vec<_> = self.triplets.iter().map(turned).collect();
        sorted.sort_by_key(|&(outer, inner, _)| (outer, inner));
        let lines = if by_columns {
            self.shape.1
        } else {
            self.shape.0
        };
        let mut matrix = CsMat {
            by_columns,
            shape: self.shape,
            offsets: vec![0; lines + 1],
            inner: Vec::new(),
            data: Vec::new(),
        };
        let mut last = None;
        for (outer, inner, value) in sorted {
            if last == Some((outer, inner)) {
                *matrix.data.last_mut().unwrap() += value;
            } else {
                last = Some((outer, inner));
                matrix.inner.push(inner);
                matrix.data.push(value);
                matrix.offsets[outer + 1] += 1;
            }
        }
        for line in 0..lines {
            matrix.offsets[line + 1] += matrix.offsets[line];
        }
        matrix
    }
}
