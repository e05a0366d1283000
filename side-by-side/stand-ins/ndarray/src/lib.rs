//! Stands in for ndarray: a list of numbers with the operations that the text names.

use std::ops::{Add, Index, IndexMut, Mul, Neg, Sub};

/// Stands in for `ndarray::Array1`.
#[derive(Clone, Debug, PartialEq)]
pub struct Array1<T>(Vec<T>);

impl<T: Clone> Array1<T> {
    pub fn from_elem(length: usize, value: T) -> Self {
        Self(vec![value; length])
    }

    pub fn zeros(length: usize) -> Self
    where
        T: Default,
    {
        Self(vec![T::default(); length])
    }

    pub fn to_vec(&self) -> Vec<T> {
        self.0.clone()
    }
}

impl<T> Array1<T> {
    pub const fn from_vec(values: Vec<T>) -> Self {
        Self(values)
    }

    pub fn len(&self) -> usize {
        self.0.len()
    }

    pub fn is_empty(&self) -> bool {
        self.0.is_empty()
    }

    pub fn iter(&self) -> std::slice::Iter<'_, T> {
        self.0.iter()
    }

    pub fn indexed_iter(&self) -> impl Iterator<Item = (usize, &T)> {
        self.0.iter().enumerate()
    }
}

impl Array1<f64> {
    pub fn dot(&self, other: &Self) -> f64 {
        self.iter().zip(other).map(|(a, b)| a * b).sum()
    }

    fn with(self, other: &Self, f: impl Fn(f64, f64) -> f64) -> Self {
        self.iter().zip(other).map(|(&a, &b)| f(a, b)).collect()
    }
}

impl<T> Index<usize> for Array1<T> {
    type Output = T;
    fn index(&self, i: usize) -> &T {
        &self.0[i]
    }
}

impl<T> IndexMut<usize> for Array1<T> {
    fn index_mut(&mut self, i: usize) -> &mut T {
        &mut self.0[i]
    }
}

impl<'a, T> IntoIterator for &'a Array1<T> {
    type Item = &'a T;
    type IntoIter = std::slice::Iter<'a, T>;
    fn into_iter(self) -> Self::IntoIter {
        self.0.iter()
    }
}

impl<T> FromIterator<T> for Array1<T> {
    fn from_iter<I: IntoIterator<Item = T>>(values: I) -> Self {
        Self(values.into_iter().collect())
    }
}

impl Add for Array1<f64> {
    type Output = Self;
    fn add(self, other: Self) -> Self {
        self.with(&other, |a, b| a + b)
    }
}

impl Add<&Self> for Array1<f64> {
    type Output = Self;
    fn add(self, other: &Self) -> Self {
        self.with(other, |a, b| a + b)
    }
}

impl Sub for Array1<f64> {
    type Output = Self;
    fn sub(self, other: Self) -> Self {
        self.with(&other, |a, b| a - b)
    }
}

impl Sub<f64> for Array1<f64> {
    type Output = Self;
    fn sub(self, other: f64) -> Self {
        self.iter().map(|&a| a - other).collect()
    }
}

impl Mul<Array1<f64>> for f64 {
    type Output = Array1<f64>;
    fn mul(self, other: Array1<f64>) -> Array1<f64> {
        self * &other
    }
}

impl Mul<&Array1<f64>> for f64 {
    type Output = Array1<f64>;
    fn mul(self, other: &Array1<f64>) -> Array1<f64> {
        other.iter().map(|&a| self * a).collect()
    }
}

impl Neg for Array1<f64> {
    type Output = Self;
    fn neg(self) -> Self {
        self.iter().map(|&a| -a).collect()
    }
}

/// Stands in for `ndarray::Array2`, which only names the type of a dense matrix.
pub struct Array2<T>(std::marker::PhantomData<T>);

impl<T> Array2<T> {
    pub fn undefined() -> Self {
        unimplemented!("the driver makes no dense matrix")
    }
}
