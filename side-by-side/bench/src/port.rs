//! The port's exported calls, with scratch of the least length that each asks for.

use crate::fields::{Field, Rules};
use crate::library;
use crate::timing::timed;
use std::hint::black_box;
use std::time::Duration;

/// An exported call, timed: a list in brackets goes over as a pointer and a length, with `mut` one that the call may change.
macro_rules! exported {
    (@ $name:ident ($($done:expr),*)) => {
        timed(|| unsafe { library::$name($($done),*) })
    };
    (@ $name:ident ($($done:expr),*) [mut $list:expr] $($rest:tt)*) => {
        exported!(@ $name ($($done,)* $list.as_mut_ptr(), $list.len()) $($rest)*)
    };
    (@ $name:ident ($($done:expr),*) [$list:expr] $($rest:tt)*) => {
        exported!(@ $name ($($done,)* $list.as_ptr(), $list.len()) $($rest)*)
    };
    (@ $name:ident ($($done:expr),*) ($number:expr) $($rest:tt)*) => {
        exported!(@ $name ($($done,)* $number) $($rest)*)
    };
    ($name:ident, $($parts:tt)*) => {
        exported!(@ $name () $($parts)*)
    };
}

/// The refusal and the count that an answer carries: bits 0 to 7, and 16 to 43.
pub const fn parts(answer: u64) -> (u64, usize) {
    (answer & 0xff, ((answer >> 16) & 0xfff_ffff) as usize)
}

/// A field, and what is lent to a call on it.
pub struct Lent {
    field: Field,
    values: Vec<u8>,
    list: Vec<u16>,
    f: Vec<f64>,
    u: Vec<u32>,
}

impl Lent {
    pub fn new(field: &Field, room: usize) -> Self {
        let (n, m) = (field.n(), field.m());
        Self {
            field: field.clone(),
            values: field.start.clone(),
            list: vec![0; room],
            f: vec![0.0; 8 * n + 4 * m + 16],
            u: vec![0; 16 * n + 8 * m + 16],
        }
    }

    pub fn values(&self) -> &[u8] {
        &self.values
    }

    pub fn list(&self) -> &[u16] {
        &self.list
    }

    pub const fn field(&self) -> &Field {
        &self.field
    }

    /// The values are the start values again, outside the time.
    fn begin(&mut self) {
        self.values.copy_from_slice(&self.field.start);
    }

    pub fn closure(&mut self) -> (Duration, u64) {
        self.begin();
        let Field {
            c, rows, cols, q, ..
        } = &self.field;
        let (v, f, u) = (&mut self.values, &mut self.f, &mut self.u);
        exported!(ombradiec_closure, [c][rows][cols][q][mut v][mut f][mut u])
    }

    pub fn components(&mut self) -> (Duration, u64) {
        self.begin();
        let Field {
            c, rows, cols, q, ..
        } = &self.field;
        let (v, f, u) = (&mut self.values, &mut self.f, &mut self.u);
        exported!(ombradiec_components, [c][rows][cols][q][mut v][mut f][mut u])
    }

    pub fn preprocess(&mut self) -> (Duration, u64) {
        self.begin();
        let Field {
            c, rows, cols, q, ..
        } = &self.field;
        let (v, f, u) = (&mut self.values, &mut self.f, &mut self.u);
        exported!(ombradiec_preprocess, [c][rows][cols][q][mut v][mut f][mut u])
    }

    pub fn heavy(&mut self) -> (Duration, u64) {
        self.begin();
        let Field {
            c, rows, cols, q, ..
        } = &self.field;
        let (v, f, u) = (&mut self.values, &mut self.f, &mut self.u);
        exported!(ombradiec_heavy, [c][rows][cols][q][mut v][mut f][mut u])
    }

    pub fn no_effect(&mut self) -> (Duration, u64) {
        let Field {
            c, rows, cols, q, ..
        } = &self.field;
        let (l, u) = (&mut self.list, &mut self.u);
        exported!(ombradiec_no_effect, [c][rows][cols][q][mut l][mut u])
    }

    /// Reads every weight and every end once, and clears the words: what no call that tests, grades and clears does without.
    pub fn read_and_clear(&mut self) -> (Duration, u64) {
        let Field {
            c, rows, cols, q, ..
        } = black_box(&self.field);
        let u = &mut self.u;
        let weights = |list: &[f64]| list.iter().fold(0, |all, w| all ^ w.to_bits());
        let ends = |list: &[u16]| list.iter().fold(0, |all, end| all ^ end);
        timed(|| {
            black_box(u).fill(0);
            weights(c) ^ weights(q) ^ u64::from(ends(rows) ^ ends(cols))
        })
    }

    /// Shifts a copy; the copying is not timed, since the call works in place.
    pub fn shift(&mut self, from: &Field) -> (Duration, u64) {
        let Field {
            c, rows, cols, q, ..
        } = &mut self.field;
        c.copy_from_slice(&from.c);
        rows.copy_from_slice(&from.rows);
        cols.copy_from_slice(&from.cols);
        q.copy_from_slice(&from.q);
        exported!(ombradiec_shift, [mut c][mut rows][mut cols][mut q])
    }

    /// Closes up a copy, as shift does; the constant beside the answer.
    pub fn sub_problem(&mut self, from: &Field) -> (Duration, (u64, f64)) {
        let Field {
            c,
            rows,
            cols,
            q,
            start,
            ..
        } = &mut self.field;
        c.copy_from_slice(&from.c);
        rows.copy_from_slice(&from.rows);
        cols.copy_from_slice(&from.cols);
        q.copy_from_slice(&from.q);
        let (l, f, u) = (&mut self.list, &mut self.f, &mut self.u);
        let mut constant = 0.0;
        let (time, answer) = exported!(ombradiec_sub_problem, [mut c][mut rows][mut cols][mut q][start][mut l](&mut constant)[mut f][mut u]);
        (time, (answer, constant))
    }

    /// Mends a copy, as shift does.
    pub fn mend(&mut self, from: &Field) -> (Duration, u64) {
        let Field {
            c, rows, cols, q, ..
        } = &mut self.field;
        rows.copy_from_slice(&from.rows);
        cols.copy_from_slice(&from.cols);
        q.copy_from_slice(&from.q);
        let (l, f, u) = (&mut self.list, &mut self.f, &mut self.u);
        exported!(ombradiec_mend, [c][mut rows][mut cols][mut q][mut l][mut f][mut u])
    }

    pub fn anchors(&mut self, least: usize) -> (Duration, u64) {
        let Field {
            c,
            rows,
            cols,
            q,
            start,
            ..
        } = &self.field;
        let (l, f, u) = (&mut self.list, &mut self.f, &mut self.u);
        exported!(ombradiec_anchors, [c][rows][cols][q][start](least)[mut l][mut f][mut u])
    }

    pub fn pairs(&mut self, limit: usize) -> (Duration, u64) {
        let Field {
            c,
            rows,
            cols,
            q,
            start,
            ..
        } = &self.field;
        let (l, f, u) = (&mut self.list, &mut self.f, &mut self.u);
        exported!(ombradiec_pairs, [c][rows][cols][q][start](limit)[mut l][mut f][mut u])
    }

    pub fn probe_one(&mut self, variable: usize, value: u8) -> (Duration, u64) {
        let Field {
            c,
            rows,
            cols,
            q,
            start,
            ..
        } = &self.field;
        let (v, f, u) = (&mut self.values, &mut self.f, &mut self.u);
        exported!(ombradiec_probe_one, [c][rows][cols][q][start](variable)(value)[mut v][mut f][mut u])
    }

    pub fn cold_probe_one(&mut self, variable: usize, value: u8) -> (Duration, u64) {
        let Field {
            c,
            rows,
            cols,
            q,
            start,
            ..
        } = &self.field;
        let (v, f, u) = (&mut self.values, &mut self.f, &mut self.u);
        exported!(ombradiec_cold_probe_one, [c][rows][cols][q][start](variable)(value)[mut v][mut f][mut u])
    }

    pub fn probe(&mut self) -> (Duration, u64) {
        let Field {
            c,
            rows,
            cols,
            q,
            start,
            ..
        } = &self.field;
        let (v, l, f, u) = (&mut self.values, &mut self.list, &mut self.f, &mut self.u);
        exported!(ombradiec_probe, [c][rows][cols][q][start][mut v][mut l][mut f][mut u])
    }

    pub fn probe_limited(&mut self, most: usize) -> (Duration, u64) {
        let Field {
            c,
            rows,
            cols,
            q,
            start,
            ..
        } = &self.field;
        let (v, l, f, u) = (&mut self.values, &mut self.list, &mut self.f, &mut self.u);
        exported!(ombradiec_probe_limited, [c][rows][cols][q][start](most)[mut v][mut l][mut f][mut u])
    }
}

/// An exact field with its record, and what is lent to the calls on it.
pub struct LentRecord {
    field: Field,
    values: Vec<u8>,
    bounds: Vec<f64>,
    strict: u32,
    closed: Vec<u8>,
    f: Vec<f64>,
    u: Vec<u32>,
}

impl LentRecord {
    /// The record of the start values.
    pub fn new(field: &Field) -> Self {
        let Lent {
            field,
            values,
            f,
            u,
            ..
        } = Lent::new(field, 0);
        let n = values.len();
        let mut lent = Self {
            field,
            values,
            bounds: vec![0.0; 2 * n],
            strict: 0,
            closed: vec![0; n],
            f,
            u,
        };
        assert_eq!(parts(lent.keep().1).0, 0, "refused");
        lent
    }

    /// The values, the bits of the bounds, and the number.
    pub fn contents(&self) -> (Vec<u8>, Vec<u64>, u32) {
        let bits = self.bounds.iter().map(|bound| bound.to_bits());
        (self.values.clone(), bits.collect(), self.strict)
    }

    pub fn closed(&self) -> &[u8] {
        &self.closed
    }

    pub fn keep(&mut self) -> (Duration, u64) {
        let Field {
            c, rows, cols, q, ..
        } = &self.field;
        let (v, b, f, u) = (&self.values, &mut self.bounds, &mut self.f, &mut self.u);
        exported!(ombradiec_keep, [c][rows][cols][q][v][mut b](&mut self.strict)[mut f][mut u])
    }

    pub fn pin(&mut self, variable: usize, value: u8) -> (Duration, u64) {
        let Field {
            c, rows, cols, q, ..
        } = &self.field;
        let (v, b) = (&mut self.values, &mut self.bounds);
        exported!(ombradiec_pin, [c][rows][cols][q][mut v][mut b](&mut self.strict)(variable)(value))
    }

    pub fn release(&mut self, variable: usize) -> (Duration, u64) {
        let Field {
            c, rows, cols, q, ..
        } = &self.field;
        let (v, b) = (&mut self.values, &mut self.bounds);
        exported!(ombradiec_release, [c][rows][cols][q][mut v][mut b](&mut self.strict)(variable))
    }

    pub fn close(&mut self) -> (Duration, u64) {
        let Field {
            c, rows, cols, q, ..
        } = &self.field;
        let (v, b, l) = (&self.values, &self.bounds, &mut self.closed);
        let (f, u) = (&mut self.f, &mut self.u);
        exported!(ombradiec_close, [c][rows][cols][q][v][b][mut l][mut f][mut u])
    }
}

/// Start values and constraints, and what is lent to propagation.
pub struct LentRules {
    rules: Rules,
    pub values: Vec<u8>,
    u: Vec<u32>,
}

impl LentRules {
    pub fn new(rules: &Rules) -> Self {
        Self {
            rules: rules.clone(),
            values: rules.start.clone(),
            u: vec![0; 16 * rules.start.len() + 8 * (rules.constraints.len() / 3) + 16],
        }
    }

    pub fn propagate(&mut self) -> (Duration, u64) {
        self.values.copy_from_slice(&self.rules.start);
        let (v, k, u) = (&mut self.values, &self.rules.constraints, &mut self.u);
        exported!(ombradiec_propagate, [mut v][k][mut u])
    }
}
