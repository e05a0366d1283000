//! The closure's run once more, to count its flat rows: the text keeps its rows to itself.

use std::collections::VecDeque;
use stream::Case;

/// A row's two bounds.
#[derive(Clone, Copy)]
struct Row {
    lower: f64,
    upper: f64,
}

impl Row {
    fn add_free(&mut self, coeff: f64) {
        if coeff <= 0.0 {
            self.lower += coeff;
        }
        if coeff >= 0.0 {
            self.upper += coeff;
        }
    }

    fn remove_free(&mut self, coeff: f64) {
        if coeff <= 0.0 {
            self.lower -= coeff;
        }
        if coeff >= 0.0 {
            self.upper -= coeff;
        }
    }

    fn add_fixed(&mut self, coeff: f64, value: u8) {
        self.lower += coeff * f64::from(value);
        self.upper += coeff * f64::from(value);
    }

    /// The value that the row forces, or 2.
    fn forced(self) -> u8 {
        if self.lower > 0.0 {
            0
        } else if self.upper < 0.0 {
            1
        } else {
            2
        }
    }
}

/// The values at the run's end, and how many free variables have a row there whose two bounds are both 0.
pub fn closure(case: &Case) -> (Vec<u8>, usize) {
    let mut beside = vec![Vec::new(); case.n()];
    for (i, j, q) in case.entries() {
        beside[i].push((j, 0.5 * q));
        beside[j].push((i, 0.5 * q));
    }
    let mut values = case.start.clone();
    let mut rows: Vec<Row> = Vec::new();
    for (i, &c) in case.linear.iter().enumerate() {
        let mut row = Row { lower: c, upper: c };
        for &(j, coeff) in &beside[i] {
            match values[j] {
                2 => row.add_free(coeff),
                value => row.add_fixed(coeff, value),
            }
        }
        rows.push(row);
    }
    let mut queue = VecDeque::new();
    for i in 0..values.len() {
        if values[i] == 2 && rows[i].forced() < 2 {
            values[i] = rows[i].forced();
            queue.push_back(i);
        }
    }
    while let Some(i) = queue.pop_front() {
        for &(t, coeff) in &beside[i] {
            if values[t] == 2 {
                rows[t].remove_free(coeff);
                rows[t].add_fixed(coeff, values[i]);
                values[t] = rows[t].forced();
                if values[t] < 2 {
                    queue.push_back(t);
                }
            }
        }
    }
    let is_flat = |i: &usize| values[*i] == 2 && rows[*i].lower == 0.0 && rows[*i].upper == 0.0;
    let flat = (0..values.len()).filter(is_flat).count();
    (values, flat)
}
