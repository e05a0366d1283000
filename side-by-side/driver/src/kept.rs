//! The requests' C-19 once more, from its words: the record is made anew after each operation.

use stream::line::Kept;
use stream::{table, Case};

/// The record of the values: each free variable's two bounds, 0 for others, lower ones first, and the number of strict rows.
fn made(case: &Case, values: &[u8]) -> (Vec<f64>, usize) {
    let n = case.n();
    let mut bounds: Vec<f64> = case.linear.iter().chain(&case.linear).copied().collect();
    for (i, j, q) in case.entries() {
        for (at, other) in [(i, j), (j, i)] {
            let term = 0.5 * q;
            let (low, high) = match values[other] {
                2 => (term.min(0.0), term.max(0.0)),
                value => (term * f64::from(value), term * f64::from(value)),
            };
            bounds[at] += low;
            bounds[n + at] += high;
        }
    }
    for i in 0..n {
        for at in [i, n + i] {
            // No stored bound is -0.0.
            bounds[at] = if values[i] == 2 {
                bounds[at] + 0.0
            } else {
                0.0
            };
        }
    }
    let strict = |&i: &usize| values[i] == 2 && (bounds[i] > 0.0 || bounds[n + i] < 0.0);
    let strict = (0..n).filter(strict).count();
    (bounds, strict)
}

/// The operations of the script: 0 pins, any other number releases. The number of its answer, and the values after it.
fn operated(case: &Case, values: &mut [u8], operation: &[u16]) -> u8 {
    let (i, value) = (usize::from(operation[1]), operation[2]);
    let free = values.get(i).map(|&v| v == 2);
    match (operation[0], free) {
        (0, Some(true)) if value <= 1 => values[i] = value as u8,
        (1.., Some(false)) => values[i] = 2,
        _ => return 7,
    }
    assert!(i < case.n());
    0
}

/// The record that is left, on a field that is exact; the closing call is left to the text.
pub fn after_script(case: &Case) -> Kept {
    assert!(table::exact(case));
    let mut values = case.start.clone();
    let operations: Vec<u8> = case
        .constraints
        .chunks_exact(3)
        .map(|operation| operated(case, &mut values, operation))
        .collect();
    let (bounds, strict) = made(case, &values);
    Kept {
        operations,
        values,
        bounds,
        strict,
        closing: None,
    }
}
