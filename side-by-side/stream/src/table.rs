//! The requirements' table of answers and its grade, worked out from the case alone.

use crate::{Call, Case};
use std::cmp::Ordering;
use std::collections::BTreeMap;

pub const MOST_VARIABLES: usize = 4_096;
pub const MOST_ENTRIES: usize = 32_768;
pub const MOST_CONSTRAINTS: usize = 65_536;
/// Of variables in `allow`.
pub const MOST_REACHED: usize = 1_024;

/// A refusal's number, and the position of the first entry at fault where it names one.
#[derive(Clone, Copy, Debug, PartialEq, Eq)]
pub struct Refusal {
    pub number: u8,
    pub at: Option<usize>,
}

/// Says whether a test fails on the case.
type Fails = fn(&Case) -> bool;

/// The first test that fails, in the table's order: 1, 2, 14 to 17 as one, 4, 5, the requests' 18, and 6 to 8.
pub fn refusal(case: &Case) -> Option<Refusal> {
    let call = case.call;
    let before: [(u8, bool, Fails); 2] = [
        (1, true, too_many),
        (2, call.has_field(), lists_broken),
    ];
    let after: [(u8, bool, Fails); 6] = [
        (4, call.needs_standard(), diagonal),
        (5, call.has_field(), not_finite),
        (18, call == Call::Mend, sum_not_finite),
        (6, call.has_start(), start_broken),
        (7, true, arguments_broken),
        (8, true, scratch_short),
    ];
    let first = |tests: &[(u8, bool, Fails)]| {
        let failed = tests
            .iter()
            .find(|(_, applies, fails)| *applies && fails(case));
        failed.map(|test| Refusal {
            number: test.0,
            at: None,
        })
    };
    first(&before)
        .or_else(|| fault(case).filter(|_| call.needs_order()))
        .or_else(|| first(&after))
}

/// The most variables that the call takes.
pub fn most_variables(call: Call) -> usize {
    if call == Call::Allow {
        MOST_REACHED
    } else {
        MOST_VARIABLES
    }
}

fn too_many(case: &Case) -> bool {
    case.n() > most_variables(case.call)
}

fn lists_broken(case: &Case) -> bool {
    let m = case.rows.len();
    m != case.columns.len() || m != case.weights.len() || m > MOST_ENTRIES
}

/// The requests, C-12: what is wrong with the first entry at fault, the row before the column and both before order.
fn fault(case: &Case) -> Option<Refusal> {
    let n = case.n();
    let places: Vec<_> = case.entries().map(|(i, j, _)| (j, i)).collect();
    let wrong = |k: usize| {
        let (column, row) = places[k];
        let order = k.checked_sub(1).map(|last| places[last].cmp(&places[k]));
        match order {
            _ if row >= n => Some(14),
            _ if column >= n => Some(15),
            Some(Ordering::Equal) => Some(16),
            Some(Ordering::Greater) => Some(17),
            _ => None,
        }
    };
    (0..places.len()).find_map(|k| {
        wrong(k).map(|number| Refusal {
            number,
            at: Some(k),
        })
    })
}

fn diagonal(case: &Case) -> bool {
    case.entries().any(|(i, j, _)| i == j)
}

fn not_finite(case: &Case) -> bool {
    !case
        .linear
        .iter()
        .chain(&case.weights)
        .all(|x| x.is_finite())
}

/// The requests, C-18: the weights at a place of the field, added in the order of the list, have a sum that is not finite.
fn sum_not_finite(case: &Case) -> bool {
    let mut sums = BTreeMap::new();
    for (i, j, q) in case.entries().filter(|&(i, j, _)| i.max(j) < case.n()) {
        sums.entry((i, j)).and_modify(|sum| *sum += q).or_insert(q);
    }
    sums.values().any(|sum: &f64| !sum.is_finite())
}

fn start_broken(case: &Case) -> bool {
    case.start.len() != case.n()
        || case.start.iter().any(|&v| v > 2)
        || (case.call == Call::Keep && case.least_size != 2 * case.n() as u64)
}

fn arguments_broken(case: &Case) -> bool {
    if case.call.probes_one() {
        let free = usize::try_from(case.variable).is_ok_and(|i| case.start.get(i) == Some(&2));
        return !free || case.value > 1;
    }
    if case.call.takes_constraints() {
        let n = case.n();
        let records = case.constraints.chunks(3);
        return !case.constraints.len().is_multiple_of(3)
            || case.constraints.len() / 3 > MOST_CONSTRAINTS
            || records
                .into_iter()
                .any(|r| r[2] == 0 || r[2] > 15 || r[0] >= r[1] || usize::from(r[1]) >= n);
    }
    false
}

fn scratch_short(case: &Case) -> bool {
    let (floats, words) = case.least_scratch();
    case.floats < floats || case.words < words
}

/// The smallest unit of 2^-20 to 2^20 of which every 2c and q is a whole multiple, at most 2^31 of it: each is tried.
pub fn unit(case: &Case) -> Option<f64> {
    let serves = |weight: f64, unit: f64| {
        let count = weight / unit;
        count.fract() == 0.0 && count.abs() <= 2f64.powi(31) && count * unit == weight
    };
    (-20..=20).map(|k| 2f64.powi(k)).find(|&unit| {
        case.linear.iter().all(|&c| serves(c, unit / 2.0))
            && case.weights.iter().all(|&q| serves(q, unit))
    })
}

/// Exact: standard form, and some unit serves.
pub fn exact(case: &Case) -> bool {
    !diagonal(case) && unit(case).is_some()
}

pub fn grade(case: &Case) -> &'static str {
    if exact(case) {
        "exact"
    } else {
        "inexact"
    }
}
