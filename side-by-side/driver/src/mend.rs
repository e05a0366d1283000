//! A mended entry list, worked out from the requests' words under C-18; the text has no such function.

use std::collections::BTreeMap;
use stream::Case;

/// An output position that there is none.
const NOWHERE: usize = 65_535;

/// What is left of the list, and the changes: input position, kind (0 dropped, 1 moved, 2 joined) and output position.
pub struct Mended {
    pub entries: Vec<(usize, usize, f64)>,
    pub changes: Vec<(usize, usize, usize)>,
}

pub fn mend(case: &Case) -> Mended {
    // By column, then row: the input positions of the entries at each place inside the field, in input order.
    let mut places: BTreeMap<(usize, usize), Vec<usize>> = BTreeMap::new();
    let given: Vec<_> = case.entries().collect();
    for (at, &(row, column, _)) in given.iter().enumerate() {
        if row < case.n() && column < case.n() {
            places.entry((column, row)).or_default().push(at);
        }
    }
    let mut entries = Vec::new();
    let mut changes = Vec::new();
    for (at, &(row, column, _)) in given.iter().enumerate() {
        if row >= case.n() || column >= case.n() {
            changes.push((at, 0, NOWHERE));
        }
    }
    for (&(column, row), positions) in &places {
        let to = entries.len();
        let (first, others) = (positions[0], &positions[1..]);
        let sum = others.iter().fold(given[first].2, |sum, &at| sum + given[at].2);
        entries.push((row, column, sum));
        if first != to {
            changes.push((first, 1, to));
        }
        changes.extend(others.iter().map(|&at| (at, 2, to)));
    }
    changes.sort_unstable();
    Mended { entries, changes }
}
