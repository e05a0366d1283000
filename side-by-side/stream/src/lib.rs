//! The case stream of docs/CASES.md, the refusals of the requirements' table, and the words of an answer line.

use std::collections::BTreeMap;

mod case;
pub mod line;
pub mod table;

pub use case::{Call, Case, CALLS};

/// The pairs that a kind forbids, as four bits 00, 01, 10, 11 from the lowest.
pub const FORBIDDEN: [usize; 6] = [0b0001, 0b1001, 0b1000, 0b0010, 0b0100, 0b0110];

/// What constraints forbid, as (first, second) with four bits over the values of both, in records merged by pair and rising by it.
pub fn merged(
    forbidden: impl IntoIterator<Item = (usize, usize, usize)>,
) -> Vec<(usize, usize, usize)> {
    let mut sets = BTreeMap::new();
    for (first, second, set) in forbidden {
        let turned = (set & 0b1001) | (set & 0b0010) << 1 | (set & 0b0100) >> 1;
        let pair = (first.min(second), first.max(second));
        *sets.entry(pair).or_insert(0) |= if first < second { set } else { turned };
    }
    sets.into_iter().map(|((i, j), set)| (i, j, set)).collect()
}

/// The count of pairs that no limit passes.
pub const MOST_PAIRS: u64 = 250_000;
