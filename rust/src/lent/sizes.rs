//! The limits of the calls, and how long the lists that they are lent must be.

/// A start value, or a value found, that is none.
pub const FREE: u8 = 2;

/// The greatest number of variables.
pub const MOST_VARIABLES: usize = 4_096;
/// The greatest number of entries.
pub const MOST_ENTRIES: usize = 32_768;
/// The greatest number of pairs that [`pairs`](super::pairs) examines.
pub const MOST_PAIRS: usize = 250_000;
/// The greatest number of constraints that [`propagate`](super::propagate) and [`allow`](super::allow) take.
pub const MOST_CONSTRAINTS: usize = 65_536;
/// The greatest number of variables of [`allow`](super::allow).
pub const MOST_REACHED: usize = 1_024;

/// The least scratch of floats for n variables and m entries.
pub const fn floats(n: usize, m: usize) -> usize {
    8 * n + 4 * m + 16
}

/// The least scratch of words for n variables and m entries; of [`propagate`](super::propagate) and [`allow`](super::allow) m is the number of constraints.
pub const fn words(n: usize, m: usize) -> usize {
    16 * n + 8 * m + 16
}

/// The least scratch of longs of [`allow`](super::allow) for n variables.
pub const fn longs(n: usize) -> usize {
    128 * n
}

const fn lesser(a: usize, b: usize) -> usize {
    if a < b {
        a
    } else {
        b
    }
}

/// The most constraints that [`probe`](super::probe) finds with n free variables, one for a pair of them; no field has more than 4,096.
///
/// ```
/// assert_eq!(ombradiec::lent::found(4_096), 8_386_560);
/// ```
pub const fn found(n: usize) -> usize {
    match lesser(n, MOST_VARIABLES) {
        0 => 0,
        n => n * (n - 1) / 2,
    }
}

/// The most that [`probe_limited`](super::probe_limited) finds with n free variables: each constraint has a candidate for an end.
pub const fn found_limited(n: usize, candidates: usize) -> usize {
    let n = lesser(n, MOST_VARIABLES);
    found(n) - found(n - lesser(n, candidates))
}

/// The most that [`pairs`](super::pairs) finds with n free variables.
pub const fn found_pairs(n: usize, limit: usize) -> usize {
    lesser(found(n), lesser(limit, MOST_PAIRS))
}
