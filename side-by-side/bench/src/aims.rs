//! What the issue of speed asks of each call.

use crate::fields::CLIQUES;

/// The shapes that a closure is to pass with twice the Rust's speed.
const PLAIN: [&str; 4] = ["random", "chain", "grid", "star"];

/// A bound for one call on some shapes; on all of them where none are named.
pub struct Aim {
    pub call: &'static str,
    pub shapes: &'static [&'static str],
    pub bound: Bound,
}

/// The least ratio to the Rust's time, the greatest to one read of the input and one clearing, and the greatest growth of the
/// time for a doubling of n.
pub enum Bound {
    Ratio(f64),
    Floor(f64),
    Growth(f64),
}

const fn ratio(call: &'static str, least: f64, shapes: &'static [&'static str]) -> Aim {
    let bound = Bound::Ratio(least);
    Aim {
        call,
        shapes,
        bound,
    }
}

/// For shift, anchors, probe_one and propagation the bound is what they had before the mends, on Arm, rounded down to a tenth;
/// closing from a record has that of the closure, which stands beside it. The other calls of a record and mend have no like in the
/// text, and no bound.
pub const AIMS: &[Aim] = &[
    ratio("closure", 1.4, &[]),
    ratio("closure", 2.0, &PLAIN),
    ratio("components", 1.3, &[]),
    ratio("preprocess", 1.4, &[]),
    ratio("preprocess", 2.0, &PLAIN),
    Aim {
        call: "no_effect",
        shapes: &[],
        bound: Bound::Floor(2.5),
    },
    ratio("shift", 5.1, &[]),
    ratio("sub_problem", 2.0, &[]),
    ratio("close", 1.4, &[]),
    ratio("anchors", 1.1, &[]),
    ratio("pairs", 1.1, &[]),
    ratio("probe_one", 1.3, &[]),
    ratio("propagate", 4.0, &[]),
    ratio("probe_limited", 1.7, &[]),
    ratio("probe_limited", 10.0, &CLIQUES),
    ratio("heavy", 1.7, &[]),
    ratio("heavy", 10.0, &CLIQUES),
    ratio("probe", 1.7, &[]),
    ratio("probe", 10.0, &CLIQUES),
    Aim {
        call: "probe",
        shapes: &[],
        bound: Bound::Growth(4.5),
    },
];
