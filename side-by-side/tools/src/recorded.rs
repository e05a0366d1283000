//! The recorded set: the requirements' worked values, every refusal alone and in pairs, sizes at the limits, small random cases, and lists with one or more entries at fault.

use crate::breaks;
use crate::make;
use crate::random::Random;
use stream::{table, Call, Case, CALLS};

const TWO_61: f64 = 2_305_843_009_213_693_952.0;

/// One worked value: a name, the linear weights, the entries and the start values.
pub type Worked = (
    &'static str,
    &'static [f64],
    &'static [(u16, u16, f64)],
    &'static [u8],
);

/// The requirements' values a to n, its two run and compared, and the requests' examples under C-14 and C-17.
pub const WORKED: [Worked; 18] = [
    ("a", &[], &[], &[]),
    ("b", &[0.0], &[], &[2]),
    ("c", &[0.5], &[], &[2]),
    ("d", &[-0.5], &[], &[2]),
    ("e", &[0.0, 0.0], &[(0, 1, 2.0)], &[2, 2]),
    ("f", &[0.0, 0.0], &[(0, 1, -2.0)], &[2, 2]),
    ("g", &[-5.0, -1.0], &[(0, 1, 4.0)], &[2, 2]),
    ("h", &[-5.0, -1.0], &[(0, 1, 4.0)], &[0, 2]),
    ("i", &[-1.0, -1.0], &[(0, 1, 4.0)], &[2, 2]),
    ("j", &[-1.0, -1.0], &[(0, 1, 6.0)], &[2, 2]),
    ("m", &[-0.5, -0.5], &[(0, 1, 2.0)], &[2, 2]),
    ("n", &[-1.0, -5.0], &[(0, 1, 4.0)], &[2, 2]),
    ("one record", &[1.0, 0.0], &[(0, 1, -2.0)], &[2, 2]),
    ("small", &[1e-10, 0.0], &[], &[2, 2]),
    (
        "swallowed",
        &[-1.0, TWO_61, -2.0, -0.25],
        &[(0, 1, -TWO_61), (0, 2, 1.0), (0, 3, 2.0)],
        &[2, 2, 2, 2],
    ),
    ("cold", &[1.0, 0.0], &[(0, 1, -TWO_61)], &[2, 2]),
    ("cold, turned", &[1.0, 0.0], &[(1, 0, -TWO_61)], &[2, 2]),
    ("both", &[-1.0, 2.0], &[(1, 0, 4.0), (0, 1, -4.0)], &[2, 2]),
];

/// The requests' rows under C-13: flat by a stored zero, after a neighbour was forced, of a given variable, and in the run's rows alone.
pub const FLAT: [Worked; 4] = [
    ("stored zero", &[0.0, 0.0], &[(0, 1, 0.0)], &[2, 2]),
    ("neighbour", &[-5.0, -1.0], &[(0, 1, 2.0)], &[2, 2]),
    ("given", &[0.0], &[], &[0]),
    (
        "cancelling",
        &[1.0, TWO_61],
        &[(1, 0, TWO_61), (0, 1, -TWO_61)],
        &[2, 2],
    ),
];

/// The requests' reasons under C-11: both entries counted, a neighbour that waits left out, a stored zero listed, and a coarse unit.
pub const REASONS: [Worked; 4] = [
    (
        "both ways",
        &[-5.0, -1.0],
        &[(1, 0, 4.0), (0, 1, 1.0)],
        &[2, 2],
    ),
    (
        "waiting",
        &[-5.0, -5.0, -1.0],
        &[(0, 2, 4.0), (1, 2, 4.0)],
        &[2, 2, 2],
    ),
    ("zero listed", &[-1.0, 0.0], &[(0, 1, 0.0)], &[2, 1]),
    ("coarse", &[-1_099_511_627_776.0], &[], &[2]),
];

/// Values of the smaller problem, the requests' C-21: one entry of each kind, diagonals, all given, and weights that leave -0.0 or the exact ones.
pub const SMALLER: [Worked; 7] = [
    ("g, given", &[-5.0, -1.0], &[(0, 1, 4.0)], &[1, 2]),
    (
        "crossed",
        &[-5.0, -1.0, 3.0],
        &[(1, 0, 2.0), (0, 1, 4.0), (0, 2, -6.0), (1, 2, 8.0)],
        &[2, 1, 2],
    ),
    (
        "diagonals",
        &[1.0, 2.0],
        &[(0, 0, 4.0), (1, 1, 6.0)],
        &[1, 2],
    ),
    ("all given", &[2.0], &[], &[1]),
    ("minus zero", &[-0.0], &[], &[2]),
    (
        "left inexact",
        &[1_073_741_824.0, 0.0],
        &[(0, 1, 1.0)],
        &[2, 1],
    ),
    ("overflow", &[1e308, 0.0], &[(0, 1, 1.7e308)], &[2, 1]),
];

/// The worked value as a case of the call, with room for every answer.
pub fn worked_case(call: Call, worked: &Worked) -> Case {
    let mut case = Case::new(call);
    if call.has_field() {
        case.linear = worked.1.to_vec();
        case.rows = worked.2.iter().map(|e| e.0).collect();
        case.columns = worked.2.iter().map(|e| e.1).collect();
        case.weights = worked.2.iter().map(|e| e.2).collect();
    }
    // The requirements order entries by column, so a list given by rows is put in order.
    let mut entries: Vec<_> = case
        .entries()
        .map(|(i, j, q)| (j as u16, i as u16, q))
        .collect();
    entries.sort_by_key(|e| (e.0, e.1));
    case.columns = entries.iter().map(|e| e.0).collect();
    case.rows = entries.iter().map(|e| e.1).collect();
    case.weights = entries.iter().map(|e| e.2).collect();
    if call.has_start() {
        case.start = worked.3.to_vec();
    }
    ample(&mut case);
    case
}

/// What constraints allow, the requests' C-20: a name, the number of variables and the records.
pub const ALLOWED: [(&str, u64, &[u16]); 9] = [
    ("both kinds", 2, &[0, 1, 6, 0, 1, 9]),
    ("all four", 2, &[0, 1, 15]),
    ("exactly one", 2, &[0, 1, 9]),
    ("x0 is 1", 2, &[0, 1, 3]),
    ("chain", 3, &[0, 1, 1, 1, 2, 6]),
    ("forced", 3, &[0, 2, 4, 1, 2, 12, 0, 1, 1]),
    ("x1 is neither", 3, &[1, 2, 3, 1, 2, 12]),
    ("no variables", 0, &[]),
    ("no records", 1, &[]),
];

/// The case of so many variables and these records, with room for its answer.
pub fn allow_case(variables: u64, constraints: &[u16]) -> Case {
    let mut case = Case::new(Call::Allow);
    case.variable = variables;
    case.constraints = constraints.to_vec();
    ample(&mut case);
    case
}

/// Gives the case room for every answer and the least scratch.
pub fn ample(case: &mut Case) {
    let n = case.n() as u32;
    let call = case.call;
    case.found_room = if call.finds_values() { n } else { 0 };
    case.constraint_room = if call.finds_constraints() {
        3 * n * n
    } else if call.finds_changes() {
        3 * case.weights.len() as u32
    } else {
        0
    };
    case.variable_room = if call.finds_variables() { n } else { 0 };
    if call == Call::Allow {
        (case.found_room, case.variable_room) = (n, 2 * n);
    }
    (case.floats, case.words) = case.least_scratch();
    case.limit = if call.takes_candidates() || call == Call::Pairs {
        1_000
    } else {
        0
    };
    case.least_size = match call {
        Call::Anchors => 2,
        Call::Keep => 2 * u64::from(n),
        _ => 0,
    };
}

/// Seeds of small random cases on which a near miss answers otherwise: pairs merged, forcing at a bound of 0, no queue or a
/// last-in one, rows worked out afresh or summed in another order, ties to the highest mask, sorted bits, stored zeros passed over,
/// one round of the heavy call, the first value kept, a bound equal to the tolerance, rounded sums of anchors.
const SHARP: [(Call, &[u64]); 13] = [
    (
        Call::Closure,
        &[
            1, 3, 4, 5, 20, 28, 35, 91, 210, 246, 247, 412, 518, 578, 1158, 1411, 1605, 2429, 4506,
            7199, 8489, 9646, 11830, 16539,
        ],
    ),
    (
        Call::Components,
        &[
            2, 4, 5, 7, 28, 34, 53, 57, 59, 72, 130, 135, 182, 199, 207, 258, 333, 824, 1139,
            16989, 20885, 32642,
        ],
    ),
    (
        Call::Preprocess,
        &[58, 116, 209, 412, 880, 1158, 1453, 2122, 2357, 2712, 2904],
    ),
    (
        Call::Heavy,
        &[35, 62, 213, 385, 589, 1535, 1674, 1878, 2062, 2662, 2715],
    ),
    (Call::SingleProbe, &SHARP_PROBES),
    (Call::ColdProbe, &SHARP_PROBES),
    (Call::Probe, &SHARP_FULL),
    (Call::LimitedProbe, &SHARP_LIMITED),
    (Call::ColdFull, &SHARP_FULL),
    (Call::ColdLimited, &SHARP_LIMITED),
    (
        Call::Pairs,
        &[
            7, 11, 16, 59, 89, 115, 121, 139, 175, 199, 267, 371, 934, 2506, 3484, 3529,
        ],
    ),
    (
        Call::Anchors,
        &[
            1, 2, 16, 17, 26, 28, 36, 82, 99, 301, 381, 414, 507, 532, 746,
        ],
    ),
    (Call::NoEffect, &[0, 49, 52]),
];

const SHARP_PROBES: [u64; 16] = [
    121, 246, 247, 495, 518, 1022, 1149, 1605, 1710, 3401, 4523, 11830, 12000, 33095, 39789, 47042,
];

const SHARP_FULL: [u64; 14] = [
    3, 19, 31, 37, 59, 65, 70, 90, 95, 205, 412, 1453, 12208, 14388,
];

const SHARP_LIMITED: [u64; 8] = [3, 4, 7, 42, 90, 12208, 14388, 25893];

/// The least number of recorded cases, however few the calls.
const LEAST: usize = 2_100;

/// Every recorded case of the given calls, in the order of the codes; what came with the requests stands last, so that the others keep their places.
pub fn recorded(calls: &[Call]) -> Vec<Case> {
    let mut cases = Vec::new();
    let last = [Call::SubProblem, Call::Keep, Call::Mend, Call::Allow, Call::ColdFull, Call::ColdLimited];
    let asked = |call: &Call| calls.contains(call) && !last.contains(call);
    let earlier: Vec<Call> = CALLS.iter().map(|row| row.0).filter(asked).collect();
    for &call in &earlier {
        worked(call, &mut cases);
        refusals(call, &mut cases);
        limits(call, &mut cases);
        sharp(call, &mut cases);
    }
    let each = LEAST
        .saturating_sub(cases.len())
        .div_ceil(earlier.len().max(1));
    for &call in &earlier {
        small(call, each.max(75), &mut cases);
    }
    for &call in &earlier {
        if call.has_field() {
            faults(call, &mut cases);
        }
    }
    if calls.contains(&Call::Closure) {
        cases.extend(FLAT.iter().map(|flat| worked_case(Call::Closure, flat)));
    }
    if calls.contains(&Call::SubProblem) {
        smaller(&mut cases);
    }
    if calls.contains(&Call::Keep) {
        keeping(&mut cases);
    }
    if calls.contains(&Call::Mend) {
        mended(&mut cases);
    }
    if calls.contains(&Call::Allow) {
        allowing(&mut cases);
    }
    probing_cold(calls, &mut cases);
    cases
}

/// Records, the requests' C-19: the worked one before and after each operation, an operation refused, no -0.0, and both entries of a pair.
pub const KEPT: [(&str, &[f64], &[(u16, u16, f64)], &[u8], &[u16]); 9] = [
    ("made", &ROWS, &PAIRED, &[2, 2, 2], &[]),
    ("pinned", &ROWS, &PAIRED, &[2, 2, 2], &[0, 1, 0]),
    (
        "pinned again",
        &ROWS,
        &PAIRED,
        &[2, 2, 2],
        &[0, 1, 0, 0, 1, 0],
    ),
    ("released", &ROWS, &PAIRED, &[2, 2, 2], &[0, 1, 0, 1, 1, 0]),
    ("other", &ROWS, &PAIRED, &[2, 2, 2], &[0, 0, 1, 1, 2, 0]),
    ("given released", &ROWS, &PAIRED, &[2, 0, 2], &[1, 1, 0]),
    (
        "minus zero",
        &[-0.0, 1.0],
        &[(0, 1, -4.0)],
        &[2, 2],
        &[0, 1, 0],
    ),
    (
        "both ways",
        &[-1.0, 2.0],
        &[(1, 0, 4.0), (0, 1, -4.0)],
        &[2, 2],
        &[0, 1, 1],
    ),
    (
        "refused",
        &ROWS,
        &PAIRED,
        &[2, 2, 2],
        &[0, 3, 0, 0, 0, 2, 1, 0, 0, 1, 3, 0, 2],
    ),
];

const ROWS: [f64; 3] = [-1.0, -5.0, 0.5];

const PAIRED: [(u16, u16, f64); 2] = [(0, 1, 4.0), (1, 2, -2.0)];

/// A record of the list as a case.
pub fn kept_case(
    name: &'static str,
    linear: &'static [f64],
    entries: &'static [(u16, u16, f64)],
    start: &'static [u8],
    script: &[u16],
) -> Case {
    let mut case = worked_case(Call::Keep, &(name, linear, entries, start));
    case.constraints = script.to_vec();
    case
}

/// The cases of records.
fn keeping(cases: &mut Vec<Case>) {
    let call = Call::Keep;
    cases.extend(KEPT.iter().map(|&(name, linear, entries, start, script)| {
        kept_case(name, linear, entries, start, script)
    }));
    worked(call, cases);
    refusals(call, cases);
    limits(call, cases);
    small(call, 200, cases);
    faults(call, cases);
}

/// An entry list to be mended: its name, the number of variables and the entries as they stand.
pub type Listed = (&'static str, usize, &'static [(u16, u16, f64)]);

/// 2^53.
const TWO_53: f64 = 9_007_199_254_740_992.0;

/// The requests' C-18: out of order, a repeat, an entry outside, all of them with a sum that rounds at each step, a sum that is
/// not finite, one only outside, and lists that are good, on the diagonal, empty or without variables.
pub const LISTED: [Listed; 11] = [
    ("out of order", 2, &[(0, 1, 1.0), (1, 0, 2.0)]),
    ("a repeat", 2, &[(0, 1, 1.0), (0, 1, 2.0)]),
    ("outside", 2, &[(5, 0, 1.0), (1, 0, 3.0), (0, 1, -0.0)]),
    (
        "all kinds",
        3,
        &[(2, 1, 1.0), (0, 1, 5.0), (2, 1, -1.0), (7, 7, 4.0), (0, 1, TWO_53), (0, 1, 1.0)],
    ),
    ("not finite", 2, &[(1, 0, 1e308), (1, 0, 1e308), (1, 0, -1e308)]),
    ("dropped alone", 2, &[(9, 9, 1e308), (9, 9, 1e308)]),
    ("turned", 2, &[(1, 0, -1e308), (1, 0, 1e308), (1, 0, 1e308)]),
    ("good", 2, &[(1, 0, -0.0), (0, 1, 0.0)]),
    ("diagonal", 2, &[(1, 1, 4.0), (0, 0, 2.0), (1, 1, -4.0)]),
    ("empty", 2, &[]),
    ("no variables", 0, &[(0, 0, 1.0)]),
];

/// The list as a case, with room for every change.
pub fn listed_case(listed: &Listed) -> Case {
    let mut case = Case::new(Call::Mend);
    case.linear = vec![0.0; listed.1];
    case.rows = listed.2.iter().map(|e| e.0).collect();
    case.columns = listed.2.iter().map(|e| e.1).collect();
    case.weights = listed.2.iter().map(|e| e.2).collect();
    ample(&mut case);
    case
}

/// The cases of mended lists.
fn mended(cases: &mut Vec<Case>) {
    let call = Call::Mend;
    cases.extend(LISTED.iter().map(listed_case));
    // The first without room for its two changes, and the one of 18 with short scratch, which stands after it.
    let mut short = listed_case(&LISTED[0]);
    short.constraint_room = 5;
    cases.push(short);
    let mut cut = listed_case(&LISTED[4]);
    cut.floats -= 1;
    cases.push(cut);
    worked(call, cases);
    refusals(call, cases);
    limits(call, cases);
    small(call, 250, cases);
}

/// The cases of what constraints allow.
fn allowing(cases: &mut Vec<Case>) {
    let call = Call::Allow;
    cases.extend(ALLOWED.iter().map(|row| allow_case(row.1, row.2)));
    for set in 0..=16 {
        cases.push(allow_case(2, &[0, 1, set]));
        cases.push(allow_case(4, &[1, 3, set, 0, 1, 1, 1, 3, 8]));
    }
    refusals(call, cases);
    // One chain of all variables, whose ends are equal or must differ; and one variable too many.
    let chain: Vec<u16> = (0..1_023).flat_map(|i| [i, i + 1, 6]).collect();
    cases.push(allow_case(1_024, &chain));
    cases.push(allow_case(1_024, &[&chain[..], &[0, 1_023, 9]].concat()));
    cases.push(allow_case(1_024, &[]));
    cases.push(allow_case(1_025, &[]));
    small(call, 250, cases);
}

/// The requests' C-14: a rounding that stays on both routes, since the term of a variable that the probe forces is taken out of a row.
pub const STAYS: Worked = (
    "stays",
    &[1.0, TWO_61, 0.0],
    &[(0, 1, -TWO_61), (1, 2, -4.0 * TWO_61)],
    &[2, 2, 2],
);

/// The cold probes of many candidates, and by every probe the rounding that stays.
fn probing_cold(calls: &[Call], cases: &mut Vec<Case>) {
    for &call in calls {
        if call.probes_one() {
            for value in 0..2 {
                let mut case = worked_case(call, &STAYS);
                (case.variable, case.value) = (2, value);
                cases.push(case);
            }
        }
        if call.probes_many() {
            cases.push(worked_case(call, &STAYS));
        }
    }
    for call in [Call::ColdFull, Call::ColdLimited] {
        if calls.contains(&call) {
            worked(call, cases);
            refusals(call, cases);
            limits(call, cases);
            sharp(call, cases);
            small(call, 100, cases);
            faults(call, cases);
        }
    }
}

/// The cases of the smaller problem.
fn smaller(cases: &mut Vec<Case>) {
    let call = Call::SubProblem;
    cases.extend(SMALLER.iter().map(|worked| worked_case(call, worked)));
    worked(call, cases);
    refusals(call, cases);
    limits(call, cases);
    small(call, 200, cases);
    faults(call, cases);
}

/// Small random cases.
fn small(call: Call, count: usize, cases: &mut Vec<Case>) {
    let mut random = Random::new(0x0b5e_55ed + u64::from(call.code()));
    for _ in 0..count {
        cases.push(make::random_case(&mut random, call, true));
    }
}

fn sharp(call: Call, cases: &mut Vec<Case>) {
    // Components above the greatest size and rounds of the heavy call need more variables than the small cases have.
    let small = !matches!(call, Call::Components | Call::Heavy);
    let seeds = SHARP
        .iter()
        .filter(|row| row.0 == call)
        .flat_map(|row| row.1);
    for &seed in seeds {
        cases.push(make::random_case(&mut Random::new(seed), call, small));
    }
}

fn worked(call: Call, cases: &mut Vec<Case>) {
    if call == Call::Propagation {
        // k, then l, then each set with each single start value, and records of one pair apart and unsorted.
        let both = [0, 1, 6, 0, 1, 9];
        cases.push(propagation(&[1, 2], &both));
        cases.push(propagation(&[2, 2], &both));
        cases.push(propagation(&[2, 2], &[]));
        cases.push(propagation(&[], &[]));
        for start in [[2, 2, 2], [0, 2, 2], [2, 1, 2], [2, 2, 1]] {
            cases.push(propagation(&start, &[1, 2, 9, 0, 1, 4, 1, 2, 2, 0, 1, 8]));
            cases.push(propagation(&start, &[0, 1, 12, 1, 2, 11]));
        }
        for set in 1..16 {
            for start in [
                [2, 2],
                [0, 2],
                [1, 2],
                [2, 0],
                [2, 1],
                [0, 0],
                [0, 1],
                [1, 0],
                [1, 1],
            ] {
                cases.push(propagation(&start, &[0, 1, set]));
            }
        }
        for refused in [[1, 0, 6], [0, 1, 0], [0, 1, 16], [0, 0, 6], [0, 2, 6]] {
            cases.push(propagation(&[2, 2], &refused));
        }
        return;
    }
    if call == Call::Reason {
        for worked in WORKED.iter().chain(&REASONS) {
            for i in 0..=worked.1.len() {
                cases.push(reason_case(worked, i as u64));
            }
        }
        return;
    }
    for worked in &WORKED {
        let case = worked_case(call, worked);
        if call.probes_one() {
            for i in 0..case.n() {
                for value in 0..2 {
                    let mut case = case.clone();
                    case.variable = i as u64;
                    case.value = value;
                    cases.push(case);
                }
            }
        } else {
            cases.push(case);
        }
    }
}

/// The reason of one variable of a worked value.
pub fn reason_case(worked: &Worked, variable: u64) -> Case {
    let mut case = worked_case(Call::Reason, worked);
    case.variable = variable;
    case
}

fn propagation(start: &[u8], constraints: &[u16]) -> Case {
    let mut case = Case::new(Call::Propagation);
    case.start = start.to_vec();
    case.constraints = constraints.to_vec();
    ample(&mut case);
    case
}

/// Every refusal alone, several ways, and every two of them together, on a small case.
fn refusals(call: Call, cases: &mut Vec<Case>) {
    let mut random = Random::new(0xb4ea + u64::from(call.code()));
    let base = |random: &mut Random| {
        let mut case = Case::new(call);
        if call.has_field() {
            case.linear = vec![-1.0, -1.0, 0.5];
            case.rows = vec![0, 0, 1];
            case.columns = vec![1, 2, 2];
            case.weights = vec![4.0, -2.0, 6.0];
        }
        if call.has_start() {
            case.start = vec![2, 2, random.pick(&[0, 1, 2, 2])];
        }
        if call.takes_constraints() {
            case.constraints = vec![0, 1, 9, 1, 2, 6];
        }
        if call == Call::Allow {
            case.variable = 3;
        }
        ample(&mut case);
        case
    };
    for number in 2..=9 {
        for _ in 0..5 {
            let mut case = base(&mut random);
            if breaks::break_case(&mut random, &mut case, number) {
                assert_eq!(test_of(&case), Some(number).filter(|&k| k < 9));
                cases.push(case);
            }
        }
        for other in number + 1..=9 {
            let mut case = base(&mut random);
            let second = breaks::break_case(&mut random, &mut case, other);
            if breaks::break_case(&mut random, &mut case, number) && second {
                assert_eq!(test_of(&case), Some(number));
                cases.push(case);
            }
        }
    }
}

/// The place in the table of the test that refuses the case: 14 to 17 stand in the third.
fn test_of(case: &Case) -> Option<u8> {
    table::refusal(case).map(|refusal| {
        if refusal.at.is_some() {
            3
        } else {
            refusal.number
        }
    })
}

/// Lists with an entry at fault: n, the places (row, column), the number and the position.
type Faulty = (usize, &'static [(u16, u16)], u8, usize);

pub const FAULTY: [Faulty; 13] = [
    (2, &[(0, 1), (2, 0)], 14, 1),
    (2, &[(5, 7)], 14, 0),
    (2, &[(0, 9)], 15, 0),
    (2, &[(0, 1), (0, 1)], 16, 1),
    (2, &[(1, 1), (0, 1)], 17, 1),
    (3, &[(0, 1), (0, 1), (3, 0)], 16, 1),
    (0, &[(0, 0)], 14, 0),
    (2, &[(0, 1), (1, 1), (0, 1)], 17, 2),
    (3, &[(0, 1), (3, 1), (0, 1)], 14, 1),
    (3, &[(0, 2), (0, 1), (0, 3)], 17, 1),
    (3, &[(0, 1), (0, 3), (0, 1)], 15, 1),
    (3, &[(1, 0), (0, 1), (u16::MAX, 2)], 14, 2),
    (3, &[(1, 0), (0, 1), (1, u16::MAX)], 15, 2),
];

/// Entries at fault, and random lists with more than one.
fn faults(call: Call, cases: &mut Vec<Case>) {
    let listed = |n: usize, places: &[(u16, u16)]| {
        let mut case = Case::new(call);
        case.linear = vec![1.0; n];
        case.rows = places.iter().map(|place| place.0).collect();
        case.columns = places.iter().map(|place| place.1).collect();
        case.weights = vec![1.0; places.len()];
        if call.has_start() {
            case.start = vec![2; n];
        }
        ample(&mut case);
        case
    };
    for (n, places, number, at) in FAULTY {
        let case = listed(n, places);
        let refusal = table::Refusal {
            number,
            at: Some(at),
        };
        assert_eq!(table::refusal(&case), Some(refusal));
        cases.push(case);
    }
    let mut random = Random::new(0xfa17 + u64::from(call.code()));
    for _ in 0..12 {
        let mut case = listed(4, &[(1, 0), (0, 1), (2, 1), (0, 2), (1, 2), (3, 2), (2, 3)]);
        breaks::break_entries(&mut random, &mut case);
        cases.push(case);
    }
}

/// Sizes at the limits, where the case stays small.
fn limits(call: Call, cases: &mut Vec<Case>) {
    let sized = |n: usize| {
        let mut case = Case::new(call);
        if call.has_field() {
            case.linear = vec![0.0; n];
        }
        if call.has_start() {
            case.start = vec![2; n];
        }
        ample(&mut case);
        case.constraint_room = case.constraint_room.min(3);
        case
    };
    // One variable too many, with no start values where the call takes a field.
    let mut long = sized(4_097);
    if call.has_field() {
        long.start.clear();
    }
    cases.push(long);
    match call {
        Call::Closure | Call::Propagation => cases.push(sized(4_096)),
        Call::Pairs => {
            for (n, limit) in [
                (707, u64::MAX),
                (708, 250_000),
                (708, 249_999),
                (708, 250_001),
            ] {
                let mut case = sized(n);
                case.limit = limit;
                cases.push(case);
            }
        }
        Call::Components => {
            // Chains of 10 and 11 on either side of the greatest size, each with its own least values.
            for n in [9, 10, 11, 12] {
                let mut case = sized(n);
                case.linear = (0..n).map(|i| (i % 3) as f64 - 1.0).collect();
                case.rows = (0..n as u16 - 1).collect();
                case.columns = (1..n as u16).collect();
                case.weights = (1..n).map(|i| (i % 5) as f64 - 2.0).collect();
                ample(&mut case);
                cases.push(case);
            }
        }
        _ => {}
    }
}
