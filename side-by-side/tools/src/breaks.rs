//! Ways to break a case so that a given test fails.

use crate::random::Random;
use stream::{table, Call, Case};

/// Breaks the case so that the numbered test fails where the call makes it; says whether it does. The order of entries, 14 to 17, is the third.
pub fn break_case(random: &mut Random, case: &mut Case, number: u8) -> bool {
    let call = case.call;
    match number {
        1 => too_many(random, case),
        2 if call.has_field() => break_lists(random, case),
        3 if call.needs_order() => break_order(random, case),
        4 if call.needs_standard() && case.n() > 0 => add_diagonal(random, case),
        5 if call.has_field() => return break_weight(random, case),
        6 if call.has_start() => break_start(random, case),
        7 if call.probes_one() => break_probe(random, case),
        7 if call.takes_constraints() => break_constraints(random, case),
        8 if call.takes_words() => cut_scratch(random, case),
        9 if call == Call::Allow => return cut_lists(random, case),
        9 if call.finds_constraints()
            || call.finds_changes()
            || call.finds_values()
            || call.finds_variables() =>
        {
            cut_room(random, case);
        }
        _ => return false,
    }
    true
}

fn too_many(random: &mut Random, case: &mut Case) {
    let n = table::most_variables(case.call) + 1;
    if case.call == Call::Allow {
        case.variable = random.pick(&[n as u64, 4_096, 65_535]);
    }
    if case.call.has_field() {
        case.linear.resize(n, 0.0);
    }
    if case.call.has_start() && (random.often(500) || !case.call.has_field()) {
        case.start.resize(n, 2);
    }
}

fn break_lists(random: &mut Random, case: &mut Case) {
    let weight = 1.0;
    match random.below(4) {
        0 if case.n() > 40 && random.often(300) => {
            let m = table::MOST_ENTRIES + 1;
            case.rows.resize(m, 0);
            case.columns.resize(m, 1);
            case.weights.resize(m, weight);
        }
        0 => case.rows.push(0),
        1 => case.columns.push(0),
        2 => case.weights.push(weight),
        _ => {
            case.rows.push(0);
            case.weights.push(weight);
        }
    }
}

fn break_order(random: &mut Random, case: &mut Case) {
    let n = case.n() as u16;
    let m = case
        .rows
        .len()
        .min(case.columns.len())
        .min(case.weights.len());
    let at = random.below(m);
    match random.below(6) {
        0 if m > 0 => case.rows[at] = n,
        1 if m > 0 => case.columns[at] = random.pick(&[n, n + 1, u16::MAX]),
        2 if m > 1 => {
            let at = random.below(m - 1);
            case.rows.swap(at, at + 1);
            case.columns.swap(at, at + 1);
        }
        3 if m > 1 => {
            let at = random.below(m - 1);
            case.rows[at + 1] = case.rows[at];
            case.columns[at + 1] = case.columns[at];
        }
        4 if m > 1 => case.columns.reverse(),
        _ => {
            case.rows.push(random.pick(&[n, u16::MAX]));
            case.columns.push(n.saturating_sub(1));
            case.weights.push(1.0);
        }
    }
}

/// Breaks entries in one to three ways, so that faults of all four kinds meet in either order, also at the first and the last entry.
pub fn break_entries(random: &mut Random, case: &mut Case) {
    if case.rows.is_empty() && case.columns.is_empty() && case.weights.is_empty() {
        case.rows.push(0);
        case.columns.push(0);
        case.weights.push(1.0);
    }
    for _ in 0..random.pick(&[1, 2, 2, 3]) {
        break_entry(random, case);
    }
}

fn break_entry(random: &mut Random, case: &mut Case) {
    let n = case.n() as u16;
    let m = case.rows.len().min(case.columns.len());
    if m == 0 {
        return;
    }
    let any = random.below(m);
    let at = random.pick(&[0, m - 1, any, any]);
    let far = random.pick(&[n, n + 1, u16::MAX]);
    let earlier = random.below(at + 1);
    let other = random.pick(&[at.saturating_sub(1), earlier]);
    match random.below(6) {
        0 => case.rows[at] = far,
        1 => case.columns[at] = far,
        2 => (case.rows[at], case.columns[at]) = (far, n),
        3 => (case.rows[at], case.columns[at]) = (case.rows[other], case.columns[other]),
        4 => {
            case.rows.swap(at, other);
            case.columns.swap(at, other);
        }
        _ => case.rows.swap(at, other),
    }
}

fn add_diagonal(random: &mut Random, case: &mut Case) {
    let i = random.below(case.n()) as u16;
    let m = case
        .rows
        .len()
        .min(case.columns.len())
        .min(case.weights.len());
    let at = (0..m)
        .find(|&at| (case.columns[at], case.rows[at]) >= (i, i))
        .unwrap_or(m);
    if at < m && (case.columns[at], case.rows[at]) == (i, i) {
        return;
    }
    case.rows.insert(at, i);
    case.columns.insert(at, i);
    case.weights.insert(at, random.pick(&[0.0, 2.0]));
    case.floats += 4;
    case.words += 8;
}

fn break_weight(random: &mut Random, case: &mut Case) -> bool {
    let bad = random.pick(&[f64::NAN, -f64::NAN, f64::INFINITY, f64::NEG_INFINITY]);
    let (n, m) = (case.linear.len(), case.weights.len());
    if n > 0 && (m == 0 || random.often(500)) {
        case.linear[random.below(n)] = bad;
    } else if m > 0 {
        case.weights[random.below(m)] = bad;
    }
    n + m > 0
}

fn break_start(random: &mut Random, case: &mut Case) {
    let length = case.start.len();
    if case.call == Call::Keep && random.often(400) {
        let n = case.n() as u64;
        case.least_size = random.pick(&[0, n, 2 * n + 1, 2 * n + 2]) + u64::from(n == 0);
        return;
    }
    match random.below(4) {
        0 if case.call.has_field() => case.start.push(2),
        1 if case.call.has_field() && length > 0 => {
            case.start.pop();
        }
        _ if length > 0 => case.start[random.below(length)] = random.pick(&[3, 4, 128, 255]),
        _ => case.start.push(3),
    }
}

fn break_probe(random: &mut Random, case: &mut Case) {
    let fixed: Vec<_> = (0..case.start.len())
        .filter(|&i| case.start[i] != 2)
        .collect();
    match random.below(4) {
        0 => case.value = random.pick(&[2, 3, 255]),
        1 => case.variable = case.n() as u64,
        2 if !fixed.is_empty() => case.variable = random.pick(&fixed) as u64,
        _ => case.variable = random.pick(&[case.n() as u64 + 1, 4_096, 65_535]),
    }
}

fn break_constraints(random: &mut Random, case: &mut Case) {
    let n = case.n() as u16;
    if n > 12 && random.often(60) {
        let good = [0, 1, 1].iter().cycle();
        case.constraints = good
            .take(3 * (table::MOST_CONSTRAINTS + 1))
            .copied()
            .collect();
        case.words = case.least_scratch().1.min(589_900);
        return;
    }
    let bad = match random.below(6) {
        0 => vec![0, 1, random.pick(&[0, 16, 17, u16::MAX])],
        1 => vec![0, 0, 6],
        2 => vec![1, 0, 6],
        3 => vec![0, n, 2],
        4 => vec![0],
        _ => vec![0, 1],
    };
    if random.often(500) {
        case.constraints.splice(0..0, bad);
    } else {
        case.constraints.extend(bad);
    }
    case.words += 8;
}

fn cut_scratch(random: &mut Random, case: &mut Case) {
    // Far more variables than `allow` takes ask for more than any case has.
    let (floats, words) = case.least_scratch();
    let (floats, words) = (floats.min(131_072), words.min(589_900));
    if floats > 0 && random.often(500) {
        case.floats = random.pick(&[floats - 1, floats - 1, 0]);
    } else {
        case.words = random.pick(&[words - 1, words - 1, 0]);
    }
}

/// One of the two answer lists of `allow` is too short; with no variables none can be.
fn cut_lists(random: &mut Random, case: &mut Case) -> bool {
    let n = case.n().min(table::MOST_REACHED) as u32;
    if n == 0 {
        return false;
    }
    if random.often(500) {
        case.found_room = random.pick(&[0, n - 1]);
    } else {
        case.variable_room = random.pick(&[0, n, 2 * n - 1]);
    }
    true
}

fn cut_room(random: &mut Random, case: &mut Case) {
    let n = case.n() as u32;
    if case.call.finds_values() && random.often(500) {
        case.found_room = random.pick(&[n + 1, n.saturating_sub(1), 0]);
    }
    if case.call.finds_constraints() {
        case.constraint_room = random.pick(&[0, 1, 2, 3, 5]);
    }
    if case.call.finds_variables() {
        case.variable_room = random.pick(&[0, 0, 1]);
    }
    if case.call.probes_one() || case.call == Call::Keep {
        case.found_room = random.pick(&[n + 1, n.saturating_sub(1)]);
    }
}
