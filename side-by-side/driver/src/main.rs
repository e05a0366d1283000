//! Answers a stream of cases with the Rust text: cases on standard input, one line a case on standard output.

mod allow;
mod flat;
mod kept;
mod mend;
mod reason;

use hercules::constraint::{Constraint, ConstraintType};
use hercules::qubo::Qubo;
use hercules::{door, preprocess, variable_reduction, FixedVarMap};
use ndarray::Array1;
use sprs::CsMat;
use std::io::{self, BufReader, BufWriter, Write};
use stream::line::{line, Answer, Done};
use stream::{table, Call, Case, MOST_PAIRS};

fn main() -> io::Result<()> {
    let mut input = BufReader::with_capacity(1 << 20, io::stdin().lock());
    let mut output = BufWriter::with_capacity(1 << 20, io::stdout().lock());
    while let Some(case) = Case::read(&mut input)? {
        writeln!(output, "{}", line(&case, &answer(&case)))?;
    }
    output.flush()
}

/// The refusals are worked out here from the requirements' table, the flat rows by the run once more, and reasons, records, mended lists and what constraints allow from the requests' words; all else is the text's.
fn answer(case: &Case) -> Answer {
    if let Some(refusal) = table::refusal(case) {
        return Answer::Refused(refusal);
    }
    let given = map_of(&case.start);
    let mut done = Done::default();
    match case.call {
        Call::Reason => match reason::reason(case) {
            Ok(reason) => {
                done.variables = Some(reason.listed.clone());
                done.reason = Some(reason);
            }
            Err(number) => return Answer::NoReason(number),
        },
        Call::Mend => {
            let mended = mend::mend(case);
            done.changes = Some(mended.changes);
            done.entries = Some(mended.entries);
        }
        Call::Keep if !table::exact(case) => return Answer::NoReason(12),
        Call::Keep => {
            let mut kept = kept::after_script(case);
            if case.found_room as usize == case.n() {
                let found = list_of(case.n(), &door::closure(&field(case), map_of(&kept.values)));
                let mut current = case.clone();
                current.start.clone_from(&kept.values);
                let (again, flat) = flat::closure(&current);
                assert_eq!(again, found, "the run once more ends in other values");
                kept.closing = Some((flat, found));
            }
            done.kept = Some(kept);
        }
        Call::Allow => done.allowed = Some(allow::allow(case)),
        Call::Propagation => match propagation(case, given) {
            Some(values) => done.values = Some(list_of(case.n(), &values)),
            None => return Answer::Clash,
        },
        _ => work(case, &field(case), given, &mut done),
    }
    if fits(case, &done) {
        Answer::Done(done)
    } else {
        Answer::NoRoom
    }
}

fn work(case: &Case, qubo: &Qubo, given: FixedVarMap, done: &mut Done) {
    let n = case.n();
    let probed = case.variable as usize;
    match case.call {
        Call::Closure => {
            let values = list_of(n, &door::closure(qubo, given));
            let (again, count) = flat::closure(case);
            assert_eq!(again, values, "the run once more ends in other values");
            done.values = Some(values);
            done.flat = Some(count);
        }
        Call::Components => {
            let values = preprocess::solve_small_components(qubo, &given, 10);
            done.values = Some(list_of(n, &values));
        }
        Call::Preprocess => {
            let values = preprocess::preprocess_qubo(qubo, &given, true);
            done.values = Some(list_of(n, &values));
        }
        Call::Heavy => {
            let values = preprocess::preprocess_qubo_heavy(qubo, &given, true);
            done.values = Some(list_of(n, &values));
        }
        Call::SingleProbe => {
            let found = door::single_probe(qubo, &given, probed, case.value as usize);
            done.found = Some(list_of(n, &found));
        }
        Call::ColdProbe => {
            let mut assumed = given.clone();
            assumed.insert(probed, case.value as usize);
            let mut found = door::closure(qubo, assumed);
            found.retain(|i, _| !given.contains_key(i));
            done.found = Some(list_of(n, &found));
        }
        // The text has no cold form of these two: the port's is held to the fast one.
        Call::Probe | Call::ColdFull => {
            probed_all(done, n, variable_reduction::probe(qubo, &given, true));
        }
        Call::LimitedProbe | Call::ColdLimited => {
            let limit = usize::try_from(case.limit).unwrap_or(usize::MAX);
            let answer = variable_reduction::probe_limited(qubo, &given, true, limit);
            probed_all(done, n, answer);
        }
        Call::Pairs => pairs(case, qubo, &given, done),
        Call::Anchors => {
            let least_size = usize::try_from(case.least_size).unwrap_or(usize::MAX);
            done.variables = Some(door::anchors(qubo, &given, least_size));
        }
        Call::NoEffect => done.variables = Some(preprocess::find_no_effect_variables(qubo)),
        Call::Shift => field_back(done, &preprocess::shift_qubo(qubo)),
        Call::SubProblem => {
            let (reduced, places, constant) = preprocess::make_sub_problem(qubo, &given);
            field_back(done, &reduced);
            done.constant = Some(constant);
            let mut kept: Vec<_> = places.into_iter().map(|(old, new)| (new, old)).collect();
            kept.sort_unstable();
            assert!(kept.iter().enumerate().all(|(at, pair)| at == pair.0));
            done.variables = Some(kept.into_iter().map(|pair| pair.1).collect());
        }
        Call::Propagation | Call::Allow | Call::Reason | Call::Mend | Call::Keep => unreachable!("these are worked elsewhere"),
    }
}

/// The field column by column, as the text stores it.
fn field(case: &Case) -> Qubo {
    let n = case.n();
    let mut offsets = vec![0; n + 1];
    for &column in &case.columns {
        offsets[usize::from(column) + 1] += 1;
    }
    for column in 0..n {
        offsets[column + 1] += offsets[column];
    }
    let rows = case.rows.iter().map(|&i| usize::from(i)).collect();
    Qubo::new_with_c(
        CsMat::new_csc((n, n), offsets, rows, case.weights.clone()),
        Array1::from_vec(case.linear.clone()),
    )
}

fn map_of(values: &[u8]) -> FixedVarMap {
    values
        .iter()
        .enumerate()
        .filter(|(_, &v)| v < 2)
        .map(|(i, &v)| (i, usize::from(v)))
        .collect()
}

fn list_of(n: usize, values: &FixedVarMap) -> Vec<u8> {
    assert!(values.iter().all(|(&i, &v)| i < n && v < 2));
    (0..n)
        .map(|i| values.get(&i).map_or(2, |&v| v as u8))
        .collect()
}

fn probed_all(
    done: &mut Done,
    n: usize,
    (set, values): (variable_reduction::ProbedEquationSet, FixedVarMap),
) {
    done.constraints = Some(stream::merged(set.constraints.iter().map(Constraint::forbidden)));
    done.found = Some(list_of(n, &values));
}

/// The text looks at every pair up to its own limit, so the first of them by the case's limit are taken.
fn pairs(case: &Case, qubo: &Qubo, given: &FixedVarMap, done: &mut Done) {
    let limit = case.limit.min(MOST_PAIRS);
    let mut rank = vec![0; case.n()];
    let mut free = 0;
    for (i, &value) in case.start.iter().enumerate() {
        rank[i] = free;
        free += u64::from(value == 2);
    }
    let examined = |&(i, j, _): &(usize, usize, usize)| {
        let (a, b) = (rank[i], rank[j]);
        a * (2 * free - a - 1) / 2 + (b - a - 1) < limit
    };
    done.pairs = Some(limit.min(free * free.saturating_sub(1) / 2));
    let all = door::pairs(qubo, given);
    done.constraints = Some(stream::merged(all.iter().map(Constraint::forbidden).filter(examined)));
}

fn propagation(case: &Case, given: FixedVarMap) -> Option<FixedVarMap> {
    // The kind that forbids 00, 01, 10 or 11 alone: one constraint for each bit of a record.
    const ALONE: [ConstraintType; 4] = [
        ConstraintType::AtLeastOne,
        ConstraintType::GreaterThan,
        ConstraintType::LessThan,
        ConstraintType::NoMoreThanOne,
    ];
    let of_record = |r: &[u16]| {
        let (i, j, set) = (r[0].into(), r[1].into(), r[2]);
        (0..4).filter_map(move |bit| {
            (set >> bit & 1 == 1).then(|| Constraint::new(i, j, ALONE[bit]))
        })
    };
    let constraints: Vec<_> = case.constraints.chunks_exact(3).flat_map(of_record).collect();
    door::propagation(case.n(), &constraints, given)
}

/// The field that a call hands back, its entries sorted by column, then row.
fn field_back(done: &mut Done, qubo: &Qubo) {
    done.linear = Some(qubo.c.to_vec());
    let mut entries: Vec<_> = qubo.q.iter().map(|(&q, (i, j))| (i, j, q)).collect();
    entries.sort_by_key(|&(i, j, _)| (j, i));
    done.entries = Some(entries);
}

/// Answer 9 is given exactly if an answer list is too short, or the list of values found is not n long.
fn fits(case: &Case, done: &Done) -> bool {
    let constraints = done.constraints.as_ref().map_or(0, Vec::len);
    let variables = done.variables.as_ref().map_or(0, Vec::len);
    let changes = done.changes.as_ref().map_or(0, Vec::len);
    if let Some(allowed) = &done.allowed {
        return allowed.assignment.len() <= case.found_room as usize
            && allowed.counts.len() <= case.variable_room as usize;
    }
    (done.found.is_none() || case.found_room as usize == case.n())
        && constraints.max(changes) <= case.constraint_room as usize / 3
        && variables <= case.variable_room as usize
}
