//! Why a value is forced, worked out from the requests' words over whole numbers; the text has no such function.

use std::collections::{BTreeSet, VecDeque};
use stream::line::{Ground, Reason};
use stream::{table, Case};

/// The field in units: 2c, and the other ends of each variable's entries with their q, in the order of the entries.
struct Whole {
    linear: Vec<i64>,
    beside: Vec<Vec<(usize, i64)>>,
}

impl Whole {
    fn of(case: &Case, unit: f64) -> Self {
        let mut beside = vec![Vec::new(); case.n()];
        for (i, j, q) in case.entries() {
            beside[i].push((j, (q / unit) as i64));
            beside[j].push((i, (q / unit) as i64));
        }
        let linear = case.linear.iter().map(|&c| (2.0 * c / unit) as i64);
        Self {
            linear: linear.collect(),
            beside,
        }
    }

    /// Low and high of the variable, in half units, with the counted neighbours at their values and all others free.
    fn bounds(&self, i: usize, counted: &BTreeSet<usize>, values: &[u8]) -> (i64, i64) {
        let (mut low, mut high) = (self.linear[i], self.linear[i]);
        for &(j, q) in &self.beside[i] {
            if counted.contains(&j) {
                low += q * i64::from(values[j]);
                high += q * i64::from(values[j]);
            } else {
                low += q.min(0);
                high += q.max(0);
            }
        }
        (low, high)
    }
}

/// A variable's row in the run: its bounds, and the neighbours that it counts as fixed at some entry.
struct Row {
    low: i64,
    high: i64,
    counted: BTreeSet<usize>,
}

/// The value that the bounds force, or 2.
fn forced((low, high): (i64, i64)) -> u8 {
    match (low > 0, high < 0) {
        (true, _) => 0,
        (_, true) => 1,
        _ => 2,
    }
}

/// The reason of the case's variable, or the number of the refusal: 12 before 13.
pub fn reason(case: &Case) -> Result<Reason, u8> {
    let unit = table::unit(case).filter(|_| table::exact(case)).ok_or(12)?;
    let asked = usize::try_from(case.variable)
        .ok()
        .filter(|&i| i < case.n());
    let asked = asked.ok_or(13)?;
    let k = unit.log2() as i32 + 20;
    if case.start[asked] != 2 {
        return Ok(Reason {
            ground: Ground::Given,
            unit: k as u8,
            bound: 0.0,
            listed: Vec::new(),
        });
    }
    let whole = Whole::of(case, unit);
    let mut values = case.start.clone();
    let mut rows: Vec<Row> = (0..case.n())
        .map(|i| {
            let given = |j: &usize| case.start[*j] != 2;
            let counted = whole.beside[i].iter().map(|e| e.0).filter(given).collect();
            let (low, high) = whole.bounds(i, &counted, &values);
            Row { low, high, counted }
        })
        .collect();
    let mut queue = VecDeque::new();
    for i in 0..case.n() {
        if values[i] == 2 {
            values[i] = forced((rows[i].low, rows[i].high));
            if values[i] != 2 {
                queue.push_back(i);
            }
        }
    }
    while let Some(i) = queue.pop_front() {
        for &(t, q) in &whole.beside[i] {
            if values[t] == 2 {
                let row = &mut rows[t];
                row.low += q * i64::from(values[i]) - q.min(0);
                row.high += q * i64::from(values[i]) - q.max(0);
                row.counted.insert(i);
                values[t] = forced((row.low, row.high));
                if values[t] != 2 {
                    queue.push_back(t);
                }
            }
        }
    }
    // Once it has its value no row is moved any more, so what it counts is what it counted then.
    let counted = &rows[asked].counted;
    let (low, high) = whole.bounds(asked, counted, &values);
    let (ground, bound) = match values[asked] {
        0 => (Ground::Lower, low),
        1 => (Ground::Upper, high),
        _ => return Err(13),
    };
    assert_eq!(
        forced((low, high)),
        values[asked],
        "the bound is not strict"
    );
    Ok(Reason {
        ground,
        unit: k as u8,
        bound: bound as f64,
        listed: counted.iter().copied().collect(),
    })
}
