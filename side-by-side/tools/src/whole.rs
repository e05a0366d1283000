//! The requirements' whole-number definitions, counted in the smallest unit that serves, for exact fields.

use stream::{table, Case};

/// Whether an assignment has every value that is not 2.
pub fn agrees(x: usize, values: &[u8]) -> bool {
    values
        .iter()
        .enumerate()
        .all(|(i, &v)| v == 2 || (x >> i) & 1 == usize::from(v))
}

/// Whether an assignment has no pair of values that a record forbids.
pub fn meets(x: usize, constraints: &[(usize, usize, usize)]) -> bool {
    constraints.iter().all(|&(i, j, set)| {
        let pair = 2 * ((x >> i) & 1) + ((x >> j) & 1);
        set >> pair & 1 == 0
    })
}

/// An exact field: its unit, and in units 2c, and the entries with q.
pub struct Whole {
    pub unit: f64,
    pub linear: Vec<i64>,
    pub entries: Vec<(usize, usize, i64)>,
}

impl Whole {
    pub fn of(case: &Case) -> Self {
        let unit = table::unit(case).expect("a unit serves an exact field");
        Self::new(unit, &case.linear, case.entries())
    }

    pub fn new(
        unit: f64,
        linear: &[f64],
        entries: impl Iterator<Item = (usize, usize, f64)>,
    ) -> Self {
        Self {
            unit,
            linear: linear.iter().map(|&c| (c / (unit / 2.0)) as i64).collect(),
            entries: entries.map(|(i, j, q)| (i, j, (q / unit) as i64)).collect(),
        }
    }

    /// So many half units, as a weight.
    fn weight(&self, count: i64) -> f64 {
        count as f64 * (self.unit / 2.0)
    }

    /// 2f, in units, at the assignment whose bits are given.
    pub fn twice_f(&self, x: usize) -> i64 {
        let bit = |i: usize| (x >> i) & 1 == 1;
        let linear = self.linear.iter().enumerate().filter(|(i, _)| bit(*i));
        let entries = self.entries.iter().filter(|(i, j, _)| bit(*i) && bit(*j));
        linear.map(|(_, c)| c).sum::<i64>() + entries.map(|e| e.2).sum::<i64>()
    }

    /// Every completion of the values.
    pub fn completions(values: &[u8]) -> Vec<usize> {
        let fits = |x: &usize| {
            (0..values.len()).all(|i| values[i] == 2 || (x >> i) & 1 == usize::from(values[i]))
        };
        (0..1 << values.len()).filter(fits).collect()
    }

    /// The completions of the values with the least f.
    pub fn best(&self, values: &[u8]) -> Vec<usize> {
        let all: Vec<_> = Self::completions(values)
            .into_iter()
            .map(|x| (self.twice_f(x), x))
            .collect();
        let least = all.iter().map(|p| p.0).min().unwrap_or(0);
        all.into_iter()
            .filter(|p| p.0 == least)
            .map(|p| p.1)
            .collect()
    }

    /// Low and high of each variable at the values.
    pub fn bounds(&self, values: &[u8]) -> Vec<(i64, i64)> {
        let mut bounds: Vec<_> = self.linear.iter().map(|&c| (c, c)).collect();
        for &(row, column, q) in &self.entries {
            for (i, other) in [(row, column), (column, row)] {
                let (low, high) = match values[other] {
                    0 => (0, 0),
                    1 => (q, q),
                    _ => (q.min(0), q.max(0)),
                };
                bounds[i].0 += low;
                bounds[i].1 += high;
            }
        }
        bounds
    }

    /// The free variables with low = high = 0.
    pub fn flat(&self, values: &[u8]) -> usize {
        let bounds = self.bounds(values);
        (0..values.len())
            .filter(|&i| values[i] == 2 && bounds[i] == (0, 0))
            .count()
    }

    /// The closure: steps taken until none is left, all at once in each round.
    pub fn closure(&self, values: &[u8]) -> Vec<u8> {
        self.closure_without(values, usize::MAX)
    }

    /// The closure in which one variable takes no step.
    pub fn closure_without(&self, values: &[u8], left_out: usize) -> Vec<u8> {
        let mut values = values.to_vec();
        loop {
            let before = values.clone();
            for (i, (low, high)) in self.bounds(&before).into_iter().enumerate() {
                if i == left_out {
                    continue;
                }
                if before[i] == 2 && low > 0 {
                    values[i] = 0;
                } else if before[i] == 2 && high < 0 {
                    values[i] = 1;
                }
            }
            if values == before {
                return values;
            }
        }
    }

    /// The single probe: the closure with one value added, without the start values.
    pub fn probe(&self, start: &[u8], variable: usize, value: u8) -> Vec<u8> {
        let mut assumed = start.to_vec();
        assumed[variable] = value;
        let mut found = self.closure(&assumed);
        for (i, &given) in start.iter().enumerate() {
            if given != 2 {
                found[i] = 2;
            }
        }
        found
    }

    /// The probe of each candidate: records, merged by pair and rising by it, and values.
    pub fn probes(
        &self,
        start: &[u8],
        candidates: &[usize],
    ) -> (Vec<(usize, usize, usize)>, Vec<u8>) {
        let mut forbidden = Vec::new();
        let mut values = vec![2; start.len()];
        for &i in candidates {
            let (at_0, at_1) = (self.probe(start, i, 0), self.probe(start, i, 1));
            for j in (0..start.len()).filter(|&j| j != i) {
                // Where a probe of i at a gives j a value, (a, the other value) is forbidden.
                match (at_0[j], at_1[j]) {
                    (0, 0) => values[j] = 0,
                    (1, 1) => values[j] = 1,
                    (v, w) => forbidden.extend(
                        [v, w]
                            .iter()
                            .enumerate()
                            .filter(|(_, &given)| given < 2)
                            .map(|(a, &given)| (i, j, 1 << (2 * a + usize::from(1 - given)))),
                    ),
                }
            }
        }
        (stream::merged(forbidden), values)
    }

    /// The free variables by falling edge mass over entries with both ends free, then rising index, cut at the limit.
    pub fn candidates(&self, start: &[u8], limit: u64) -> Vec<usize> {
        let mut mass = vec![0; start.len()];
        for &(i, j, q) in &self.entries {
            if start[i] == 2 && start[j] == 2 {
                mass[i] += q.abs();
                mass[j] += q.abs();
            }
        }
        let mut free: Vec<_> = (0..start.len()).filter(|&i| start[i] == 2).collect();
        free.sort_by_key(|&i| (-mass[i], i));
        free.truncate(usize::try_from(limit).unwrap_or(usize::MAX));
        free
    }

    /// The records of the first pairs, by going through all values of the other free variables.
    pub fn pairs(&self, start: &[u8], limit: u64) -> (u64, Vec<(usize, usize, usize)>) {
        let free: Vec<_> = (0..start.len()).filter(|&i| start[i] == 2).collect();
        let mut mass: Vec<i64> = self.linear.iter().map(|c| c.abs()).collect();
        for &(i, j, q) in &self.entries {
            mass[i] += q.abs();
            mass[j] += q.abs();
        }
        let mut found = Vec::new();
        let mut count = 0;
        for (at, &i) in free.iter().enumerate() {
            for &j in &free[at + 1..] {
                if count == limit {
                    return (count, found);
                }
                count += 1;
                // Half units on both sides, so that the tolerance is the only rounding.
                let tolerance = 1e-10 * self.weight(mass[i] + mass[j]).max(1.0);
                let mut others = start.to_vec();
                others[i] = 0;
                others[j] = 0;
                let both: Vec<_> = Self::completions(&others)
                    .into_iter()
                    .map(|z| {
                        let at = |x: usize| self.weight(self.twice_f(z | x));
                        (at(1 << i | 1 << j) - at(0), at(1 << i) - at(1 << j))
                    })
                    .collect();
                let mut set = 0;
                if both.iter().all(|d| d.0 > tolerance) {
                    set |= 0b1000;
                } else if both.iter().all(|d| d.0 < -tolerance) {
                    set |= 0b0001;
                }
                if both.iter().all(|d| d.1 > tolerance) {
                    set |= 0b0100;
                } else if both.iter().all(|d| d.1 < -tolerance) {
                    set |= 0b0010;
                }
                if set > 0 {
                    found.push((i, j, set));
                }
            }
        }
        (count, found)
    }
}
