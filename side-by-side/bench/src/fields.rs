//! The fields that both sides work on, by shape and size.

/// Weights, entries by column, then row, and start values: 0, 1, or 2 for free.
#[derive(Clone)]
pub struct Field {
    pub shape: &'static str,
    pub c: Vec<f64>,
    pub rows: Vec<u16>,
    pub cols: Vec<u16>,
    pub q: Vec<f64>,
    pub start: Vec<u8>,
}

/// Start values and records: lower, higher, and the set of a kind.
#[derive(Clone)]
pub struct Rules {
    pub shape: &'static str,
    pub start: Vec<u8>,
    pub constraints: Vec<u16>,
}

/// Numbers that look random and are the same in every run (splitmix64).
pub struct Dice(u64);

impl Dice {
    pub const fn new(seed: u64) -> Self {
        Self(seed)
    }

    pub fn next(&mut self) -> u64 {
        self.0 = self.0.wrapping_add(0x9e37_79b9_7f4a_7c15);
        let mut z = self.0;
        z = (z ^ (z >> 30)).wrapping_mul(0xbf58_476d_1ce4_e5b9);
        z = (z ^ (z >> 27)).wrapping_mul(0x94d0_49bb_1331_11eb);
        z ^ (z >> 31)
    }

    pub fn below(&mut self, limit: usize) -> usize {
        (self.next() % limit as u64) as usize
    }

    /// A whole number from -most to most.
    pub fn signed(&mut self, most: i64) -> f64 {
        (self.below(2 * most as usize + 1) as i64 - most) as f64
    }

    /// A whole number from -most to most that is not 0.
    pub fn weight(&mut self, most: i64) -> f64 {
        let size = (1 + self.below(most as usize)) as f64;
        if self.below(2) == 0 {
            size
        } else {
            -size
        }
    }
}

pub const MOST_ENTRIES: usize = 32_768;

/// The shapes of every call on a field.
pub const SHAPES: [&str; 24] = [
    "random",
    "inexact",
    "tight",
    "band",
    "tight band",
    "chain",
    "grid",
    "star",
    "clique",
    "tight clique",
    "inexact tight clique",
    "islands",
    "chains of 10",
    "cliques of 10",
    "random both ways",
    "tight both ways",
    "band both ways",
    "tight band both ways",
    "clique both ways",
    "tight clique both ways",
    "inexact tight clique both ways",
    "end to end",
    "domino",
    "reversed domino",
];

/// The shapes of exact cliques.
pub const CLIQUES: [&str; 4] = [
    "clique",
    "tight clique",
    "clique both ways",
    "tight clique both ways",
];

impl Field {
    pub fn n(&self) -> usize {
        self.c.len()
    }

    pub fn m(&self) -> usize {
        self.q.len()
    }

    /// The field of a shape, standard form; an eighth of the variables has a start value, but in a tight one none.
    pub fn new(shape: &'static str, n: usize) -> Self {
        match shape {
            "end to end" => Self::end_to_end(n),
            "domino" => Self::domino(n),
            "reversed domino" => Self::domino(n).reversed(),
            _ => Self::of(shape, n, ends(shape, n)),
        }
    }

    /// Random entries, as many as asked for.
    pub fn random(n: usize, m: usize) -> Self {
        Self::of("random", n, random_ends(n, m))
    }

    fn of(shape: &'static str, n: usize, mut ends: Vec<(u16, u16)>) -> Self {
        let inexact = shape.starts_with("inexact");
        let tight = shape.contains("tight");
        let mut dice = Dice::new(0x5eed ^ n as u64);
        ends.sort_unstable_by_key(|&(row, col)| (col, row));
        ends.dedup();
        let unit = if inexact { 0.1 } else { 1.0 };
        let mut q: Vec<f64> = ends.iter().map(|_| unit * dice.weight(16)).collect();
        if shape.ends_with("both ways") {
            mirror(&ends, &mut q);
        }
        let mut mass = vec![0.0; n];
        for (&(row, col), w) in ends.iter().zip(&q) {
            mass[usize::from(row)] += 0.5 * w.abs();
            mass[usize::from(col)] += 0.5 * w.abs();
        }
        let part = if tight { 0.125 } else { 1.0 };
        let c = mass
            .iter()
            .map(|&w| unit * dice.signed(1 + (part * w / unit) as i64))
            .collect();
        let start = (0..n)
            .map(|_| {
                if !tight && dice.below(8) == 0 {
                    dice.below(2) as u8
                } else {
                    2
                }
            })
            .collect();
        Self {
            shape,
            c,
            rows: ends.iter().map(|e| e.0).collect(),
            cols: ends.iter().map(|e| e.1).collect(),
            q,
            start,
        }
    }

    /// A chain in which each value is forced by the one before it, and by nothing else.
    fn end_to_end(n: usize) -> Self {
        let mut c = vec![0.5; n];
        c[0] = -0.5;
        Self {
            shape: "end to end",
            c,
            rows: (0..n as u16 - 1).collect(),
            cols: (1..n as u16).collect(),
            q: vec![-2.0; n - 1],
            start: vec![2; n],
        }
    }

    /// A chain without start values in which each value decides the next, and nothing is forced: what a variable has with the one
    /// before it outweighs its linear weight, and that outweighs what it has with the next.
    fn domino(n: usize) -> Self {
        let left = |i: usize| (n - i) as f64;
        let mut c: Vec<f64> = (0..n).map(|i| 2.0 * left(i) - 1.0).collect();
        c[0] = left(1);
        Self {
            shape: "domino",
            c,
            rows: (0..n as u16 - 1).collect(),
            cols: (1..n as u16).collect(),
            q: (1..n).map(|i| -4.0 * left(i)).collect(),
            start: vec![2; n],
        }
    }

    /// The same chain with its variables in the other order, so that each value decides the one before.
    fn reversed(mut self) -> Self {
        self.shape = "reversed domino";
        self.c.reverse();
        self.q.reverse();
        self
    }

    /// The same entries with every component complement-symmetric, and nothing given.
    pub fn balanced(mut self) -> Self {
        self.c.fill(0.0);
        for k in 0..self.q.len() {
            self.q[k] *= 4.0;
            self.c[usize::from(self.rows[k])] -= 0.25 * self.q[k];
            self.c[usize::from(self.cols[k])] -= 0.25 * self.q[k];
        }
        self.start.fill(2);
        self
    }

    /// The field of the first n variables and the first m entries.
    pub fn first(&self, n: usize, m: usize) -> Self {
        Self {
            shape: self.shape,
            c: self.c[..n].to_vec(),
            rows: self.rows[..m].to_vec(),
            cols: self.cols[..m].to_vec(),
            q: self.q[..m].to_vec(),
            start: vec![2; n],
        }
    }

    /// The same field with its entries in the reversed order.
    pub fn turned(mut self) -> Self {
        self.rows.reverse();
        self.cols.reverse();
        self.q.reverse();
        self
    }

    /// The same field with every second variable given, 0 and 1 in turn.
    pub fn half_given(mut self) -> Self {
        for (i, value) in self.start.iter_mut().enumerate() {
            *value = [0, 2, 1, 2][i % 4];
        }
        self
    }

    /// The same entries with a diagonal entry for one variable in four, as far as there is room.
    pub fn with_diagonal(self) -> Self {
        let room = MOST_ENTRIES - self.m();
        let mut entries: Vec<_> = (0..self.m())
            .map(|k| (self.cols[k], self.rows[k], self.q[k]))
            .collect();
        entries.extend(
            (0..self.n() as u16)
                .step_by(4)
                .take(room)
                .map(|i| (i, i, 6.0)),
        );
        entries.sort_unstable_by_key(|&(col, row, _)| (col, row));
        Self {
            rows: entries.iter().map(|e| e.1).collect(),
            cols: entries.iter().map(|e| e.0).collect(),
            q: entries.iter().map(|e| e.2).collect(),
            ..self
        }
    }

    /// The first free variable.
    pub fn free(&self) -> usize {
        self.start.iter().position(|&v| v == 2).unwrap_or(0)
    }
}

fn random_ends(n: usize, m: usize) -> Vec<(u16, u16)> {
    random_where(n, m, |row, col| row != col)
}

fn random_pairs(n: usize, m: usize) -> Vec<(u16, u16)> {
    random_where(n, m, |row, col| row < col)
}

fn random_where(n: usize, m: usize, wanted: fn(usize, usize) -> bool) -> Vec<(u16, u16)> {
    let mut dice = Dice::new(0xface ^ (n * 65_537 + m) as u64);
    let mut seen = std::collections::BTreeSet::new();
    while seen.len() < m {
        let (row, col) = (dice.below(n), dice.below(n));
        if wanted(row, col) {
            seen.insert((row as u16, col as u16));
        }
    }
    seen.into_iter().collect()
}

/// Gives (i, j) and (j, i) one weight, where the entries rise by column, then row.
fn mirror(ends: &[(u16, u16)], q: &mut [f64]) {
    for k in 0..ends.len() {
        let (row, col) = ends[k];
        let other = ends.binary_search_by_key(&(row, col), |&(row, col)| (col, row));
        q[k] = q[k.min(other.expect("both ways"))];
    }
}

fn both_ways(ends: Vec<(u16, u16)>) -> Vec<(u16, u16)> {
    ends.iter().flat_map(|&(i, j)| [(i, j), (j, i)]).collect()
}

/// The name of a shape without what it says of weights and storing; random where nothing else is said.
fn plain(shape: &str) -> &str {
    let shape = shape.trim_start_matches("inexact").trim_start();
    let shape = shape.trim_start_matches("tight").trim_start();
    match shape.trim_end_matches("both ways").trim_end() {
        "" => "random",
        name => name,
    }
}

fn band(n: u16, width: u16) -> Vec<(u16, u16)> {
    (1..n)
        .flat_map(|col| (col.saturating_sub(width)..col).map(move |row| (row, col)))
        .collect()
}

fn clique(n: u16) -> Vec<(u16, u16)> {
    (1..n)
        .flat_map(|col| (0..col).map(move |row| (row, col)))
        .collect()
}

/// The places of a shape. `both ways` stores each pair twice, and has half the pairs where the entries would be too many.
fn ends(shape: &str, n: usize) -> Vec<(u16, u16)> {
    if shape.ends_with("both ways") {
        return both_ways(match plain(shape) {
            "random" => random_pairs(n, 4 * n),
            "band" => band(n as u16, 4),
            "clique" => clique(n.min(181) as u16),
            other => ends(other, n),
        });
    }
    let most = n as u16;
    match plain(shape) {
        "random" => random_ends(n, (8 * n).min(MOST_ENTRIES)),
        "band" => band(most, 8),
        "clique" => clique(most.min(256)),
        "chain" => (1..most).map(|col| (col - 1, col)).collect(),
        "grid" => {
            let side = (n as f64).sqrt() as u16;
            let right = (0..most).filter(|i| i % side + 1 < side && i + 1 < most);
            let down = (0..most).filter(|i| i + side < most);
            right
                .map(|i| (i, i + 1))
                .chain(down.map(|i| (i, i + side)))
                .collect()
        }
        "star" => (1..most).map(|col| (0, col)).collect(),
        "islands" => (1..most)
            .flat_map(|col| (col / 8 * 8..col).map(move |row| (row, col)))
            .collect(),
        "chains of 10" => (1..most)
            .filter(|col| col % 10 != 0)
            .map(|col| (col - 1, col))
            .collect(),
        "cliques of 10" => (1..most)
            .flat_map(|col| (col / 10 * 10..col).map(move |row| (row, col)))
            .collect(),
        _ => unreachable!("no such shape"),
    }
}

/// The shapes of constraints.
pub const RULES: [&str; 4] = ["random", "chain", "star", "clash"];

impl Rules {
    pub fn new(shape: &'static str, n: usize) -> Self {
        let count = if matches!(shape, "random" | "clash") {
            (16 * n).min(65_536)
        } else {
            n - 1
        };
        Self::counted(shape, n, count)
    }

    /// Constraints that a hidden assignment meets, but for a clash; one value in 64 is given, in a chain the first.
    pub fn counted(shape: &'static str, n: usize, count: usize) -> Self {
        let mut dice = Dice::new(0xc0de ^ n as u64);
        let hidden: Vec<u8> = (0..n).map(|_| dice.below(2) as u8).collect();
        let mut constraints = Vec::with_capacity(3 * count);
        for k in 0..count {
            let (a, b) = match shape {
                "chain" => (k, k + 1),
                "star" => (0, k + 1),
                _ => loop {
                    let (a, b) = (dice.below(n), dice.below(n));
                    if a != b {
                        break (a, b);
                    }
                },
            };
            let (a, b) = (a.min(b), a.max(b));
            let seen = usize::from(2 * hidden[a] + hidden[b]);
            let kind = match shape {
                "clash" => dice.below(6),
                "chain" | "star" => {
                    if hidden[a] == hidden[b] {
                        5
                    } else {
                        1
                    }
                }
                _ => loop {
                    let kind = dice.below(6);
                    if stream::FORBIDDEN[kind] >> seen & 1 == 0 {
                        break kind;
                    }
                },
            };
            constraints.extend([a as u16, b as u16, stream::FORBIDDEN[kind] as u16]);
        }
        let start = (0..n)
            .map(|i| {
                let given = match shape {
                    "chain" | "star" => i == 0,
                    _ => i % 64 == 0,
                };
                if given {
                    hidden[i]
                } else {
                    2
                }
            })
            .collect();
        Self {
            shape,
            start,
            constraints,
        }
    }
}
