//! All anchors at once (the requests, C-23): the cases of one field, and every choice at its anchors held to what the other calls find from the same start values.

use crate::fields::{self, Field, EXACT};
use crate::make;
use crate::random::Random;
use crate::whole::{agrees, meets};
use stream::{Call, Case};

/// The calls of one field: the anchors, and those whose findings a choice obeys.
const CALLS: [Call; 5] = [
    Call::Anchors,
    Call::Closure,
    Call::Probe,
    Call::LimitedProbe,
    Call::Pairs,
];

/// The cases of one field of up to 12 variables, most of them exact: parts that are joined in themselves, most of them symmetric.
pub fn cases(random: &mut Random) -> Vec<Case> {
    let n = random.below(13);
    let mut field = parts(random, n);
    fields::make_symmetric(random, &mut field);
    let (spoiled, given) = (
        random.pick(&[0, 100, 200]),
        random.pick(&[0, 0, 0, 50, 200]),
    );
    let mut start = vec![2; n];
    for i in 0..n {
        if random.often(spoiled) {
            field.linear[i] += random.within(-4, 4) as f64 / 2.0;
        }
        if random.often(given) {
            start[i] = random.below(2) as u8;
        }
    }
    let mut made = Vec::new();
    for call in CALLS {
        let mut case = Case::new(call);
        make::put_field(&mut case, field.clone());
        case.start = start.clone();
        make::arguments(random, &mut case);
        if call.finds_constraints() {
            case.constraint_room = 3 * (n * n) as u32;
        }
        if call == Call::Anchors {
            case.variable_room = n as u32;
            case.least_size = random.pick(&[0, 1, 2, 2, 3]);
        }
        made.push(case);
    }
    made
}

/// A field of parts of one to six variables, whose names are shuffled.
fn parts(random: &mut Random, n: usize) -> Field {
    let tone = random.pick(&EXACT);
    let mut names: Vec<_> = (0..n).collect();
    random.shuffle(&mut names);
    let mut places = Vec::new();
    let mut first = 0;
    while first < n {
        let size = random.pick(&[1, 2, 2, 3, 3, 4, 6]).min(n - first);
        for i in 1..size {
            let joined = names[first + i];
            for _ in 0..1 + random.below(2) {
                let other = names[first + random.below(i)];
                places.push(if random.often(500) {
                    (joined, other)
                } else {
                    (other, joined)
                });
            }
        }
        first += size;
    }
    places.sort_unstable();
    places.dedup();
    let weights = places
        .into_iter()
        .map(|(column, row)| (row, column, fields::weight(random, tone)));
    Field {
        entries: weights.collect(),
        linear: vec![0.0; n],
    }
}

/// The anchors of an exact field, and the best completions that obey what was found after them.
pub struct Together {
    case: Case,
    pub anchors: Vec<usize>,
    standing: Vec<usize>,
    /// How many values and records other calls found from the same start values.
    pub others: usize,
}

impl Together {
    pub fn new(case: &Case, anchors: Vec<usize>, best: Vec<usize>) -> Self {
        Self {
            case: case.clone(),
            anchors,
            standing: best,
            others: 0,
        }
    }

    /// Whether the case is another call on the same field and start values.
    pub fn concerns(&self, case: &Case) -> bool {
        let bits = |w: &[f64]| w.iter().map(|x| x.to_bits()).collect::<Vec<_>>();
        CALLS[1..].contains(&case.call)
            && bits(&case.linear) == bits(&self.case.linear)
            && bits(&case.weights) == bits(&self.case.weights)
            && (&case.rows, &case.columns) == (&self.case.rows, &self.case.columns)
            && case.start == self.case.start
    }

    /// Takes values and records that a call found; no anchor has such a value, and no record joins two anchors.
    pub fn found(
        &mut self,
        values: &[u8],
        records: &[(usize, usize, usize)],
    ) -> Result<(), String> {
        self.others += values.iter().filter(|&&v| v < 2).count() + records.len();
        self.standing
            .retain(|&x| agrees(x, values) && meets(x, records));
        if let Some(a) = self
            .anchors
            .iter()
            .find(|&&a| values.get(a).is_some_and(|&v| v < 2))
        {
            return Err(format!("the anchor {a} has a value"));
        }
        let joins =
            |r: &&(usize, usize, usize)| self.anchors.contains(&r.0) && self.anchors.contains(&r.1);
        match records.iter().find(joins) {
            Some(r) => Err(format!("a record joins the anchors {} and {}", r.0, r.1)),
            None => Ok(()),
        }
    }

    /// Every choice stands in a best completion that obeys; the number of choices.
    pub fn chosen(&self) -> Result<u64, String> {
        let choices = 1 << self.anchors.len();
        for choice in 0..choices {
            let made = |x: &usize| {
                let mut bits = self.anchors.iter().enumerate();
                bits.all(|(j, a)| (x >> a) & 1 == (choice >> j) & 1)
            };
            if !self.standing.iter().any(made) {
                return Err(format!(
                    "no best completion that obeys has the choice {choice:b} at {:?} (the first on the right)",
                    self.anchors
                ));
            }
        }
        Ok(choices as u64)
    }
}
