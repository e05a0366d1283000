//! Fields of every shape, size and kind of weight.

use crate::random::Random;

#[derive(Clone, Debug, Default)]
pub struct Field {
    pub linear: Vec<f64>,
    /// Rising by column, then row.
    pub entries: Vec<(usize, usize, f64)>,
}

/// The kind of weight that a field holds.
#[derive(Clone, Copy, Debug, PartialEq)]
pub enum Tone {
    Unit,
    Small,
    Medium,
    Large,
    NearExact,
    Tenths,
    Quarters,
    Uniform,
    Swallowing,
    Overflowing,
    Wild,
}

pub const EXACT: [Tone; 4] = [Tone::Unit, Tone::Small, Tone::Medium, Tone::Large];
/// Some kinds stand more than once, because more goes wrong in them.
pub const INEXACT: [Tone; 11] = [
    Tone::NearExact,
    Tone::Tenths,
    Tone::Quarters,
    Tone::Uniform,
    Tone::Swallowing,
    Tone::Swallowing,
    Tone::Swallowing,
    Tone::Overflowing,
    Tone::Overflowing,
    Tone::Wild,
    Tone::Wild,
];

const TWO_31: f64 = 2_147_483_648.0;
const TWO_61: f64 = 2_305_843_009_213_693_952.0;

/// An entry's weight.
pub fn weight(random: &mut Random, tone: Tone) -> f64 {
    let sign = random.pick(&[1.0, -1.0]);
    match tone {
        Tone::Unit => sign * random.pick(&[0.0, 1.0, 1.0, 2.0, 2.0]),
        Tone::Small | Tone::NearExact => random.within(-8, 8) as f64,
        Tone::Medium => random.within(-1000, 1000) as f64,
        Tone::Large => {
            let size = match random.below(3) {
                0 => TWO_31,
                1 => TWO_31 - random.below(4) as f64,
                _ => random.below(1 << 31) as f64,
            };
            sign * size
        }
        Tone::Tenths => random.within(-30, 30) as f64 / 10.0,
        Tone::Quarters => random.within(-30, 30) as f64 / 4.0,
        Tone::Uniform => random.fraction(),
        Tone::Swallowing => match random.below(4) {
            0 => sign * TWO_61,
            1 => sign * random.pick(&[9_007_199_254_740_992.0, 1e16, 4.0 * TWO_61]),
            2 => random.within(-30, 30) as f64 / 4.0,
            _ => random.within(-4, 4) as f64,
        },
        Tone::Overflowing => sign * random.pick(&[f64::MAX, f64::MAX, f64::MAX / 2.0, 1e308, 1.0]),
        Tone::Wild => wild(random),
    }
}

/// Any finite weight: zeros of both signs, the least and greatest, and random bits.
fn wild(random: &mut Random) -> f64 {
    let sign = random.pick(&[1.0, -1.0]);
    let size = match random.below(8) {
        0 => 0.0,
        1 => random.pick(&[
            f64::from_bits(1),
            f64::from_bits(2),
            f64::from_bits(3),
            f64::MIN_POSITIVE,
            2.0 * f64::MIN_POSITIVE,
            f64::from_bits(f64::MIN_POSITIVE.to_bits() - 1),
        ]),
        2 => random.pick(&[f64::MAX, f64::MAX / 2.0, f64::MAX / 4.0, 1e308]),
        3 => random.pick(&[TWO_61, TWO_31, TWO_31 + 1.0, 9_007_199_254_740_993.0]),
        4 => random.pick(&[1.0, 0.5, 0.25, 2.0, 1e-10, 2e-10, 1.0 + f64::EPSILON]),
        5 => random.pick(&[1.0, 2.0, 4.0, 6.0]),
        _ => {
            let bits = f64::from_bits(random.bits());
            if bits.is_finite() {
                bits
            } else {
                1.0
            }
        }
    };
    sign * size
}

/// The edges of a shape, each pair once.
fn edges(random: &mut Random, n: usize, most: usize) -> Vec<(usize, usize)> {
    let mut edges = Vec::new();
    if n < 2 {
        return edges;
    }
    match random.below(12) {
        0 => {}
        1 => edges.extend((1..n).map(|i| (i - 1, i))),
        2 => edges.extend((0..n).map(|i| (i, (i + 1) % n))),
        3 => {
            let wide = 1 + random.below(((n as f64).sqrt() as usize * 2).max(1));
            for i in 0..n {
                if (i + 1) % wide != 0 && i + 1 < n {
                    edges.push((i, i + 1));
                }
                if i + wide < n {
                    edges.push((i, i + wide));
                }
            }
        }
        4 => edges.extend((1..n).map(|i| (0, i))),
        5 => {
            let mut k = n;
            while k * (k - 1) / 2 > most {
                k = k * 9 / 10;
            }
            for i in 0..k {
                edges.extend((0..i).map(|j| (j, i)));
            }
        }
        6 => edges.extend((1..n).map(|i| (random.below(i), i))),
        7 | 8 => {
            let mut first = 0;
            while first < n {
                let size = random.pick(&[1, 2, 3, 5, 9, 10, 10, 11, 12]).min(n - first);
                for i in 1..size {
                    edges.push((first + random.below(i), first + i));
                    if random.often(400) {
                        edges.push((first + random.below(i), first + i));
                    }
                }
                first += size;
            }
        }
        9 if n <= 200 => {
            for i in 0..n {
                edges.extend((0..i).filter(|_| random.often(500)).map(|j| (j, i)));
            }
        }
        _ => {
            let count = n * (1 + random.below(4)) / 2;
            for _ in 0..count {
                edges.push((random.below(n), random.below(n)));
            }
        }
    }
    edges
}

/// A field of n variables with at most so many entries; a diagonal only where it is asked for.
pub fn field(random: &mut Random, n: usize, most: usize, tone: Tone, diagonal: bool) -> Field {
    let mut pairs = edges(random, n, most);
    let mut names: Vec<_> = (0..n).collect();
    if random.often(500) {
        random.shuffle(&mut names);
    }
    let both = random.pick(&[0, 0, 250, 1000]);
    let mut places = Vec::new();
    for (i, j) in pairs.drain(..) {
        let (i, j) = (names[i], names[j]);
        if i == j {
            continue;
        }
        let (i, j) = if random.often(500) { (i, j) } else { (j, i) };
        places.push((j, i));
        if random.often(both) {
            places.push((i, j));
        }
    }
    if diagonal {
        let rate = random.pick(&[0, 200, 1000]);
        places.extend((0..n).filter(|_| random.often(rate)).map(|i| (i, i)));
    }
    places.sort_unstable();
    places.dedup();
    while places.len() > most {
        let at = random.below(places.len());
        places.remove(at);
    }
    let zeros = random.pick(&[0, 0, 0, 100, 1000]);
    let mut field = Field {
        linear: vec![0.0; n],
        entries: places
            .into_iter()
            .map(|(column, row)| {
                let q = if random.often(zeros) {
                    random.pick(&[0.0, -0.0])
                } else {
                    weight(random, tone)
                };
                (row, column, q)
            })
            .collect(),
    };
    fill_linear(random, &mut field, tone);
    if tone == Tone::NearExact {
        spoil_one(random, &mut field);
    }
    field
}

/// Makes the field its own complement where its weights allow: 4c and the weights at each variable add up to 0.
pub fn make_symmetric(random: &mut Random, field: &mut Field) {
    let whole = field.entries.iter().all(|e| e.2.fract() == 0.0);
    let cancelling = random.often(500);
    let mut given = std::collections::HashMap::new();
    for entry in &mut field.entries {
        if whole && entry.2.abs() < TWO_31 / 2.0 {
            entry.2 *= 2.0;
        }
        match given.get(&(entry.1, entry.0)) {
            Some(other) if cancelling && entry.0 != entry.1 => entry.2 = -other,
            _ => {
                given.insert((entry.0, entry.1), entry.2);
            }
        }
    }
    // Counted in quarters, so that great weights of both signs leave the small ones whole.
    let mut sums = vec![0i128; field.linear.len()];
    for &(row, column, q) in &field.entries {
        let quarters = (4.0 * q) as i128;
        sums[row] += quarters;
        sums[column] += quarters;
    }
    for (c, sum) in field.linear.iter_mut().zip(sums) {
        *c = -(sum as f64) / 16.0;
    }
    if random.often(200) && !field.linear.is_empty() {
        let i = random.below(field.linear.len());
        field.linear[i] += random.pick(&[0.5, -0.5, 1e-300]);
    }
}

/// Puts one weight just outside or just inside exactness.
fn spoil_one(random: &mut Random, field: &mut Field) {
    let sign = random.pick(&[1.0, -1.0]);
    let (n, m) = (field.linear.len(), field.entries.len());
    if n > 0 && (m == 0 || random.often(500)) {
        field.linear[random.below(n)] = sign
            * random.pick(&[
                0.25,
                0.75,
                TWO_31,
                TWO_31 + 0.5,
                TWO_31 + 1.0,
                1e-300,
                1e300,
            ]);
    } else if m > 0 {
        field.entries[random.below(m)].2 =
            sign * random.pick(&[0.5, 0.25, TWO_31, TWO_31 + 1.0, TWO_31 - 0.5, 1e-300, 1e300]);
    }
}

/// Linear weights: random, zero, near a bound, a cascade in which each value forces the next, or symmetric.
fn fill_linear(random: &mut Random, field: &mut Field, tone: Tone) {
    let n = field.linear.len();
    let exact = EXACT.contains(&tone) || tone == Tone::NearExact;
    let step = match tone {
        Tone::Swallowing => random.pick(&[0.25, 1.0]),
        Tone::Uniform => 0.01,
        Tone::Tenths => 0.1,
        Tone::Quarters => 0.25,
        _ => 0.5,
    };
    let mode = random.below(6);
    let hidden: Vec<f64> = (0..n).map(|_| random.below(2) as f64).collect();
    let mut order: Vec<_> = (0..n).collect();
    random.shuffle(&mut order);
    let mut rank = vec![0; n];
    for (at, &i) in order.iter().enumerate() {
        rank[i] = at;
    }
    // The sum of all terms, of the low and high ones, and of those with earlier ends at their hidden value.
    let mut sums = vec![[0.0f64; 5]; n];
    for &(row, column, q) in &field.entries {
        for (i, other) in [(row, column), (column, row)] {
            let half = 0.5 * q;
            sums[i][0] += half;
            sums[i][1] += half.min(0.0);
            sums[i][2] += half.max(0.0);
            if rank[other] < rank[i] {
                sums[i][3] += half * hidden[other];
                sums[i][4] += half * hidden[other];
            } else {
                sums[i][3] += half.min(0.0);
                sums[i][4] += half.max(0.0);
            }
        }
    }
    for i in 0..n {
        let near = step * random.within(-2, 2) as f64;
        let c = match mode {
            0 | 1 => free_linear(random, tone),
            2 => random.pick(&[0.0, 0.0, 0.0, -0.0, step, -step]),
            3 => near - random.pick(&[sums[i][1], sums[i][2], sums[i][0] / 2.0]),
            4 if hidden[i] == 0.0 => step * random.pick(&[1.0, 1.0, 1.0, 1.0, 0.0]) - sums[i][3],
            4 => -step * random.pick(&[1.0, 1.0, 1.0, 1.0, 0.0]) - sums[i][4],
            _ => -sums[i][0] / 2.0,
        };
        let c = if exact { (2.0 * c).round() / 2.0 } else { c };
        let most = if EXACT.contains(&tone) {
            TWO_31
        } else {
            f64::MAX
        };
        field.linear[i] = if c.is_nan() {
            0.0
        } else {
            c.clamp(-most, most)
        };
    }
}

fn free_linear(random: &mut Random, tone: Tone) -> f64 {
    let c = weight(random, tone);
    if random.often(500) && tone != Tone::Wild {
        c / 2.0
    } else {
        c
    }
}
