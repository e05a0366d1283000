//! Random cases of every call.

use crate::breaks;
use crate::fields::{self, Field, EXACT, INEXACT};
use crate::random::Random;
use crate::whole::Whole;
use stream::{table, Call, Case};

/// The greatest length of a list of constraint elements that a case asks for.
pub const MOST_ROOM: usize = 1_500_000;

/// A case of the call; one in five is broken in one or two ways.
pub fn random_case(random: &mut Random, call: Call, small: bool) -> Case {
    let mut case = whole_case(random, call, small);
    let ways = match random.below(100) {
        0..=79 => 0,
        80..=91 => 1,
        _ => 2,
    };
    for _ in 0..ways {
        let number = random.pick(&[1, 2, 3, 4, 5, 6, 7, 8, 9]);
        // A list past the limits makes a long case, so few are made.
        if number != 1 || call.takes_constraints() || (!small && random.often(50)) {
            breaks::break_case(random, &mut case, number);
        }
    }
    case
}

fn whole_case(random: &mut Random, call: Call, small: bool) -> Case {
    let mut case = Case::new(call);
    let n = size(random, call, small);
    if call.has_field() {
        let diagonal = !call.needs_standard() && random.often(700);
        let exactly = if matches!(call, Call::Reason | Call::Keep) { 900 } else { 550 };
        let tone = if random.often(exactly) {
            random.pick(&EXACT)
        } else {
            random.pick(&INEXACT)
        };
        let most = if small { 24 } else { most_entries(random, n) };
        let mut field = fields::field(random, n, most, tone, diagonal);
        if call == Call::Anchors && random.often(700) {
            fields::make_symmetric(random, &mut field);
        }
        put_field(&mut case, field);
    }
    if call == Call::Mend {
        disorder(random, &mut case);
    }
    if call.has_start() {
        case.start = start(random, n);
    }
    if call.probes_one() && n > 0 && random.often(990) {
        case.start[random.below(n)] = 2;
    }
    if call == Call::Propagation {
        case.constraints = constraints(random, &case.start, small);
    }
    if call == Call::Keep {
        case.constraints = script(random, &case.start);
    }
    if call == Call::Allow {
        let n = n.min(table::MOST_REACHED);
        case.variable = n as u64;
        case.constraints = reaching(random, n, small);
    }
    arguments(random, &mut case);
    case
}

/// Up to 50 operations: most of them pin a free variable or release one that is not, some are any numbers.
fn script(random: &mut Random, start: &[u8]) -> Vec<u16> {
    let mut values = start.to_vec();
    let mut list = Vec::new();
    for _ in 0..random.pick(&[0, 1, 3, 10, 50]) {
        let i = random.below(values.len().max(1));
        if i < values.len() && random.often(850) {
            let value = random.below(2) as u8;
            let pins = values[i] == 2;
            values[i] = if pins { value } else { 2 };
            list.extend([u16::from(!pins), i as u16, u16::from(value)]);
        } else {
            let n = values.len() as u16;
            let far = random.pick(&[i as u16, i as u16, n, u16::MAX]);
            let value = random.pick(&[0, 1, 2, 255, 256]);
            let operation = random.below(2) as u16;
            match (operation, values.get(usize::from(far))) {
                (0, Some(2)) if value <= 1 => values[usize::from(far)] = value as u8,
                (1, Some(0 | 1)) => values[usize::from(far)] = 2,
                _ => {}
            }
            list.extend([operation, far, value]);
        }
    }
    list
}

pub fn put_field(case: &mut Case, field: Field) {
    case.linear = field.linear;
    case.rows = field.entries.iter().map(|e| e.0 as u16).collect();
    case.columns = field.entries.iter().map(|e| e.1 as u16).collect();
    case.weights = field.entries.iter().map(|e| e.2).collect();
}

/// Entries repeated, put elsewhere, taken outside the field and shuffled, each in some of the lists; some weights are zeros of
/// either sign, and some so large that their sum may not be finite.
pub fn disorder(random: &mut Random, case: &mut Case) {
    let n = case.n();
    let mut entries: Vec<_> = case.entries().map(|(i, j, q)| (i as u16, j as u16, q)).collect();
    let most = (table::MOST_ENTRIES - entries.len()).min(entries.len() + 4);
    let far = [n as u16, n as u16 + 1, u16::MAX];
    if random.often(800) {
        for _ in 0..random.below(most + 1) {
            let any = (random.below(n + 1) as u16, random.below(n + 1) as u16, random.fraction());
            let at = random.below(entries.len().max(1));
            let old = entries.get(at).copied().unwrap_or(any);
            let new = match random.below(8) {
                0 => any,
                1 => (random.pick(&far), old.1, old.2),
                2 => (old.0, random.pick(&far), old.2),
                3 => (old.0, old.1, random.pick(&[0.0, -0.0, -old.2])),
                4 if random.often(200) => (old.0, old.1, random.pick(&[1e308, -1e308, 1e304])),
                _ => (old.0, old.1, random.fraction() * 8.0),
            };
            if random.often(300) {
                entries.insert(at.min(entries.len()), new);
            } else {
                entries.push(new);
            }
        }
    }
    match random.below(4) {
        0 => random.shuffle(&mut entries),
        1 => entries.reverse(),
        2 if entries.len() > 1 => {
            let at = random.below(entries.len() - 1);
            entries.swap(at, at + 1);
        }
        _ => {}
    }
    case.rows = entries.iter().map(|e| e.0).collect();
    case.columns = entries.iter().map(|e| e.1).collect();
    case.weights = entries.iter().map(|e| e.2).collect();
}

/// Every weight times one power of two, 2^-23 to 2^28: some units and sizes are within the grade's limits, some beyond.
pub fn scale(random: &mut Random, case: &mut Case) {
    let factor = 2f64.powi(random.within(-23, 28) as i32);
    for weight in case.linear.iter_mut().chain(&mut case.weights) {
        *weight *= factor;
    }
}

fn size(random: &mut Random, call: Call, small: bool) -> usize {
    let slow = call.probes_many() || matches!(call, Call::Heavy | Call::Pairs);
    let n = match random.below(10_000) {
        0..=299 => random.below(2),
        300..=6_499 => 2 + random.below(11),
        6_500..=8_999 => 13 + random.below(28),
        9_000..=9_899 => 41 + random.below(80),
        9_900..=9_979 => 121 + random.below(300),
        9_980..=9_994 if slow => 300 + random.below(500),
        9_980..=9_994 => 421 + random.below(1_500),
        9_995..=9_997 if slow => random.pick(&[706, 707, 708, 709]),
        9_995..=9_997 => 2_000 + random.below(2_095),
        _ => random.pick(&[4_095, 4_096]),
    };
    if small {
        n.min(1 + random.below(9))
    } else {
        n
    }
}

fn most_entries(random: &mut Random, n: usize) -> usize {
    if n > 300 && random.often(100) {
        32_768
    } else {
        (8 * n).clamp(200, 32_768)
    }
}

fn start(random: &mut Random, n: usize) -> Vec<u8> {
    let fixed = random.pick(&[0, 0, 100, 300, 700, 1000]);
    (0..n)
        .map(|_| {
            if random.often(fixed) {
                random.below(2) as u8
            } else {
                2
            }
        })
        .collect()
}

/// Records, unsorted and some of one pair, that a hidden assignment meets, but for a few: of the kinds, and of any set.
fn constraints(random: &mut Random, start: &[u8], small: bool) -> Vec<u16> {
    let n = start.len();
    if n < 2 {
        return Vec::new();
    }
    let hidden: Vec<usize> = start
        .iter()
        .map(|&v| {
            if v == 2 {
                random.below(2)
            } else {
                usize::from(v)
            }
        })
        .collect();
    let astray = random.pick(&[0, 0, 20, 300]);
    let mut count = random.below(3 * n);
    if !small && random.often(2) {
        count = random.pick(&[65_535, 65_536]);
    }
    let mut list = Vec::new();
    for _ in 0..count {
        let a = random.below(n);
        let b = (a + 1 + random.below(n - 1)) % n;
        let (i, j) = (a.min(b), a.max(b));
        let mut set = any_set(random);
        while !random.often(astray) && set >> (2 * hidden[i] + hidden[j]) & 1 == 1 {
            set = any_set(random);
        }
        list.extend([i as u16, j as u16, set as u16]);
    }
    list
}

/// Records for `allow`: of one to two a variable, where yes meets no and literals reach far, or as propagation has them.
fn reaching(random: &mut Random, n: usize, small: bool) -> Vec<u16> {
    if n < 2 || random.often(400) {
        return constraints(random, &vec![2; n], small);
    }
    let count = n / 2 + random.below(2 * n);
    let mut list = Vec::new();
    for _ in 0..count {
        let a = random.below(n);
        let b = (a + 1 + random.below(n - 1)) % n;
        let set = random.pick(&[1, 1, 2, 2, 4, 4, 8, 8, 6, 9, 3, 12, 5, 10]);
        list.extend([a.min(b) as u16, a.max(b) as u16, set]);
    }
    list
}

fn any_set(random: &mut Random) -> usize {
    if random.often(800) {
        random.pick(&stream::FORBIDDEN)
    } else {
        1 + random.below(15)
    }
}

/// Rooms, scratch and parameters that fit, some of them exactly.
pub fn arguments(random: &mut Random, case: &mut Case) {
    let n = case.n();
    let call = case.call;
    if call.finds_values() {
        case.found_room = n as u32;
    }
    if call.finds_constraints() {
        let ample = 3 * (n * n.saturating_sub(1)).min(MOST_ROOM / 3);
        let room = match random.below(10) {
            0 => random.below(30),
            1 => 3 * random.below(n + 1),
            2 => ample + random.below(3),
            _ => ample,
        };
        case.constraint_room = room as u32;
    }
    if call.finds_changes() {
        let m = case.weights.len();
        case.constraint_room = match random.below(10) {
            0 => random.below(12),
            1 => 3 * random.below(m + 1),
            2 => 3 * m + random.below(3),
            _ => 3 * m,
        } as u32;
    }
    if call.finds_variables() {
        case.variable_room = match random.below(10) {
            0 => random.below(4),
            1 => random.below(n + 2),
            2 => n + random.below(9),
            _ => n,
        } as u32;
    }
    if call == Call::Allow {
        let spare = random.pick(&[0, 0, 0, 1, 5]);
        case.found_room = n as u32 + spare;
        case.variable_room = 2 * n as u32 + random.pick(&[0, 0, spare, 7]);
    }
    let (floats, words) = case.least_scratch();
    let spare = random.pick(&[0, 0, 0, 1, 2, 17]);
    if call.takes_floats() || call.takes_longs() {
        case.floats = floats + spare;
    }
    if call.takes_words() {
        case.words = words + random.pick(&[0, spare]);
    }
    if call.probes_one() {
        let free: Vec<_> = (0..n).filter(|&i| case.start[i] == 2).collect();
        if !free.is_empty() {
            case.variable = random.pick(&free) as u64;
        }
        case.value = random.below(2) as u64;
    }
    if call == Call::Reason {
        case.variable = asked(random, case) as u64;
    }
    if call.takes_candidates() {
        let any = random.below(n + 2) as u64;
        case.limit = random.pick(&[0, 1, 2, 3, any, any, any, n as u64, u64::MAX]);
    }
    if call == Call::Pairs {
        let free = case.start.iter().filter(|&&v| v == 2).count() as u64;
        let all = free * free.saturating_sub(1) / 2;
        let any = random.below(all as usize + 2) as u64;
        case.limit = random.pick(&[
            0,
            1,
            64,
            any,
            any,
            all,
            all,
            all.saturating_sub(1),
            all + 1,
            249_999,
            250_000,
            250_001,
            u64::MAX,
        ]);
    }
    if call == Call::Keep {
        case.least_size = 2 * n as u64;
    }
    if call == Call::Anchors {
        case.least_size = random.pick(&[0, 0, 1, 2, 2, 3, 4, n as u64, n as u64 + 1, u64::MAX]);
    }
}

/// A variable to be explained: most often one that is forced, and now and then one that is not there.
fn asked(random: &mut Random, case: &Case) -> usize {
    let n = case.n();
    if random.often(30) {
        return random.pick(&[n, n + 1, 65_535]);
    }
    if n <= 500 && random.often(900) && table::exact(case) {
        let values = Whole::of(case).closure(&case.start);
        let forced = |i: &usize| values[*i] != 2 && case.start[*i] == 2;
        let forced: Vec<_> = (0..n).filter(forced).collect();
        if !forced.is_empty() {
            return random.pick(&forced);
        }
    }
    random.below(n.max(1))
}
