//! Records of the port through sequences of operations, against records made anew, against the text's closure, and timed.
//! Usage: `operations SEED COUNT` or `operations time`.

#[path = "../../driver/src/flat.rs"]
mod flat;
#[path = "../../driver/src/kept.rs"]
mod kept;
#[path = "../../../rust/src/library.rs"]
#[allow(dead_code)]
mod library;
mod record;
mod timing;

use hercules::qubo::Qubo;
use hercules::{door, FixedVarMap};
use ndarray::Array1;
use record::Record;
use sprs::CsMat;
use stream::{table, Call, Case};
use tools::fields::{self, EXACT, INEXACT};
use tools::make::put_field;
use tools::random::Random;

/// The operations of a sequence.
const OPERATIONS: usize = 50;

fn main() {
    let words: Vec<String> = std::env::args().skip(1).collect();
    match &words[..] {
        [time] if time == "time" => timing::times(),
        [seed, count] => {
            let seed = seed.parse().expect("a seed");
            let count = count.parse().expect("a count");
            made(&mut Random::new(seed), count);
            foreign(&mut Random::new(seed ^ 0xf0e1), count);
        }
        _ => panic!("usage: operations SEED COUNT, or operations time"),
    }
}

fn random_case(random: &mut Random, exact: bool) -> Case {
    let mut case = Case::new(Call::Keep);
    let n = match random.below(100) {
        0..=1 => random.below(2),
        2..=79 => 2 + random.below(11),
        80..=97 => 13 + random.below(50),
        _ => 64 + random.below(200),
    };
    let tone = if exact {
        random.pick(&EXACT)
    } else {
        random.pick(&INEXACT)
    };
    put_field(&mut case, fields::field(random, n, 8 * n + 4, tone, false));
    let fixed = random.pick(&[0, 300, 700]);
    case.start = (0..n)
        .map(|_| {
            if random.often(fixed) {
                random.below(2) as u8
            } else {
                2
            }
        })
        .collect();
    // Now and then a linear weight is -0.0, so that a bound is.
    for c in &mut case.linear {
        if *c == 0.0 && random.often(500) {
            *c = -0.0;
        }
    }
    case
}

/// Pins a free variable or releases one that is not; one in ten is any numbers.
fn random_operation(random: &mut Random, values: &[u8]) -> [u16; 3] {
    let n = values.len();
    let i = random.below(n.max(1));
    if n == 0 || random.often(100) {
        let far = random.pick(&[i as u16, n as u16, u16::MAX]);
        return [random.below(2) as u16, far, random.pick(&[0, 1, 2, 255])];
    }
    [u16::from(values[i] != 2), i as u16, random.below(2) as u16]
}

/// Every sequence starts from a record that the port makes; after each operation the record is that of the second implementation, made anew, bit for bit,
/// and the closing call gives the closure of the text, with the flat rows of the run once more.
fn made(random: &mut Random, count: usize) {
    let (mut operations, mut refused, mut closed) = (0, 0, 0);
    for _ in 0..count {
        let mut case = random_case(random, true);
        while !table::exact(&case) {
            case = random_case(random, true);
        }
        let mut record = Record::new(&case);
        assert_eq!(record.make() & 0xff, 0);
        let qubo = field(&case);
        let mut script = Vec::new();
        for turn in 0..=OPERATIONS {
            let expected = kept::after_script(&Case {
                constraints: script.clone(),
                ..case.clone()
            });
            assert_eq!(record.values, expected.values, "{}", case.show());
            let bits: Vec<u64> = expected.bounds.iter().map(|b| b.to_bits()).collect();
            assert_eq!(
                record.bits(),
                bits,
                "bounds after {script:?}\n{}",
                case.show()
            );
            assert_eq!(
                record.strict as usize,
                expected.strict,
                "strict rows after {script:?}\n{}",
                case.show()
            );
            if turn % 10 == 0 {
                closes(&mut record, &qubo);
                closed += 1;
            }
            if turn == OPERATIONS {
                break;
            }
            let operation = random_operation(random, &record.values);
            script.extend(operation);
            let number = kept::after_script(&Case {
                constraints: script.clone(),
                ..case.clone()
            });
            let answer = record.operate(&operation) & 0xff;
            assert_eq!(
                answer,
                u64::from(*number.operations.last().unwrap()),
                "{operation:?}\n{}",
                case.show()
            );
            operations += 1;
            refused += usize::from(answer != 0);
        }
    }
    println!("{count} records, {operations} operations of which {refused} refused: after each the record made anew, bit for bit; {closed} closures are the text's");
}

/// The closing call gives the text's closure at the values, and leaves the record.
fn closes(record: &mut Record, qubo: &Qubo) {
    let before = (record.values.clone(), record.bits(), record.strict);
    let (list, count, number) = record.close();
    assert_eq!(number, 0);
    let given = (0..record.values.len())
        .filter(|&i| record.values[i] != 2)
        .map(|i| (i, usize::from(record.values[i])));
    let given: FixedVarMap = given.collect();
    let closure = door::closure(qubo, given);
    let expected: Vec<u8> = (0..list.len())
        .map(|i| closure.get(&i).map_or(2, |&v| v as u8))
        .collect();
    assert_eq!(list, expected);
    let (again, flat) = flat::closure(&Case {
        start: record.values.clone(),
        ..record.case.clone()
    });
    assert_eq!((list, count), (again, flat));
    assert_eq!(
        before,
        (record.values.clone(), record.bits(), record.strict)
    );
}

/// Any contents, on any field: nothing faults, a refused operation changes nothing, and one that is done changes the rows of free neighbours and its own alone.
fn foreign(random: &mut Random, count: usize) {
    let strange = [
        0.0,
        -0.0,
        1.0,
        -1.0,
        1e308,
        -1e308,
        f64::NAN,
        f64::INFINITY,
        f64::NEG_INFINITY,
        5e-324,
    ];
    let (mut done, mut refused) = (0, 0);
    for _ in 0..count {
        let exact = random.often(500);
        let case = random_case(random, exact);
        let n = case.n();
        let mut record = Record::new(&case);
        for bound in &mut record.bounds {
            *bound = random.pick(&strange);
        }
        record.strict = random.bits() as u32;
        for _ in 0..OPERATIONS {
            let before = record.clone();
            let operation = random_operation(random, &record.values);
            let i = usize::from(operation[1]);
            if record.operate(&operation) & 0xff != 0 {
                assert_eq!(
                    (&record.values, record.bits(), record.strict),
                    (&before.values, before.bits(), before.strict)
                );
                refused += 1;
                continue;
            }
            let joined = |t: usize| {
                case.entries()
                    .any(|(a, b, _)| (a, b) == (i, t) || (a, b) == (t, i))
            };
            let (old, new) = (before.bits(), record.bits());
            for t in (0..n).filter(|&t| t != i) {
                assert_eq!(record.values[t], before.values[t]);
                if before.values[t] != 2 || !joined(t) {
                    assert_eq!(
                        (new[t], new[n + t]),
                        (old[t], old[n + t]),
                        "{}",
                        case.show()
                    );
                }
            }
            let strict = |t: &usize| {
                record.values[*t] == 2 && (record.bounds[*t] > 0.0 || record.bounds[n + *t] < 0.0)
            };
            assert_eq!(record.strict as usize, (0..n).filter(strict).count());
            done += 1;
        }
        let before = (record.values.clone(), record.bits(), record.strict);
        assert_eq!(record.close().2, 0);
        assert_eq!(
            before,
            (record.values.clone(), record.bits(), record.strict)
        );
    }
    println!("{count} records of any contents, {done} operations done and {refused} refused: rows elsewhere stay, and the strict rows are counted anew");
}

fn field(case: &Case) -> Qubo {
    let n = case.n();
    let mut offsets = vec![0; n + 1];
    for &column in &case.columns {
        offsets[usize::from(column) + 1] += 1;
    }
    for column in 0..n {
        offsets[column + 1] += offsets[column];
    }
    let rows = case.rows.iter().map(|&i| usize::from(i)).collect();
    Qubo::new_with_c(
        CsMat::new_csc((n, n), offsets, rows, case.weights.clone()),
        Array1::from_vec(case.linear.clone()),
    )
}
