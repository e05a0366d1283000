//! What a pin and a release cost beside making the record, in time of the thread; the tests apart, by a pin that is refused at the last of them.

use crate::record::Record;
use std::collections::BTreeSet;
use stream::{Call, Case};
use tools::random::Random;

#[repr(C)]
struct Moment {
    seconds: i64,
    nanoseconds: i64,
}

extern "C" {
    fn clock_gettime(clock: i32, moment: *mut Moment) -> i32;
}

/// The thread's own time, in nanoseconds.
fn now() -> i64 {
    let mut moment = Moment {
        seconds: 0,
        nanoseconds: 0,
    };
    unsafe { clock_gettime(3, &mut moment) };
    moment.seconds * 1_000_000_000 + moment.nanoseconds
}

fn timed(run: impl FnOnce() -> u64, number: u64) -> i64 {
    let begin = now();
    let answer = run();
    let time = now() - begin;
    assert_eq!(answer & 0xff, number);
    time
}

fn median(mut times: Vec<i64>) -> f64 {
    times.sort_unstable();
    times[times.len() / 2] as f64 / 1000.0
}

/// A random exact field, an eighth of whose variables has a value.
fn random_field(random: &mut Random, n: usize, m: usize) -> Case {
    let mut case = Case::new(Call::Keep);
    let mut places = BTreeSet::new();
    while places.len() < m {
        let (i, j) = (random.below(n) as u16, random.below(n) as u16);
        if i != j {
            places.insert((j, i));
        }
    }
    case.rows = places.iter().map(|p| p.1).collect();
    case.columns = places.iter().map(|p| p.0).collect();
    case.weights = places
        .iter()
        .map(|_| random.pick(&[-1.0, 1.0]) * (1 + random.below(16)) as f64)
        .collect();
    case.linear = (0..n).map(|_| random.within(-100, 100) as f64).collect();
    case.start = (0..n)
        .map(|_| {
            if random.often(125) {
                random.below(2) as u8
            } else {
                2
            }
        })
        .collect();
    case
}

pub fn times() {
    println!("| n | m | keep | pin | release | close | tests | keep / pin | keep / release |");
    println!("|---|---|---|---|---|---|---|---|---|");
    for (n, m) in [(256, 2_048), (1_024, 8_192), (4_096, 32_768)] {
        let mut random = Random::new(19);
        let mut record = Record::new(&random_field(&mut random, n, m));
        let (mut keep, mut pin, mut release, mut close, mut tests) =
            (vec![], vec![], vec![], vec![], vec![]);
        for _ in 0..600 {
            keep.push(timed(|| record.make(), 0));
            let free: Vec<_> = (0..n).filter(|&i| record.values[i] == 2).collect();
            let i = random.pick(&free);
            pin.push(timed(|| record.pin(i, 1), 0));
            tests.push(timed(|| record.pin(n, 1), 7));
            release.push(timed(|| record.release(i), 0));
            close.push(timed(|| record.close().2, 0));
        }
        let [keep, pin, release, close, tests] = [keep, pin, release, close, tests].map(median);
        println!("| {n} | {m} | {keep:.1} | {pin:.1} | {release:.1} | {close:.1} | {tests:.1} | {:.1} | {:.1} |", keep / pin, keep / release);
    }
}
