//! What the crate adds to the library's calls: the builder, the objective, values, and lists as long as what is found.
use ombradiec::*;

/// Numbers that look drawn by chance, the same in every run.
struct Drawn(u64);

impl Drawn {
    fn below(&mut self, n: usize) -> usize {
        self.0 = self.0.wrapping_mul(6_364_136_223_846_793_005).wrapping_add(1_442_695_040_888_963_407);
        (self.0 >> 33) as usize % n
    }

    fn weight(&mut self) -> f64 {
        self.below(33) as f64 / 2.0 - 8.0
    }
}

fn all(n: usize) -> impl Iterator<Item = Values> {
    (0..1_u32 << n).map(move |mask| (0..n).map(|i| mask >> i & 1 == 1).collect())
}

#[test]
fn a_builder_adds_or_refuses_what_mend_joins() {
    let mut drawn = Drawn(36);
    let (mut joined, mut refused) = (0, 0);
    for _ in 0..200 {
        let n = 1 + drawn.below(6);
        let (mut adding, mut refusing) = (Builder::new(Repeats::Add), Builder::new(Repeats::Refuse));
        let linear: Vec<f64> = (0..n).map(|_| drawn.weight()).collect();
        let entries: Vec<_> = (0..drawn.below(9)).map(|_| (drawn.below(n), drawn.below(n), drawn.weight())).collect();
        for &c in &linear {
            assert_eq!(adding.variable(c), refusing.variable(c));
        }
        for &(row, column, q) in &entries {
            adding.entry(row, column, q);
            refusing.entry(row, column, q);
        }
        let mut mended = Field::listed(&linear, &entries);
        let changes = mend(&mut mended, &mut Scratch::new()).unwrap().0;
        assert_eq!(adding.build(), Ok(mended.clone()));
        let first = changes.iter().find_map(|change| match *change {
            Change::Joined { from, .. } => Some(from),
            _ => None,
        });
        assert_eq!(refusing.build(), first.map_or(Ok(mended), |at| Err(Refusal::Repeat { at })));
        joined += usize::from(first.is_some());
        refused += usize::from(first.is_none());
    }
    assert!(joined > 50 && refused > 50, "{} {}", joined, refused);
}

#[test]
fn a_builder_refuses_what_the_calls_would() {
    let built = |linear: &[f64], entries: &[(usize, usize, f64)], repeats| {
        let mut builder = Builder::new(repeats);
        linear.iter().for_each(|&c| {
            builder.variable(c);
        });
        entries.iter().for_each(|&(row, column, q)| {
            builder.entry(row, column, q);
        });
        builder.build()
    };
    use Repeats::{Add, Refuse};
    assert_eq!(built(&[0.0; 4_097], &[], Add), Err(Refusal::Variables));
    assert_eq!(built(&[0.0; 2], &[(0, 1, 1.0), (2, 5, 1.0)], Add), Err(Refusal::Row { at: 1 }));
    assert_eq!(built(&[0.0; 2], &[(0, 1, 1.0), (0, 70_000, 1.0)], Add), Err(Refusal::Column { at: 1 }));
    // the first at fault, in the order added
    let both = [(0, 1, 1.0), (1, 0, 1.0), (0, 1, 1.0), (0, 2, 1.0), (1, 0, 1.0)];
    assert_eq!(built(&[0.0; 2], &both, Refuse), Err(Refusal::Repeat { at: 2 }));
    assert_eq!(built(&[0.0; 2], &both, Add), Err(Refusal::Column { at: 3 }));
    assert_eq!(built(&[0.0; 2], &both[1..], Refuse), Err(Refusal::Column { at: 2 }));
    assert_eq!(built(&[0.0, f64::NAN], &[], Add), Err(Refusal::Weights));
    assert_eq!(built(&[0.0; 2], &[(0, 1, f64::INFINITY)], Add), Err(Refusal::Weights));
    assert_eq!(built(&[0.0; 2], &[(0, 1, 1e308), (0, 1, 1e308)], Add), Err(Refusal::Sum));
    let many: Vec<_> = (0..32_769).map(|k| (k % 4_096, k / 4_096, 1.0)).collect();
    assert_eq!(built(&[0.0; 4_096], &many, Add), Err(Refusal::Lists));
    // many that are added up to few are taken
    assert_eq!(built(&[0.0; 2], &[(0, 1, 1.0); 40_000], Add), Ok(Field::new(&[0.0; 2], &[(0, 1, 40_000.0)])));
}

#[test]
fn the_values_that_are_forced_have_the_least_objective() {
    let mut drawn = Drawn(7);
    let mut scratch = Scratch::new();
    let mut forced = 0;
    for _ in 0..60 {
        let n = 2 + drawn.below(6);
        let mut builder = Builder::new(Repeats::Add);
        for _ in 0..n {
            builder.variable(drawn.weight());
        }
        for _ in 0..drawn.below(2 * n) {
            let row = drawn.below(n);
            builder.entry(row, (row + 1 + drawn.below(n - 1)) % n, drawn.weight());
        }
        let field = builder.build().unwrap();
        let value = |values: &Values| field.value(values).unwrap();
        let least = all(n).map(|values| value(&values)).fold(f64::INFINITY, f64::min);
        let mut values = Values::free(n);
        closure(&field, &mut values, &mut scratch).unwrap();
        forced += values.iter_forced().count();
        for best in all(n).filter(|x| value(x) == least) {
            assert!(values.iter_forced().all(|(i, value)| best.get(i) == Some(value)));
        }
        preprocess(&field, &mut values, &mut scratch).unwrap();
        assert_eq!(value(&values), least);
        let mut smaller = field.clone();
        let given = (0..n).map(|i| if i == 0 { values.get(0) } else { None }).collect();
        let left = sub_problem(&mut smaller, &given, &mut scratch).unwrap();
        let rest = left.map.iter().map(|&i| values.get(i)).collect();
        assert_eq!(smaller.value(&rest).unwrap() + left.constant, least);
    }
    assert!(forced > 100, "{}", forced);
}

#[test]
fn an_objective_is_of_all_values() {
    let field = Field::new(&[1.0, 2.0], &[(0, 0, 8.0), (1, 0, 2.0), (0, 1, 16.0)]);
    assert_eq!(field.value(&[true, false].iter().copied().collect()), Some(5.0));
    assert_eq!(field.value(&[true, true].iter().copied().collect()), Some(16.0));
    assert_eq!(field.value(&[false, false].iter().copied().collect()), Some(0.0));
    assert_eq!(field.value(&[Some(true), None].iter().copied().collect()), None);
    assert_eq!(field.value(&[true; 3].iter().copied().collect()), None);
    assert_eq!(Field::new(&[1.0], &[(0, 1, 1.0)]).value(&[true].iter().copied().collect()), None);
    assert_eq!(Field::default().value(&Values::default()), Some(0.0));
}

#[test]
fn values_are_collected_and_gone_over() {
    let values: Values = [None, Some(true), Some(false)].iter().copied().collect();
    assert_eq!((values.len(), values.is_empty(), Values::default().is_empty()), (3, false, true));
    assert!(values.iter().eq([None, Some(true), Some(false)].iter().copied()));
    assert!(values.iter_forced().eq([(1, true), (2, false)].iter().copied()));
    assert!(values.iter_forced().rev().eq([(2, false), (1, true)].iter().copied()));
    assert_eq!(values.lent(), [2, 1, 0]);
    assert_eq!(values.iter().collect::<Values>(), values);
    assert_eq!(Values::free(4).iter_forced().next(), None);
}

#[test]
fn a_list_grows_to_what_is_found() {
    // Each of 708 variables is forced, and any two of them give one constraint, up to 250,000; room for 16,384 is given at first.
    let linear: Vec<f64> = (0..708).map(|i| f64::from(i + 1)).collect();
    let (field, mut scratch) = (Field::new(&linear, &[]), Scratch::new());
    for (limit, count) in [(0, 0), (16_384, 16_384), (16_385, 16_385), (usize::MAX, 250_000)] {
        let (constraints, done) = pairs(&field, &Values::free(708), limit, &mut scratch).unwrap();
        assert_eq!(done, Done { grade: Grade::Exact, count, pairs: count });
        assert_eq!((constraints.len(), constraints.capacity()), (count, count));
        assert!(constraints.iter().all(|one| one.set() == 10 && one.lower() < one.higher()));
        assert!(constraints.windows(2).all(|two| two[0] < two[1]));
    }
}

#[test]
fn a_list_is_as_long_as_what_is_found() {
    // two of four variables exclude each other, and nothing else is found
    let (field, start, mut scratch) =
        (Field::new(&[-1.0, -1.0, 0.0, 0.0], &[(0, 1, 6.0), (2, 3, 0.0)]), Values::free(4), Scratch::new());
    let one = [Constraint::new(0, 1, Kind::ExactlyOne)];
    let (constraints, done) = pairs(&field, &start, usize::MAX, &mut scratch).unwrap();
    assert_eq!((constraints.len(), constraints.capacity(), done.count, done.pairs), (1, 1, 1, 6));
    let (_, constraints, done) = probe(&field, &start, &mut scratch).unwrap();
    assert_eq!((&constraints[..], constraints.capacity(), done.count), (&one[..], 1, 1));
    assert_eq!(probe_limited(&field, &start, 3, &mut scratch).unwrap().1, one);
    assert_eq!(cold_probe_limited(&field, &start, 3, &mut scratch).unwrap().1, one);
    assert_eq!(no_effect(&Field::new(&[0.0, 1.0, 0.0], &[]), &mut scratch).unwrap().0, [0, 2]);
}

#[test]
fn probes_grow_to_what_they_find() {
    // a chain in which one variable at 1 takes all others to 1, so that every pair has a constraint, and there can be no more
    let n = 200;
    let entries: Vec<_> = (1..n).map(|j| (j - 1, j, -4.0)).collect();
    let (field, start, mut scratch) = (Field::new(&vec![1.0; n], &entries), Values::free(n), Scratch::new());
    let (values, constraints, done) = probe(&field, &start, &mut scratch).unwrap();
    assert_eq!((values.clone(), constraints.len(), done.count), (Values::free(n), lent::found(n), 19_900));
    assert!(constraints.iter().all(|one| one.forbids(true, false) && one.forbids(false, true)));
    assert_eq!(cold_probe(&field, &start, &mut scratch).unwrap(), (values, constraints, done));
    for candidates in [0, 1, 150, 199, 200, 500] {
        let limited = probe_limited(&field, &start, candidates, &mut scratch).unwrap();
        assert_eq!(limited.1.len(), lent::found_limited(n, candidates));
        if candidates < 2 {
            assert_eq!(cold_probe_limited(&field, &start, candidates, &mut scratch).unwrap(), limited);
        }
    }
}

#[test]
fn the_most_that_is_found_is_counted() {
    assert_eq!((lent::found(0), lent::found(1), lent::found(2), lent::found(5)), (0, 0, 1, 10));
    assert_eq!((lent::found(4_096), lent::found(1 << 40)), (8_386_560, 8_386_560));
    for n in 0..9 {
        for candidates in 0..12 {
            let with_candidate = (0..n).flat_map(|j| (0..j).map(move |i| (i, j))).filter(|&(i, _)| i < candidates);
            assert_eq!(lent::found_limited(n, candidates), with_candidate.count());
        }
    }
    assert_eq!(
        (lent::found_pairs(4, 5), lent::found_pairs(4, 7), lent::found_pairs(4_096, usize::MAX)),
        (5, 6, 250_000)
    );
}
