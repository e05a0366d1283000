//! Every refusal that the safe calls can give, and what they leave.
use ombradiec::*;

fn closed(field: &Field, n: usize) -> Result<Done, Refusal> {
    closure(field, &mut Values::free(n), &mut Scratch::new())
}

#[test]
fn a_field_is_tested_in_the_tables_order() {
    assert_eq!(closed(&Field::new(&[0.0; 4_097], &[]), 4_097), Err(Refusal::Variables));
    let many: Vec<_> = (0..32_769).map(|k| (k % 4_096, k / 4_096, 1.0)).collect();
    assert_eq!(closed(&Field::new(&[0.0; 4_096], &many), 4_096), Err(Refusal::Lists));
    assert_eq!(closed(&Field::new(&[0.0; 2], &[(0, 2, 1.0)]), 2), Err(Refusal::Column { at: 0 }));
    assert_eq!(closed(&Field::new(&[0.0; 2], &[(0, 1, 1.0), (0, 1, 1.0)]), 2), Err(Refusal::Repeat { at: 1 }));
    assert_eq!(closed(&Field::new(&[0.0; 2], &[(1, 1, 1.0)]), 2), Err(Refusal::Diagonal));
    assert_eq!(closed(&Field::new(&[0.0, f64::NAN], &[]), 2), Err(Refusal::Weights));
    assert_eq!(closed(&Field::new(&[0.0; 2], &[]), 3), Err(Refusal::Start));
}

#[test]
fn the_first_entry_at_fault_is_named() {
    assert_eq!(closed(&Field::new(&[0.0; 2], &[(5, 7, 1.0)]), 2), Err(Refusal::Row { at: 0 }));
    assert_eq!(closed(&Field::new(&[], &[(0, 0, 1.0)]), 0), Err(Refusal::Row { at: 0 }));
    assert_eq!(
        closed(&Field::new(&[0.0; 3], &[(0, 1, 1.0), (0, 1, 1.0), (3, 2, 1.0)]), 3),
        Err(Refusal::Repeat { at: 1 })
    );
    // The last of 32,768 entries.
    let mut many: Vec<_> = (0..32_768).map(|k| (k % 4_096, k / 4_096, 1.0)).collect();
    many[32_767].0 = 65_535;
    assert_eq!(closed(&Field::new(&[0.0; 4_096], &many), 4_096), Err(Refusal::Row { at: 32_767 }));
    assert_eq!(Refusal::Row { at: 32_767 }.to_string(), "entry 32767, from 0: its row is not a variable");
}

#[test]
fn the_largest_field_is_taken() {
    let entries: Vec<_> = (1..=8).flat_map(|d| (d..4_096).map(move |j| (j - d, j, -1.0))).collect();
    let mut start = Values::free(4_096);
    start.set(0, Some(true));
    let done = closure(&Field::new(&[0.1; 4_096], &entries), &mut start, &mut Scratch::new()).unwrap();
    assert_eq!((done.grade, start.get(0)), (Grade::Inexact, Some(true)));
}

#[test]
fn an_empty_field_is_done() {
    assert_eq!(closed(&Field::new(&[], &[]), 0), Ok(Done { grade: Grade::Exact, count: 0, pairs: 0 }));
}

#[test]
fn a_probed_variable_is_free() {
    let field = Field::new(&[1.0, 1.0], &[]);
    let (mut start, mut scratch) = (Values::free(2), Scratch::new());
    start.set(1, Some(false));
    for variable in [1, 2, usize::MAX] {
        assert_eq!(probe_one(&field, &start, variable, true, &mut scratch), Err(Refusal::Argument));
        assert_eq!(cold_probe_one(&field, &start, variable, true, &mut scratch), Err(Refusal::Argument));
    }
    let (values, _) = probe_one(&field, &start, 0, true, &mut scratch).unwrap();
    assert_eq!((values.get(0), values.get(1)), (Some(true), None));
}

#[test]
fn a_probe_of_a_refused_field_is_refused() {
    let (field, start, mut scratch) = (Field::new(&[f64::NAN], &[]), Values::free(1), Scratch::new());
    assert_eq!(probe(&field, &start, &mut scratch), Err(Refusal::Weights));
    assert_eq!(probe_limited(&field, &start, 1, &mut scratch), Err(Refusal::Weights));
    assert_eq!(cold_probe(&field, &start, &mut scratch), Err(Refusal::Weights));
    assert_eq!(cold_probe_limited(&field, &start, 1, &mut scratch), Err(Refusal::Weights));
    assert_eq!(probe_one(&field, &start, 0, true, &mut scratch), Err(Refusal::Weights));
    assert_eq!(pairs(&field, &start, 9, &mut scratch), Err(Refusal::Weights));
}

#[test]
fn a_smaller_problem_that_is_refused_leaves_the_field() {
    let mut field = Field::new(&[1.0, 2.0], &[(0, 1, 4.0)]);
    let before = field.clone();
    let mut scratch = Scratch::new();
    assert_eq!(sub_problem(&mut field, &Values::free(3), &mut scratch), Err(Refusal::Start));
    assert_eq!(field, before);
    // a diagonal is allowed, and all may be given
    let mut diagonal = Field::new(&[1.0], &[(0, 0, 4.0)]);
    let mut start = Values::free(1);
    start.set(0, Some(true));
    let done = sub_problem(&mut diagonal, &start, &mut scratch).unwrap();
    assert_eq!((diagonal, done.map, done.constant), (Field::default(), vec![], 3.0));
    assert_eq!(done.grade, Grade::Inexact);
}

#[test]
fn a_sum_that_is_not_finite_leaves_the_list() {
    let mut field = Field::listed(&[0.0, 0.0], &[(1, 0, 1e308), (9, 9, 1e308), (1, 0, 1e308), (1, 0, -1e308)]);
    let before = field.clone();
    assert_eq!(mend(&mut field, &mut Scratch::new()), Err(Refusal::Sum));
    assert_eq!(field, before);
    // what lies outside the field is dropped, however large its sum would be
    let mut outside = Field::listed(&[0.0, 0.0], &[(9, 9, 1e308), (9, 9, 1e308)]);
    let (changes, _) = mend(&mut outside, &mut Scratch::new()).unwrap();
    assert_eq!(
        (outside.entries().count(), changes),
        (0, vec![Change::Dropped { from: 0 }, Change::Dropped { from: 1 }])
    );
    assert_eq!(Refusal::Sum.number(), 18);
}

#[test]
fn a_variable_that_no_field_has_is_refused() {
    // above what the library's numbers hold, and at their end
    for end in [4_096, 65_535, 65_536, 70_000, usize::MAX] {
        assert_eq!(closed(&Field::new(&[0.0; 2], &[(end, 0, 1.0)]), 2), Err(Refusal::Row { at: 0 }));
        assert_eq!(closed(&Field::new(&[0.0; 2], &[(0, end, 1.0)]), 2), Err(Refusal::Column { at: 0 }));
        let one = [Constraint::new(0, end, Kind::Equal)];
        assert_eq!(propagate(&mut Values::free(4_096), &one, &mut Scratch::new()), Err(Refusal::Argument));
    }
}

#[test]
fn a_reason_is_of_an_exact_field_and_a_forced_variable() {
    let mut scratch = Scratch::new();
    let exact = Field::new(&[-5.0, -1.0, 0.0], &[(0, 1, 4.0)]);
    let inexact = Field::new(&[0.1, 1e300], &[]);
    assert_eq!(reason(&inexact, &Values::free(2), 9, &mut scratch), Err(Refusal::Inexact));
    assert_eq!(reason(&exact, &Values::free(3), 3, &mut scratch), Err(Refusal::Unforced));
    assert_eq!(reason(&exact, &Values::free(3), 2, &mut scratch), Err(Refusal::Unforced));
    let (why, neighbours) = reason(&exact, &Values::free(3), 0, &mut scratch).unwrap();
    assert_eq!((why.ground, why.unit, neighbours), (Ground::Upper(-6_291_456.0), f64::powi(2.0, -20), vec![]));
    assert_eq!(why.bound(), -3.0);
    let mut start = Values::free(3);
    start.set(2, Some(true));
    let (why, neighbours) = reason(&exact, &start, 2, &mut scratch).unwrap();
    assert_eq!((why.ground, why.bound(), neighbours), (Ground::Given, 0.0, vec![]));
}

#[test]
fn following_reasons_ends_at_given_values() {
    // each of a chain forces the next
    let entries: Vec<_> = (1..40).map(|i| (i - 1, i, -4.0)).collect();
    let field = Field::new(&[1.0; 40], &entries);
    let (mut start, mut scratch) = (Values::free(40), Scratch::new());
    start.set(0, Some(true));
    for i in 1..40 {
        assert_eq!(reason(&field, &start, i, &mut scratch).unwrap().1, [i - 1]);
    }
}

#[test]
fn propagation_takes_its_own_limits() {
    let chain: Vec<_> = (0..65_536).map(|k| Constraint::new(k % 4_095, k % 4_095 + 1, Kind::Equal)).collect();
    let mut start = Values::free(4_096);
    start.set(0, Some(true));
    assert_eq!(propagate(&mut start, &chain, &mut Scratch::new()), Ok(()));
    assert!(start.iter().all(|value| value == Some(true)));
    let more = [&chain[..], &chain[..1]].concat();
    assert_eq!(propagate(&mut start, &more, &mut Scratch::new()), Err(Refusal::Argument));
    for refused in [(1, 1, 6), (1, 0, 6), (0, 4_096, 6), (0, 1, 0), (0, 1, 16)] {
        let list = [Constraint::forbidding(refused.0, refused.1, refused.2)];
        assert_eq!(propagate(&mut start, &list, &mut Scratch::new()), Err(Refusal::Argument));
    }
}

#[test]
fn an_end_may_say_two_things() {
    // 10 and 11 are forbidden: x0 is 0 as soon as x1 has a value, and x0 = 1 clashes
    let list = [Constraint::forbidding(0, 1, 12)];
    let propagated = |values: [Option<bool>; 2], list: &[Constraint]| {
        let mut start = Values::free(2);
        start.set(0, values[0]);
        start.set(1, values[1]);
        propagate(&mut start, list, &mut Scratch::new()).map(|()| [start.get(0), start.get(1)])
    };
    assert_eq!(propagated([Some(true), None], &list), Err(Refusal::Clash));
    assert_eq!(propagated([None, Some(true)], &list), Ok([Some(false), Some(true)]));
    assert_eq!(propagated([Some(false), None], &list), Ok([Some(false), None]));
    let all = [Constraint::forbidding(0, 1, 15)];
    assert_eq!(propagated([None, None], &all), Ok([None, None]));
    assert_eq!(propagated([None, Some(false)], &all), Err(Refusal::Clash));
}

#[test]
fn allowing_takes_its_own_limits() {
    let mut scratch = Scratch::new();
    let chain: Vec<_> = (0..1_023).map(|i| Constraint::new(i, i + 1, Kind::Equal)).collect();
    let allowed = allow(1_024, &chain, &mut scratch).unwrap();
    assert_eq!(allowed.counts, [1_024; 2_048]);
    assert_eq!(allowed.least, Ok([false; 1_024].iter().copied().collect()));
    let split = [&chain[..], &[Constraint::new(3, 900, Kind::ExactlyOne)]].concat();
    let refused = allow(1_024, &split, &mut scratch).unwrap();
    assert_eq!((refused.least, refused.counts), (Err(0), vec![2_048; 2_048]));
    assert_eq!(allow(1_025, &chain, &mut scratch), Err(Refusal::Variables));
    assert_eq!(allow(1_023, &chain, &mut scratch), Err(Refusal::Argument));
    assert_eq!(allow(0, &[], &mut scratch).map(|allowed| allowed.counts), Ok(Vec::new()));
}

#[test]
fn a_refusal_says_why() {
    assert_eq!(Refusal::Clash.to_string(), "the constraints clash");
    assert_eq!(Refusal::Room { enough: 12 }.to_string(), "an answer list does not fit: 12 items are enough");
}

#[cfg(feature = "std")]
#[test]
fn a_refusal_is_an_error() {
    let boxed: Box<dyn std::error::Error> = Refusal::Clash.into();
    assert_eq!(boxed.to_string(), "the constraints clash");
}

#[test]
fn a_record_is_of_an_exact_field_and_its_values() {
    let mut scratch = Scratch::new();
    let field = || Field::new(&[-1.0, -5.0, 0.5], &[(0, 1, 4.0), (1, 2, -2.0)]);
    assert_eq!(Kept::new(Field::new(&[0.1], &[]), Values::free(1), &mut scratch).unwrap_err(), Refusal::Inexact);
    assert_eq!(Kept::new(field(), Values::free(2), &mut scratch).unwrap_err(), Refusal::Start);
    let mut given = Values::free(3);
    given.set(0, Some(true));
    let mut kept = Kept::new(field(), given.clone(), &mut scratch).unwrap();
    for refused in [kept.pin(0, false), kept.pin(3, false), kept.release(1), kept.release(3)] {
        assert_eq!(refused, Err(Refusal::Argument));
    }
    assert_eq!(kept, Kept::new(field(), given, &mut scratch).unwrap());
    kept.release(0).unwrap();
    assert_eq!(kept, Kept::new(field(), Values::free(3), &mut scratch).unwrap());
    let (list, done) = kept.close(&mut scratch).unwrap();
    let mut start = Values::free(3);
    assert_eq!(closure(&field(), &mut start, &mut scratch), Ok(done));
    assert_eq!(list, start);
    for value in [false, true] {
        kept.pin(1, value).unwrap();
        assert_eq!((kept.values().get(1), kept.bounds(1)), (Some(value), None));
        kept.release(1).unwrap();
    }
}
