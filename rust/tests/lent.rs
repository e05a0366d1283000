//! The calls on lent memory, with neither std nor alloc of the crate: what a list without room is told, and what is left.
use ombradiec::lent::*;
use ombradiec::{Constraint, Grade, Refusal};

#[test]
fn a_list_without_room_is_told_what_is_enough() {
    let (mut f, mut u) = ([0.0; floats(3, 2)], [0; words(3, 2)]);
    let mut scratch = Scratch { floats: &mut f, words: &mut u };
    let room = |enough| Err(Refusal::Room { enough });
    let (start, none) = ([FREE; 3], Constraint::default());

    let idle = Field { linear: &[0.0; 3], ..Field::default() };
    let mut list = [7; 2];
    assert_eq!(no_effect(&idle, &mut list, &mut scratch), room(3));
    assert_eq!(list, [0; 2]);
    assert_eq!(no_effect(&idle, &mut [0; 3], &mut scratch).map(|done| done.count), Ok(3));

    let even = Field { linear: &[-0.5, -0.5, 0.0], rows: &[0], cols: &[1], quad: &[2.0] };
    assert_eq!(anchors(&even, &start, 2, &mut [], &mut scratch), room(3));

    // what is enough is enough, and one less is not
    let apart = Field { linear: &[-1.0, -1.0, -1.0], rows: &[0, 1], cols: &[1, 2], quad: &[6.0, 6.0] };
    let mut constraints = [none; 3];
    let count = pairs(&apart, &start, MOST_PAIRS, &mut constraints, &mut scratch).unwrap().count;
    assert!(count > 0 && count <= found_pairs(3, MOST_PAIRS));
    assert_eq!(pairs(&apart, &start, MOST_PAIRS, &mut constraints[..count - 1], &mut scratch), room(3));
    assert_eq!(pairs(&apart, &start, 2, &mut [], &mut scratch), room(2));

    let mut values = [0; 3];
    let count = probe(&apart, &start, &mut values, &mut constraints, &mut scratch).unwrap().count;
    assert!(count > 0 && count <= found(3));
    assert_eq!(probe(&apart, &start, &mut values, &mut constraints[..count - 1], &mut scratch), room(3));
    assert_eq!(probe(&apart, &[FREE, FREE, 1], &mut values, &mut [], &mut scratch), room(1));
    assert_eq!(probe(&apart, &start, &mut values[..2], &mut constraints, &mut scratch), room(3));
    assert_eq!(cold_probe(&apart, &start, &mut values[..2], &mut constraints, &mut scratch), room(3));
    assert_eq!(probe_limited(&apart, &start, 1, &mut values, &mut [], &mut scratch), room(2));
    assert_eq!(cold_probe_limited(&apart, &start, 1, &mut values, &mut [], &mut scratch), room(2));
    assert_eq!(probe_one(&apart, &start, 0, true, &mut values[..1], &mut scratch), room(3));
    assert_eq!(cold_probe_one(&apart, &start, 0, true, &mut [0; 4], &mut scratch), room(3));
    assert_eq!(values, [0; 3]);

    let chain = Field { linear: &[-5.0, -1.0, 0.0], rows: &[0], cols: &[1], quad: &[4.0] };
    assert_eq!(reason(&chain, &start, 1, &mut [], &mut scratch), Err(Refusal::Room { enough: 3 }));
    assert_eq!(reason(&chain, &start, 1, &mut [0], &mut scratch).map(|why| why.count), Ok(1));

    let (mut bounds, mut strict) = ([0.0; 6], 0);
    keep(&chain, &start, &mut bounds, &mut strict, &mut scratch).unwrap();
    assert_eq!(close(&chain, &start, &bounds, &mut [0; 2], &mut scratch), room(3));
    assert_eq!(keep(&chain, &start, &mut bounds[..5], &mut strict, &mut scratch), Err(Refusal::Start));

    let (mut w, mut u) = ([0; longs(3)], [0; words(3, 0)]);
    assert_eq!(allow(3, &[], &mut [0; 2], &mut [0; 6], &mut w, &mut u), Err(Refusal::Room { enough: 3 }));
    assert_eq!(allow(3, &[], &mut [0; 3], &mut [0; 5], &mut w, &mut u), Err(Refusal::Room { enough: 6 }));
    assert_eq!(allow(3, &[], &mut [9; 3], &mut [0; 6], &mut w, &mut u), Ok(None));
}

#[test]
fn a_map_or_report_without_room_leaves_the_field() {
    let (mut f, mut u) = ([0.0; floats(3, 2)], [0; words(3, 2)]);
    let mut scratch = Scratch { floats: &mut f, words: &mut u };
    let (mut c, mut rows, mut cols, mut q) = ([1.0, 2.0, 3.0], [2, 0], [0, 1], [4.0, 8.0]);
    let mut field = FieldMut { linear: &mut c, rows: &mut rows, cols: &mut cols, quad: &mut q };
    let refused = sub_problem(&mut field, &[FREE, 1, FREE], &mut [0], &mut scratch);
    assert_eq!(refused, Err(Refusal::Room { enough: 2 }));
    assert_eq!(field.read(), Field { linear: &[1.0, 2.0, 3.0], rows: &[2, 0], cols: &[0, 1], quad: &[4.0, 8.0] });
    let mut map = [9; 2];
    let left = sub_problem(&mut field, &[FREE, 1, FREE], &mut map, &mut scratch).unwrap();
    assert_eq!((left.variables, left.entries, left.constant, map), (2, 1, 2.0, [0, 2]));
    assert_eq!(field.read(), Field { linear: &[5.0, 3.0], rows: &[1], cols: &[0], quad: &[4.0] });

    let (mut rows, mut cols, mut q) = ([1, 9], [0, 9], [4.0, 8.0]);
    let mut field = FieldMut { linear: &mut c, rows: &mut rows, cols: &mut cols, quad: &mut q };
    assert_eq!(mend(&mut field, &mut [], &mut scratch), Err(Refusal::Room { enough: 2 }));
    assert_eq!((field.rows.len(), field.rows[1]), (2, 9));
    let done = mend(&mut field, &mut [[0; 3]; 1], &mut scratch).unwrap();
    assert_eq!((done.entries, done.changes, done.grade, field.rows.len()), (1, 1, Grade::Exact, 1));
}

#[test]
fn what_is_lent_is_tested() {
    let (mut f, mut u) = ([0.0; floats(2, 1)], [0; words(2, 1)]);
    let field = Field { linear: &[1.0, 1.0], rows: &[0], cols: &[1], quad: &[4.0] };
    let mut short = Scratch { floats: &mut f[1..], words: &mut u };
    assert_eq!(closure(&field, &mut [FREE; 2], &mut short), Err(Refusal::Scratch));
    let mut scratch = Scratch { floats: &mut f, words: &mut u };
    assert_eq!(closure(&field, &mut [FREE, 3], &mut scratch), Err(Refusal::Start));
    assert_eq!(closure(&field, &mut [FREE; 3], &mut scratch), Err(Refusal::Start));
    let uneven = Field { cols: &[], ..field };
    assert_eq!(closure(&uneven, &mut [FREE; 2], &mut scratch), Err(Refusal::Lists));
    let turned = Field { rows: &[0, 1], cols: &[1, 0], quad: &[4.0, 4.0], ..field };
    assert_eq!(closure(&turned, &mut [FREE; 2], &mut scratch), Err(Refusal::Order { at: 1 }));
    assert_eq!(propagate(&mut [FREE; 2], &[], &mut [0; words(2, 0) - 1]), Err(Refusal::Scratch));
}
