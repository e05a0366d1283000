//! Each call on both sides: the answers are compared, then both sides are handed over to be timed. A call that the text does not
//! have is timed alone.

use crate::fields::{Field, Rules};
use crate::port::{parts, Lent, LentRecord, LentRules};
use crate::text::{Text, TextRules};
use crate::timing::Sides;
use hercules::constraint::Constraint;
use hercules::qubo::Qubo;
use hercules::variable_reduction::ProbedEquationSet;
use hercules::FixedVarMap;
use std::time::Duration;

/// The candidates of a limited probe.
const CANDIDATES: usize = 64;

/// The pairs that no limit passes.
const MOST_PAIRS: usize = 250_000;

/// A call that is measured.
pub struct Call {
    pub name: &'static str,
    pub on: On,
}

/// What a call works on, and its sides there. A field may be made of the shape's own, as the call needs it; a record is of an
/// exact field alone.
pub enum On {
    Field(fn(Field) -> Field, fn(&Field) -> Sides),
    Exact(fn(&Field) -> Sides),
    Rules(fn(&Rules) -> Sides),
}

const fn on_field(name: &'static str, sides: fn(&Field) -> Sides) -> Call {
    on_made(name, |field| field, sides)
}

const fn on_made(name: &'static str, made: fn(Field) -> Field, sides: fn(&Field) -> Sides) -> Call {
    let on = On::Field(made, sides);
    Call { name, on }
}

const fn on_exact(name: &'static str, sides: fn(&Field) -> Sides) -> Call {
    let on = On::Exact(sides);
    Call { name, on }
}

/// A line of the tables for each call; a new call is one more here.
pub const CALLS: &[Call] = &[
    on_field("closure", |f| in_start(f, Text::closure, Lent::closure)),
    on_field("components", |f| {
        in_start(f, Text::components, Lent::components)
    }),
    on_field("preprocess", |f| {
        in_start(f, Text::preprocess, Lent::preprocess)
    }),
    on_field("no_effect", no_effect),
    on_made("shift", Field::with_diagonal, shift),
    on_made("sub_problem", Field::half_given, sub_problem),
    on_made("mend", Field::turned, mend),
    on_exact("keep", keep),
    on_exact("pin", pin),
    on_exact("release", release),
    on_exact("close", close),
    on_made("anchors", Field::balanced, anchors),
    on_field("pairs", pairs),
    on_field("probe_one", |f| probe_one(f, Lent::probe_one)),
    on_field("cold_probe_one", |f| probe_one(f, Lent::cold_probe_one)),
    Call {
        name: "propagate",
        on: On::Rules(propagate),
    },
    on_field("probe_limited", |f| {
        probes(
            f,
            |text| text.probe_limited(CANDIDATES),
            |lent| lent.probe_limited(CANDIDATES),
        )
    }),
    on_field("heavy", |f| in_start(f, Text::heavy, Lent::heavy)),
    on_field("probe", |f| probes(f, Text::probe, Lent::probe)),
];

type Timed<T> = (Duration, T);

/// Both sides of a call, whose answers are the same.
fn both(
    rust: impl FnMut() -> Duration + 'static,
    port: impl FnMut() -> Duration + 'static,
) -> Sides {
    Sides {
        rust: Some(Box::new(rust)),
        port: Box::new(port),
        floor: None,
    }
}

/// A call that the text does not have.
fn alone(port: impl FnMut() -> Duration + 'static) -> Sides {
    Sides {
        rust: None,
        port: Box::new(port),
        floor: None,
    }
}

fn agree(same: bool) {
    assert!(same, "the answers differ");
}

/// The count of an answer that is no refusal.
fn done(answer: u64) -> usize {
    let (refusal, count) = parts(answer);
    assert_eq!(refusal, 0, "refused");
    count
}

/// A call that answers in the start values.
fn in_start(
    field: &Field,
    rust: fn(&Text) -> Timed<FixedVarMap>,
    port: fn(&mut Lent) -> Timed<u64>,
) -> Sides {
    let text = Text::new(field);
    let mut lent = Lent::new(field, 0);
    done(port(&mut lent).1);
    agree(text.list(&rust(&text).1) == lent.values());
    both(move || rust(&text).0, move || port(&mut lent).0)
}

/// Beside it stands one read of the input and one clearing of the scratch, in other memory.
fn no_effect(field: &Field) -> Sides {
    let text = Text::new(field);
    let mut lent = Lent::new(field, field.n());
    let mut other = Lent::new(field, 0);
    let count = done(lent.no_effect().1);
    agree(same_list(&text.no_effect().1, &lent.list()[..count]));
    Sides {
        floor: Some(Box::new(move || other.read_and_clear().0)),
        ..both(move || text.no_effect().0, move || lent.no_effect().0)
    }
}

fn shift(field: &Field) -> Sides {
    let text = Text::new(field);
    let mut lent = Lent::new(field, 0);
    let from = field.clone();
    let count = done(lent.shift(&from).1);
    agree(same_field(&text.shift().1, lent.field(), count));
    both(move || text.shift().0, move || lent.shift(&from).0)
}

fn sub_problem(field: &Field) -> Sides {
    let text = Text::new(field);
    let mut lent = Lent::new(field, field.n());
    let from = field.clone();
    let (answer, constant) = lent.sub_problem(&from).1;
    let count = done(answer);
    let left = (answer >> 44) as usize;
    let (reduced, places, expected) = text.sub_problem().1;
    agree(same_field(
        &reduced,
        &lent.field().first(left, count),
        count,
    ));
    agree(expected.to_bits() == constant.to_bits());
    agree(places.len() == left);
    agree((0..left).all(|new| places.get(&usize::from(lent.list()[new])) == Some(&new)));
    both(
        move || text.sub_problem().0,
        move || lent.sub_problem(&from).0,
    )
}

/// The entries are given in the reversed order, and come back in order.
fn mend(field: &Field) -> Sides {
    let mut lent = Lent::new(field, 3 * field.m());
    let from = field.clone();
    let count = done(lent.mend(&from).1);
    agree(count == field.m() && same_entries(lent.field(), &from.clone().turned()));
    alone(move || lent.mend(&from).0)
}

fn keep(field: &Field) -> Sides {
    let mut lent = LentRecord::new(field);
    alone(move || lent.keep().0)
}

/// A pin of the first free variable, which a release takes back outside the time.
fn pin(field: &Field) -> Sides {
    let mut lent = back_and_forth(field);
    let i = field.free();
    alone(move || {
        let time = lent.pin(i, 1).0;
        lent.release(i);
        time
    })
}

fn release(field: &Field) -> Sides {
    let mut lent = back_and_forth(field);
    let i = field.free();
    alone(move || {
        lent.pin(i, 1);
        lent.release(i).0
    })
}

/// A record in which a pin was made, changed it, and was taken back.
fn back_and_forth(field: &Field) -> LentRecord {
    let mut lent = LentRecord::new(field);
    let i = field.free();
    let made = lent.contents();
    done(lent.pin(i, 1).1);
    agree(lent.contents() != made);
    done(lent.release(i).1);
    agree(lent.contents() == made);
    lent
}

/// Beside closing from the record stands the text's closure from the start values, which has the same answer.
fn close(field: &Field) -> Sides {
    let text = Text::new(field);
    let mut lent = LentRecord::new(field);
    done(lent.close().1);
    agree(text.list(&text.closure().1) == lent.closed());
    both(move || text.closure().0, move || lent.close().0)
}

fn anchors(field: &Field) -> Sides {
    let text = Text::new(field);
    let mut lent = Lent::new(field, field.n());
    let count = done(lent.anchors(1).1);
    agree(same_list(&text.anchors(1).1, &lent.list()[..count]));
    both(move || text.anchors(1).0, move || lent.anchors(1).0)
}

fn pairs(field: &Field) -> Sides {
    let text = Text::new(field);
    let expected = records(&text.pairs().1);
    let mut lent = Lent::new(field, expected.len());
    done(lent.pairs(MOST_PAIRS).1);
    agree(expected == lent.list());
    both(move || text.pairs().0, move || lent.pairs(MOST_PAIRS).0)
}

/// One probe, fast or cold, of the first free variable at 1.
fn probe_one(field: &Field, port: fn(&mut Lent, usize, u8) -> Timed<u64>) -> Sides {
    let text = Text::new(field);
    let mut lent = Lent::new(field, 0);
    let i = field.free();
    done(port(&mut lent, i, 1).1);
    agree(text.list(&text.probe_one(i, 1).1) == lent.values());
    both(
        move || text.probe_one(i, 1).0,
        move || port(&mut lent, i, 1).0,
    )
}

/// The probes of many candidates.
fn probes(
    field: &Field,
    rust: fn(&Text) -> Timed<(ProbedEquationSet, FixedVarMap)>,
    port: fn(&mut Lent) -> Timed<u64>,
) -> Sides {
    let text = Text::new(field);
    let (set, values) = rust(&text).1;
    let expected = records(&set.constraints);
    let mut lent = Lent::new(field, expected.len());
    done(port(&mut lent).1);
    agree(expected == lent.list());
    agree(text.list(&values) == lent.values());
    both(move || rust(&text).0, move || port(&mut lent).0)
}

fn propagate(rules: &Rules) -> Sides {
    let text = TextRules::new(rules);
    let mut lent = LentRules::new(rules);
    let expected = text.propagate().1;
    let refusal = parts(lent.propagate().1).0;
    agree(match expected {
        Some(values) => refusal == 0 && values == lent.values,
        None => refusal == 10 && rules.start == lent.values,
    });
    both(move || text.propagate().0, move || lent.propagate().0)
}

fn same_list(rust: &[usize], port: &[u16]) -> bool {
    rust.len() == port.len() && rust.iter().zip(port).all(|(&a, &b)| a == usize::from(b))
}

/// The records of the text's constraints.
fn records(rust: &[Constraint]) -> Vec<u16> {
    stream::merged(rust.iter().map(Constraint::forbidden))
        .iter()
        .flat_map(|&(i, j, set)| [i as u16, j as u16, set as u16])
        .collect()
}

fn same_entries(a: &Field, b: &Field) -> bool {
    a.rows == b.rows && a.cols == b.cols && a.q == b.q
}

fn same_field(rust: &Qubo, port: &Field, count: usize) -> bool {
    let mut entries: Vec<_> = rust.q.iter().map(|(&q, (i, j))| (i, j, q)).collect();
    entries.sort_by_key(|&(i, j, _)| (j, i));
    let own = |k: usize| (port.rows[k].into(), port.cols[k].into(), port.q[k]);
    rust.c.to_vec() == port.c
        && entries.len() == count
        && entries.iter().enumerate().all(|(k, e)| *e == own(k))
}
