//! The flush plan of `example/plan.txt`, presolved from Rust: what the gradient forces, what may go either way, and the rest.
use ombradiec::{anchors, closure, preprocess, Builder, Grade, Refusal, Repeats, Scratch, Values};

const GROUPS: [(&str, f64); 9] = [
    ("sales-list", 6.0),
    ("sales-pages", 4.0),
    ("sales-index", 3.0),
    ("prices", -3.0),
    ("log", -2.5),
    ("counters", -0.5),
    ("receipts", -0.5),
    ("photos", -0.5),
    ("menu", 0.5),
];
const PAIRS: [(usize, usize, f64); 6] =
    [(0, 2, -2.0), (1, 2, -2.0), (3, 4, 2.0), (4, 5, 2.0), (6, 7, 2.0), (3, 8, -2.0)];

/// The groups whose value is new.
fn print_new(before: &Values, after: &Values) {
    for (i, late) in after.iter_forced().filter(|&(i, _)| before.get(i).is_none()) {
        println!("  {}: {} window", GROUPS[i].0, if late { "second" } else { "first" });
    }
}

fn main() -> Result<(), Refusal> {
    let mut builder = Builder::new(Repeats::Refuse);
    for (_, weight) in GROUPS {
        builder.variable(weight);
    }
    for (row, column, weight) in PAIRS {
        builder.entry(row, column, weight);
    }
    let field = builder.build()?;
    let mut scratch = Scratch::new();
    let mut given = Values::free(GROUPS.len());
    given.set(8, Some(true)); // the menu is always late

    let mut forced = given.clone();
    let done = closure(&field, &mut forced, &mut scratch)?;
    println!("forced in every best plan, grade {}:", if done.grade == Grade::Exact { "exact" } else { "inexact" });
    print_new(&given, &forced);

    println!("in either window, each in some best plan:");
    for i in anchors(&field, &forced, 2, &mut scratch)?.0 {
        println!("  {}", GROUPS[i].0);
    }

    let mut plan = given.clone();
    preprocess(&field, &mut plan, &mut scratch)?;
    println!("the rest, in one best plan:");
    print_new(&forced, &plan);
    Ok(())
}
