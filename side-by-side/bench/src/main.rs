//! Times the Rust text and the port in one process on the same fields, after comparing their answers, and prints Markdown tables.
//! Usage: bench [calls | fields FOLDER | tables]
//! CALLS, SHAPES and SIZES name what is measured, with commas, all where they are not set, and MILLISECONDS the time for each side;
//! with OUTPUT=lines each line is printed plainly. With `calls` the calls' names are printed, with `fields` the fields are written into the folder, as toulbar2 reads them, and
//! with `tables` plain lines that were measured before are read from standard input, and their tables printed.

mod aims;
mod calls;
mod fields;
mod growth;
#[path = "../../../rust/src/library.rs"]
mod library;
mod line;
mod port;
mod tables;
mod text;
mod timing;
mod toulbar2;

use calls::{Call, On, CALLS};
use fields::{Field, Rules, RULES, SHAPES};
use line::Line;
use std::path::Path;
use std::time::Duration;
use tables::SIZES;
use timing::Sides;

fn main() {
    let words: Vec<String> = std::env::args().skip(1).collect();
    let work: fn(Vec<String>) = match words.first().map(String::as_str) {
        None => |_| measure_all(),
        Some("calls") => |_| CALLS.iter().for_each(|call| println!("{}", call.name)),
        Some("fields") => |words| toulbar2::write(Path::new(&words[1])),
        Some("tables") => |_| tables::print(&read_all()),
        Some(word) => panic!("no such word: {word}"),
    };
    // A thread whose stack is there from the start, so that it can be painted.
    let thread = std::thread::Builder::new().stack_size(1 << 24);
    let done = thread.spawn(move || work(words)).expect("a thread").join();
    std::process::exit(i32::from(done.is_err()));
}

/// The plain lines of standard input.
fn read_all() -> Vec<Line> {
    let name = |word: &str| {
        let calls = CALLS.iter().map(|call| call.name);
        let mut names = calls.chain(SHAPES).chain(RULES);
        names.find(|&name| name == word).expect("a call or a shape")
    };
    let lines = std::io::stdin().lines();
    lines
        .map(|line| Line::read(&line.expect("a line"), name))
        .collect()
}

/// Whether a variable of the environment, a list with commas, names the word; all words where it is not set.
fn named(variable: &str, word: &str) -> bool {
    std::env::var(variable).map_or(true, |list| {
        list.is_empty() || list.split(',').any(|own| own.trim() == word)
    })
}

/// Whether the shape and the size are to be measured.
fn wanted(shape: &str, n: usize) -> bool {
    named("SHAPES", shape) && named("SIZES", &n.to_string())
}

fn measure_all() {
    timing::keep_heap();
    timing::set_reading();
    let plain = std::env::var("OUTPUT").is_ok_and(|word| word == "lines");
    let budget = std::env::var("MILLISECONDS").map_or(200, |word| word.parse().expect("a number"));
    let mut lines = Vec::new();
    for call in CALLS.iter().filter(|call| named("CALLS", call.name)) {
        measure(call, Duration::from_millis(budget), &mut |line| {
            if plain {
                println!("{}", line.plain());
            } else {
                eprintln!("{line}");
            }
            lines.push(line);
        });
    }
    if !plain {
        tables::print(&lines);
    }
}

/// A line for each shape and size, then those that tell the growth of a random field with n and with m alone.
fn measure(call: &Call, budget: Duration, add: &mut dyn FnMut(Line)) {
    match call.on {
        On::Rules(sides) => {
            let mut all = Vec::new();
            for shape in RULES {
                all.extend(SIZES.map(|n| Rules::new(shape, n)));
            }
            all.extend([4_096, 16_384].map(|count| Rules::counted("random", 4_096, count)));
            for rules in all.iter().filter(|r| wanted(r.shape, r.start.len())) {
                let (n, m) = (rules.start.len(), rules.constraints.len() / 3);
                let runs = twice(budget, || sides(rules));
                add(Line::new(call.name, rules.shape, n, m, runs));
            }
        }
        On::Field(made, sides) => on_fields(call, budget, made, sides, add),
        On::Exact(sides) => on_fields(call, budget, |field| field, sides, add),
    }
}

/// A line for each shape and size of a field, without the inexact ones where the call wants an exact field.
fn on_fields(
    call: &Call,
    budget: Duration,
    made: fn(Field) -> Field,
    sides: fn(&Field) -> Sides,
    add: &mut dyn FnMut(Line),
) {
    let exact = matches!(call.on, On::Exact(_));
    let wanted =
        |shape: &str, n: usize| wanted(shape, n) && !(exact && shape.starts_with("inexact"));
    let mut all: Vec<(&str, usize, Option<usize>)> = Vec::new();
    for shape in SHAPES {
        all.extend(SIZES.map(|n| (shape, n, None)));
    }
    all.push(("random", 2_048, Some(8_192)));
    all.extend([4_096, 8_192, 16_384].map(|m| ("random", 4_096, Some(m))));
    for (shape, n, m) in all.into_iter().filter(|&(shape, n, _)| wanted(shape, n)) {
        let field = made(m.map_or_else(|| Field::new(shape, n), |m| Field::random(n, m)));
        let runs = twice(budget, || sides(&field));
        add(Line::new(call.name, shape, n, field.m(), runs));
    }
}

/// Measures twice, in memory of its own each time, with half the budget; a slow call once.
fn twice(budget: Duration, sides: impl Fn() -> Sides) -> timing::Runs {
    let first = sides().in_turn(budget / 2);
    if first.slow(budget / 2) {
        return first;
    }
    first.and(sides().in_turn(budget / 2))
}
