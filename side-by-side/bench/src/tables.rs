//! What was measured, as Markdown tables.

use crate::aims::{Aim, Bound, AIMS};
use crate::fields::{CLIQUES, SHAPES};
use crate::growth;
use crate::line::{micros, two, Line};

pub const SIZES: [usize; 4] = [256, 1_024, 2_048, 4_096];

/// The calls in the order in which they were measured.
pub fn calls(lines: &[Line]) -> Vec<&'static str> {
    let mut names: Vec<_> = lines.iter().map(|line| line.call).collect();
    names.dedup();
    names
}

/// The line of a call on the field of a shape and size; the fields that tell the growth with m alone stand after it.
pub fn standard<'a>(lines: &'a [Line], call: &str, shape: &str, n: usize) -> Option<&'a Line> {
    lines
        .iter()
        .find(|l| l.call == call && l.shape == shape && l.n == n)
}

pub fn head(words: &[&str]) {
    println!("| {} |", words.join(" | "));
    println!("|{}", "---|".repeat(words.len()));
}

/// A row of numbers; none where nothing of it was measured.
pub fn row(name: &str, numbers: &[Option<f64>]) {
    if numbers.iter().any(Option::is_some) {
        let cells: Vec<_> = numbers.iter().map(|&number| two(number)).collect();
        println!("| {name} | {} |", cells.join(" | "));
    }
}

pub fn print(lines: &[Line]) {
    aims(lines);
    println!("\n## Ratios: the Rust's time over the port's");
    for n in [256, 1_024, 4_096] {
        ratios(lines, n);
    }
    floors(lines);
    growth::print(lines);
    stack(lines);
    times(lines);
}

/// For each bound the worst of its call, where that is, and whether it is met.
fn aims(lines: &[Line]) {
    println!("\n## Least ratios, and what was asked\n");
    head(&["call", "shapes", "worst", "on", "asked", "reached"]);
    for aim in AIMS {
        let Some((worst, place)) = worst(lines, aim) else {
            continue;
        };
        let (asked, met) = match aim.bound {
            Bound::Ratio(least) => (format!("at least {least}"), worst >= least),
            Bound::Floor(most) => (format!("at most {most} of read and clear"), worst <= most),
            Bound::Growth(most) => (format!("grows by at most {most}"), worst <= most),
        };
        let shapes = match aim.shapes {
            [] => "all".to_string(),
            names if *names == CLIQUES => "exact cliques".to_string(),
            names => names.join(", "),
        };
        let reached = if met { "yes" } else { "**no**" };
        println!(
            "| {} | {shapes} | {worst:.2} | {place} | {asked} | {reached} |",
            aim.call
        );
    }
}

/// The number that is furthest from what is asked, and where it was measured.
fn worst(lines: &[Line], aim: &Aim) -> Option<(f64, String)> {
    let own = lines.iter().filter(|line| {
        line.call == aim.call && (aim.shapes.is_empty() || aim.shapes.contains(&line.shape))
    });
    let found: Vec<(f64, String)> = own
        .filter_map(|line| {
            let number = match aim.bound {
                Bound::Ratio(_) => line.ratio(),
                Bound::Floor(_) => line.over_floor(),
                Bound::Growth(_) => growth::doubled(lines, line.call, line.shape, line.n),
            };
            Some((number?, line.place()))
        })
        .collect();
    let sign = if matches!(aim.bound, Bound::Ratio(_)) {
        1.0
    } else {
        -1.0
    };
    found
        .into_iter()
        .min_by(|a, b| (sign * a.0).total_cmp(&(sign * b.0)))
}

/// A row for each shape, a column for each call.
fn ratios(lines: &[Line], n: usize) {
    println!("\n### n = {n}\n");
    let beside = |call: &&str| lines.iter().any(|l| l.call == *call && l.rust.is_some());
    let calls: Vec<_> = calls(lines).into_iter().filter(beside).collect();
    head(&[&["shape"], calls.as_slice()].concat());
    for shape in SHAPES.into_iter().chain(["clash"]) {
        let found = calls
            .iter()
            .map(|&call| standard(lines, call, shape, n).and_then(Line::ratio));
        row(shape, &found.collect::<Vec<_>>());
    }
}

/// The calls that have the least that they could take beside them.
fn floors(lines: &[Line]) {
    println!(
        "\n## Beside one read of the input and one clearing of the scratch, in microseconds\n"
    );
    head(&[
        "call",
        "shape",
        "n",
        "m",
        "Rust",
        "port",
        "read and clear",
        "port over it",
    ]);
    for line in lines {
        let (Some(rust), Some(floor)) = (line.rust, line.floor) else {
            continue;
        };
        println!(
            "| {} | {} | {} | {} | {} | {} | {} | {} |",
            line.call,
            line.shape,
            line.n,
            line.m,
            micros(rust),
            micros(line.port),
            micros(floor),
            two(line.over_floor())
        );
    }
}

/// The greatest depth of each call's stack.
fn stack(lines: &[Line]) {
    println!("\n## Stack: the greatest depth of each of the port's calls, in bytes\n");
    head(&["call", "bytes", "on"]);
    for call in calls(lines) {
        let own = lines.iter().filter(|line| line.call == call);
        if let Some(line) = own.max_by_key(|line| line.depth) {
            println!("| {call} | {} | {} |", line.depth, line.place());
        }
    }
}

fn times(lines: &[Line]) {
    println!("\n## Times in microseconds\n");
    println!("For propagation m is the number of constraints.\n");
    head(&["call", "shape", "n", "m", "Rust", "port", "ratio", "runs"]);
    for line in lines {
        println!("{line}");
    }
}
