//! How the port's time grows, by the factor for a doubling.

use crate::fields::SHAPES;
use crate::line::Line;
use crate::tables::{calls, head, row, standard};

/// The line of a call on a random field.
fn random<'a>(lines: &'a [Line], call: &str, n: usize, m: usize) -> Option<&'a Line> {
    lines
        .iter()
        .find(|l| l.call == call && l.shape == "random" && l.n == n && l.m.abs_diff(m) <= 1_024)
}

/// The second's time over the first's.
fn factor(from: Option<&Line>, to: Option<&Line>) -> Option<f64> {
    Some(to?.port.as_secs_f64() / from?.port.as_secs_f64())
}

/// The growth of a call's time on a shape from half of n to n.
pub fn doubled(lines: &[Line], call: &str, shape: &str, n: usize) -> Option<f64> {
    let at = |n| standard(lines, call, shape, n);
    factor(at(n / 2), at(n))
}

/// The same for the Rust.
fn doubled_rust(lines: &[Line], call: &str, shape: &str, n: usize) -> Option<f64> {
    let at = |n| standard(lines, call, shape, n)?.rust;
    Some(at(n)?.as_secs_f64() / at(n / 2)?.as_secs_f64())
}

pub fn print(lines: &[Line]) {
    println!("\n## Growth: the port's time after a doubling over the time before\n");
    println!("On random fields, of n alone, of m alone, and of both.\n");
    let steps = [
        [(1_024, 8_192), (2_048, 8_192)],
        [(2_048, 8_192), (4_096, 8_192)],
        [(4_096, 4_096), (4_096, 8_192)],
        [(4_096, 8_192), (4_096, 16_384)],
        [(4_096, 16_384), (4_096, 32_768)],
        [(1_024, 8_192), (2_048, 16_384)],
        [(2_048, 16_384), (4_096, 32_768)],
    ];
    let names = [
        "call",
        "n to 2048, m = 8192",
        "n to 4096, m = 8192",
        "m to 8192, n = 4096",
        "m to 16384, n = 4096",
        "m to 32768, n = 4096",
        "n to 2048, m = 8n",
        "n to 4096, m = 8n",
    ];
    head(&names);
    for call in calls(lines).into_iter().filter(|&c| c != "propagate") {
        let at = |(n, m)| random(lines, call, n, m);
        row(call, &steps.map(|[from, to]| factor(at(from), at(to))));
    }
    by_shape(lines);
    full_probe(lines);
}

/// From n = 2,048 to 4,096, where the entries grow with n.
fn by_shape(lines: &[Line]) {
    println!("\nFrom n = 2,048 to 4,096, on the shapes whose entries grow with n.\n");
    let calls = calls(lines);
    head(&[&["shape"], calls.as_slice()].concat());
    for shape in SHAPES.into_iter().filter(|&shape| grows(shape)) {
        let found = calls.iter().map(|&call| doubled(lines, call, shape, 4_096));
        row(shape, &found.collect::<Vec<_>>());
    }
}

/// Whether the entries of a shape grow with n.
fn grows(shape: &str) -> bool {
    shape == "cliques of 10" || !shape.contains("clique")
}

/// The full probe on every shape.
fn full_probe(lines: &[Line]) {
    println!("\nThe full probe, on every shape, and the Rust's growth beside it.\n");
    head(&[
        "shape",
        "n to 2048",
        "n to 4096",
        "Rust, n to 2048",
        "Rust, n to 4096",
    ]);
    for shape in SHAPES {
        let port = [2_048, 4_096].map(|n| doubled(lines, "probe", shape, n));
        let rust = [2_048, 4_096].map(|n| doubled_rust(lines, "probe", shape, n));
        row(shape, &[port, rust].concat());
    }
}
