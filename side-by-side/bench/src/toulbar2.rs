//! The exact fields as toulbar2 reads them, with what the port leaves of each.

use crate::fields::{Field, SHAPES};
use crate::named;
use crate::port::Lent;
use crate::tables::SIZES;
use crate::text::Text;
use crate::timing::{keep_heap, median, set_reading};
use std::fmt::Write;
use std::path::Path;
use std::time::Duration;

/// The variables of a field that is small enough to enumerate.
const FEW: usize = 12;

/// Writes a file for each field, and two lists with tabs: `small`, with the least cost of each field of few variables, and
/// `large`, with what the port leaves of each other field and its microseconds. toulbar2 takes whole numbers, so the inexact shapes
/// are left out.
pub fn write(folder: &Path) {
    keep_heap();
    set_reading();
    let shapes = SHAPES
        .into_iter()
        .filter(|shape| named("SHAPES", shape) && !shape.contains("inexact"));
    let (mut small, mut large) = (String::new(), String::new());
    for (number, shape) in shapes.enumerate() {
        let few = Field::new(shape, FEW);
        let name = format!("small-{number}.wcsp");
        let (text, added) = twice(&few);
        put(&folder.join(&name), &text);
        writeln!(small, "{name}\t{shape}\t{}", least(&few) + added).expect("text");
        for n in SIZES.into_iter().filter(|n| named("SIZES", &n.to_string())) {
            let field = Field::new(shape, n);
            let name = format!("large-{number}-{n}.wcsp");
            put(&folder.join(&name), &twice(&field).0);
            let left = [Lent::preprocess, Lent::heavy].map(|call| left(&field, call));
            let cells = left.map(|(time, stay)| format!("{stay}\t{}", time.as_micros()));
            writeln!(
                large,
                "{name}\t{shape}\t{n}\t{}\t{}\t{}",
                field.m(),
                free(&field.start),
                cells.join("\t")
            )
            .expect("text");
        }
    }
    put(&folder.join("small"), &small);
    put(&folder.join("large"), &large);
}

fn put(path: &Path, text: &str) {
    std::fs::write(path, text).expect("a file that can be written");
}

fn free(values: &[u8]) -> usize {
    values.iter().filter(|&&value| value == 2).count()
}

/// The median time of a call that answers in the start values, and how many variables it leaves free.
fn left(field: &Field, call: fn(&mut Lent) -> (Duration, u64)) -> (Duration, usize) {
    let mut lent = Lent::new(field, 0);
    let mut times: Vec<_> = (0..5).map(|_| call(&mut lent).0).collect();
    (median(&mut times).expect("five"), free(lent.values()))
}

/// The weight as a whole number.
fn whole(weight: f64) -> i64 {
    let number = weight as i64;
    assert!(number as f64 == weight, "a weight that is not whole");
    number
}

/// Twice the field as a sum of costs, none below 0, in toulbar2's format `wcsp`, and what was added to have it so: a function of one
/// variable for each linear weight, whose cost passes the bound where a start value rules the value out, and one of two for each entry.
fn twice(field: &Field) -> (String, i64) {
    let linear: Vec<i64> = field.c.iter().map(|&c| whole(2.0 * c)).collect();
    let entries: Vec<i64> = field.q.iter().map(|&q| whole(q)).collect();
    let most = linear.iter().chain(&entries).map(|w| w.abs()).sum::<i64>();
    let bound = 2 * most + 1;
    let mut added = 0;
    let mut text = format!(
        "field {} 2 {} {bound}\n{}\n",
        field.n(),
        field.n() + field.m(),
        vec!["2"; field.n()].join(" ")
    );
    for (i, (&weight, &start)) in linear.iter().zip(&field.start).enumerate() {
        let less = weight.min(0);
        added -= less;
        let ruled_out = |value: u8| if start == 1 - value { bound } else { 0 };
        let [zero, one] = [ruled_out(0) - less, ruled_out(1) + weight - less];
        writeln!(text, "1 {i} 0 2\n0 {zero}\n1 {one}").expect("text");
    }
    for (k, &weight) in entries.iter().enumerate() {
        let less = weight.min(0);
        added -= less;
        let (i, j) = (field.rows[k], field.cols[k]);
        writeln!(text, "2 {i} {j} {} 1\n1 1 {}", -less, weight - less).expect("text");
    }
    (text, added)
}

/// Twice the least sum over all completions, by the Rust text's own sum.
fn least(field: &Field) -> i64 {
    let text = Text::new(field);
    (0..1_u32 << field.n())
        .map(|mask| (0..field.n()).map(|i| (mask >> i & 1) as u8).collect())
        .filter(|x: &Vec<u8>| x.iter().zip(&field.start).all(|(v, s)| *s == 2 || v == s))
        .map(|x| whole(2.0 * text.sum(&x)))
        .min()
        .expect("a completion")
}
