//! Compares the two sides' answers line by line.
//! Usage: `agree CASES RUST_ANSWERS OTHER_ANSWERS`. It prints the first and the smallest difference, each with its case, and at the end a count for each call.

use std::collections::BTreeMap;
use std::fs::File;
use std::io::{self, BufRead, BufReader};
use stream::line::part;
use stream::{Call, Case};

fn main() -> io::Result<()> {
    let words: Vec<String> = std::env::args().skip(1).collect();
    let [cases, rust, other] = &words[..] else {
        panic!("usage: agree CASES RUST_ANSWERS OTHER_ANSWERS")
    };
    let open = |path: &String| File::open(path).map(|file| BufReader::with_capacity(1 << 20, file));
    let mut cases = open(cases)?;
    let (mut rust, mut other) = (open(rust)?.lines(), open(other)?.lines());
    let mut counts: BTreeMap<Call, [u64; 4]> = BTreeMap::new();
    let (mut number, mut differences) = (0, 0);
    let mut least: Option<Difference> = None;
    while let Some(case) = Case::read(&mut cases)? {
        number += 1;
        let ours = rust.next().expect("a line of the Rust for each case")?;
        let theirs = other
            .next()
            .unwrap_or_else(|| Ok("(no line)".to_string()))?;
        let count = counts.entry(case.call).or_default();
        if ours == theirs {
            count[0] += 1;
            match ours.split(' ').take(2).collect::<Vec<_>>()[..] {
                ["0", "exact"] => count[1] += 1,
                ["0", ..] => count[2] += 1,
                _ => {}
            }
            continue;
        }
        count[3] += 1;
        differences += 1;
        let difference = Difference {
            number,
            case,
            ours,
            theirs,
        };
        if differences == 1 {
            difference.show("first difference");
        }
        if least.as_ref().is_none_or(|d| difference.size() < d.size()) {
            least = Some(difference);
        }
    }
    if let Some(difference) = least.filter(|_| differences > 1) {
        difference.show("smallest difference");
    }
    let extra = other.count();
    if extra > 0 {
        println!("the other side has {extra} lines too many");
    }
    println!("call: cases, of them exact, other 0, refused; different");
    for (call, [same, exact, done, different]) in &counts {
        println!(
            "{}: {}, {exact}, {done}, {}; {different}",
            call.name(),
            same + different,
            same - exact - done
        );
    }
    println!("{number} cases, {differences} different");
    std::process::exit(i32::from(differences > 0 || extra > 0));
}

/// A case on which the sides differ.
struct Difference {
    number: u64,
    case: Case,
    ours: String,
    theirs: String,
}

impl Difference {
    fn size(&self) -> usize {
        self.case.n() + self.case.weights.len() + self.case.constraints.len()
    }

    fn show(&self, title: &str) {
        println!("{title}, case {}\n{}", self.number, self.case.show());
        println!(
            "the Rust: {}\nthe other: {}",
            cut(&self.ours),
            cut(&self.theirs)
        );
        if let Some(same) = same_pairs(&self.ours, &self.theirs) {
            let word = if same { "equal" } else { "unequal" };
            println!("the sets of forbidden pairs are {word}");
        }
    }
}

fn cut(line: &str) -> String {
    let shown: String = line.chars().take(2_000).collect();
    if shown.len() < line.len() {
        shown + " .."
    } else {
        shown
    }
}

/// Whether both lines' constraints forbid the same pairs; nothing where either has none.
fn same_pairs(ours: &str, theirs: &str) -> Option<bool> {
    Some(forbidden(ours)? == forbidden(theirs)?)
}

/// The forbidden pairs as (lower variable, higher variable) with four bits, 00, 01, 10, 11 from the lowest.
fn forbidden(line: &str) -> Option<BTreeMap<(usize, usize), usize>> {
    let mut pairs: BTreeMap<_, usize> = BTreeMap::new();
    for item in part(line, "constraints")?
        .split(';')
        .filter(|item| !item.is_empty())
    {
        let parts: Vec<usize> = item.split(',').filter_map(|x| x.parse().ok()).collect();
        let [i, j, set] = parts[..] else { return None };
        *pairs.entry((i, j)).or_default() |= set;
    }
    Some(pairs)
}
