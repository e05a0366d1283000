//! Checks answers on exact fields against the requirements' whole-number definitions and, up to 12 variables, against all completions.
//! Usage: `demands CASES ANSWERS`. It prints how many cases of each call were checked and fails at the first that breaks a demand.

use std::collections::BTreeMap;
use std::fs::File;
use std::io::{self, BufRead, BufReader};
use stream::line::part;
use stream::{table, Call, Case, MOST_PAIRS};
use tools::together::Together;
use tools::whole::{agrees, meets, Whole};

/// The greatest number of variables whose completions are gone through.
const MOST: usize = 12;

/// The greatest number of variables for which the definitions are worked out.
const MOST_DEFINED: usize = 130;

fn main() -> io::Result<()> {
    let words: Vec<String> = std::env::args().skip(1).collect();
    let [cases, answers] = &words[..] else {
        panic!("usage: demands CASES ANSWERS")
    };
    let mut cases = BufReader::with_capacity(1 << 20, File::open(cases)?);
    let mut answers = BufReader::with_capacity(1 << 20, File::open(answers)?).lines();
    let mut counts: BTreeMap<Call, (u64, u64)> = BTreeMap::new();
    let mut choices = Choices::default();
    let mut number = 0;
    while let Some(case) = Case::read(&mut cases)? {
        number += 1;
        let line = answers.next().expect("an answer for each case")?;
        let count = counts.entry(case.call).or_default();
        if case.call == Call::Mend {
            match mended(&case, &line) {
                Ok(done) => count.0 += done,
                Err(what) => fail(number, &case, &line, &what),
            }
            continue;
        }
        if !(line.starts_with("0 exact ") || case.call.takes_constraints())
            || case.n() > MOST_DEFINED
        {
            continue;
        }
        let checked = match case.call {
            Call::Propagation => propagation(&case, &line).map(|done| (0, done)),
            Call::Allow => allow(&case, &line).map(|done| (0, done)),
            _ => field_call(&case, &line),
        };
        let chosen = choices.next(&case, &line);
        match checked.and_then(|done| chosen.map(|()| done)) {
            Ok((defined, demanded)) => {
                count.0 += defined;
                count.1 += demanded;
            }
            Err(what) => fail(number, &case, &line, &what),
        }
    }
    println!("call: cases whose answer is the definition's; cases whose completions obey");
    for (call, (defined, demanded)) in counts {
        println!("{}: {defined}; {demanded}", call.name());
    }
    choices.end().unwrap_or_else(|what| {
        println!("the last anchors: {what}");
        std::process::exit(1)
    });
    choices.print();
    Ok(())
}

/// The choices at the anchors of one field after another, with what other calls found from the same start values.
#[derive(Default)]
struct Choices {
    at: Option<Together>,
    /// By the number of anchors: fields, values and records that other calls found, and choices.
    counts: BTreeMap<usize, (u64, usize, u64)>,
}

impl Choices {
    fn next(&mut self, case: &Case, line: &str) -> Result<(), String> {
        if case.n() > MOST || !line.starts_with("0 exact ") {
            return Ok(());
        }
        if case.call == Call::Anchors {
            self.end()?;
            let best = Whole::of(case).best(&case.start);
            self.at = Some(Together::new(case, variables(line), best));
        } else if let Some(at) = self.at.as_mut().filter(|at| at.concerns(case)) {
            let name = if case.call == Call::Closure { "values" } else { "found" };
            at.found(&new_values(&digits(line, name), &case.start), &records(line))?;
        }
        Ok(())
    }

    fn end(&mut self) -> Result<(), String> {
        if let Some(at) = self.at.take() {
            let count = self.counts.entry(at.anchors.len()).or_default();
            *count = (count.0 + 1, count.1 + at.others, count.2 + at.chosen()?);
        }
        Ok(())
    }

    fn print(&self) {
        println!("anchors: fields; values and records found from the same start values; choices made at once");
        for (anchors, (fields, others, choices)) in &self.counts {
            println!("{anchors}: {fields}; {others}; {choices}");
        }
    }
}

/// The values that are not given.
fn new_values(values: &[u8], start: &[u8]) -> Vec<u8> {
    let pairs = values.iter().zip(start);
    pairs.map(|(&v, &s)| if s == 2 { v } else { 2 }).collect()
}

fn fail(number: u64, case: &Case, line: &str, what: &str) -> ! {
    println!("case {number}: {what}\n{}\nanswer {line}", case.show());
    std::process::exit(1);
}

/// The closure accepts a mended list, but for a diagonal; one that it accepted before comes back as it was.
fn mended(case: &Case, line: &str) -> Result<u64, String> {
    if !line.starts_with("0 ") {
        return Ok(0);
    }
    let mut before = case.clone();
    before.call = Call::Closure;
    before.start = vec![2; case.n()];
    let mut after = before.clone();
    (after.rows, after.columns, after.weights) = (Vec::new(), Vec::new(), Vec::new());
    for item in items(line, "entries", ';') {
        let words: Vec<_> = item.split(',').collect();
        after.rows.push(words[0].parse().expect("a row"));
        after.columns.push(words[1].parse().expect("a column"));
        after.weights.push(weight(words[2]));
    }
    let refused = |case: &Case| table::refusal(case).filter(|refusal| refusal.number != 4);
    if let Some(refusal) = refused(&after) {
        return Err(format!("the closure refuses the mended list with {}", refusal.number));
    }
    let bits = |case: &Case| case.weights.iter().map(|q| q.to_bits()).collect::<Vec<_>>();
    if refused(&before).is_none() {
        same("places", &(&after.rows, &after.columns), &(&before.rows, &before.columns))?;
        same("weights", &bits(&after), &bits(&before))?;
        same("changes", &part(line, "changes"), &Some(""))?;
    }
    Ok(1)
}

type Checked = Result<(u64, u64), String>;

fn field_call(case: &Case, line: &str) -> Checked {
    if !table::exact(case) {
        return Err("graded exact, but it is not".to_string());
    }
    let whole = Whole::of(case);
    let small = case.n() <= MOST;
    let values = digits(line, "values");
    let found = digits(line, "found");
    let constraints = records(line);
    let mut defined = 0;
    match case.call {
        Call::Closure => {
            same("closure", &values, &whole.closure(&case.start))?;
            same(
                "flat rows",
                &part(line, "count"),
                &Some(whole.flat(&values).to_string().as_str()),
            )?;
            defined = 1;
        }
        Call::SingleProbe | Call::ColdProbe => {
            let probe = whole.probe(&case.start, case.variable as usize, case.value as u8);
            same("probe", &found, &probe)?;
            defined = 1;
        }
        call if call.probes_many() && case.n() <= 40 => {
            let candidates = if call.takes_candidates() {
                whole.candidates(&case.start, case.limit)
            } else {
                (0..case.n()).filter(|&i| case.start[i] == 2).collect()
            };
            let (all, given) = whole.probes(&case.start, &candidates);
            same("constraints", &constraints, &all)?;
            same("found values", &found, &given)?;
            defined = 1;
        }
        Call::Reason => {
            reason(case, &whole, line)?;
            defined = 1;
        }
        Call::Keep => {
            kept(case, &whole, line, &values)?;
            if part(line, "closing") == Some("0") {
                same("closing", &found, &whole.closure(&values))?;
                same(
                    "flat rows",
                    &part(line, "count"),
                    &Some(whole.flat(&found).to_string().as_str()),
                )?;
            }
            defined = 1;
        }
        Call::Pairs if small => {
            let (count, all) = whole.pairs(&case.start, case.limit.min(MOST_PAIRS));
            same("pair constraints", &constraints, &all)?;
            same(
                "pair count",
                &part(line, "pairs"),
                &Some(count.to_string().as_str()),
            )?;
            defined = 1;
        }
        _ => {}
    }
    if !small {
        return Ok((defined, 0));
    }
    match case.call {
        Call::Closure => {
            let best = whole.best(&case.start);
            every(
                &best,
                |x| agrees(x, &values),
                "a best completion breaks a value",
            )?;
        }
        Call::Components | Call::Preprocess | Call::Heavy => {
            let best = whole.best(&case.start);
            some(
                &best,
                |x| agrees(x, &values),
                "no best completion has all values",
            )?;
            let kept = (0..case.n()).all(|i| case.start[i] == 2 || case.start[i] == values[i]);
            some(&[0], |_| kept, "a start value is lost")?;
        }
        Call::SingleProbe | Call::ColdProbe => {
            let mut assumed = case.start.clone();
            assumed[case.variable as usize] = case.value as u8;
            let best = whole.best(&assumed);
            every(
                &best,
                |x| agrees(x, &found),
                "a best completion breaks a value",
            )?;
        }
        Call::Probe | Call::LimitedProbe | Call::ColdFull | Call::ColdLimited | Call::Pairs => {
            let best = whole.best(&case.start);
            every(
                &best,
                |x| agrees(x, &found),
                "a best completion breaks a value",
            )?;
            every(
                &best,
                |x| meets(x, &constraints),
                "a best completion breaks a constraint",
            )?;
        }
        Call::Anchors => {
            let best = whole.best(&case.start);
            for anchor in variables(line) {
                some(&best, |x| (x >> anchor) & 1 == 0, "an anchor is never 0")?;
                some(&best, |x| (x >> anchor) & 1 == 1, "an anchor is never 1")?;
            }
        }
        Call::NoEffect => {
            for i in variables(line) {
                let all = Whole::completions(&vec![2; case.n()]);
                every(
                    &all,
                    |x| whole.twice_f(x) == whole.twice_f(x ^ (1 << i)),
                    "a variable without effect has one",
                )?;
            }
        }
        Call::Shift | Call::SubProblem => reduced(case, &whole, line)?,
        Call::Reason => {
            let closed = whole.closure(&case.start);
            let asked = case.variable as usize;
            let best = whole.best(&case.start);
            every(
                &best,
                |x| (x >> asked) & 1 == usize::from(closed[asked]),
                "a best completion breaks the value",
            )?;
        }
        Call::Keep if part(line, "closing") != Some("0") => {}
        Call::Keep => {
            let best = whole.best(&values);
            every(
                &best,
                |x| agrees(x, &found),
                "a best completion breaks a value",
            )?;
        }
        Call::Propagation | Call::Allow | Call::Mend => {}
    }
    Ok((defined, 1))
}

/// The bounds of the free variables are low and high at the values that the operations leave, those of others 0, and the strict rows are counted.
fn kept(case: &Case, whole: &Whole, line: &str, values: &[u8]) -> Result<(), String> {
    let n = case.n();
    let bounds: Vec<f64> = part(line, "bounds")
        .unwrap_or("")
        .split(',')
        .filter(|word| !word.is_empty())
        .map(weight)
        .collect();
    let afresh = whole.bounds(values);
    let count = |i: usize, side: i64| {
        if values[i] == 2 {
            side as f64 * (whole.unit / 2.0)
        } else {
            0.0
        }
    };
    let expected: Vec<f64> = (0..n)
        .map(|i| count(i, afresh[i].0))
        .chain((0..n).map(|i| count(i, afresh[i].1)))
        .collect();
    same("bounds", &bounds, &expected)?;
    let strict = (0..n)
        .filter(|&i| values[i] == 2 && (afresh[i].0 > 0 || afresh[i].1 < 0))
        .count();
    same(
        "strict rows",
        &part(line, "strict"),
        &Some(strict.to_string().as_str()),
    )
}

/// The bound, worked out afresh from the listed values alone; each listed value is reached without the variable.
fn reason(case: &Case, whole: &Whole, line: &str) -> Result<(), String> {
    let asked = case.variable as usize;
    let listed = variables(line);
    let value = whole.closure(&case.start)[asked];
    let unit = part(line, "unit").and_then(|k| k.parse::<i32>().ok());
    same("unit", &unit.map(|k| 2f64.powi(k - 20)), &Some(whole.unit))?;
    let bound = part(line, "bound").map(weight);
    let ground = part(line, "ground").unwrap_or("");
    if case.start[asked] != 2 {
        same("ground", &ground, &"given")?;
        return same("bound and list", &(bound, listed), &(Some(0.0), Vec::new()));
    }
    let joined = |j: usize| {
        let joins = |e: &(usize, usize, i64)| (e.0, e.1) == (asked, j) || (e.1, e.0) == (asked, j);
        whole.entries.iter().any(joins)
    };
    let reached = whole.closure_without(&case.start, asked);
    let mut alone = vec![2; case.n()];
    for &j in &listed {
        if !joined(j) {
            return Err(format!("{j} is listed and is no neighbour"));
        }
        if reached[j] == 2 {
            return Err(format!(
                "{j} is listed, and is reached by the variable alone"
            ));
        }
        alone[j] = reached[j];
    }
    if !listed.windows(2).all(|pair| pair[0] < pair[1]) {
        return Err("the list does not rise".to_string());
    }
    let given = (0..case.n()).filter(|&j| case.start[j] != 2);
    if let Some(j) = given
        .into_iter()
        .find(|&j| joined(j) && !listed.contains(&j))
    {
        return Err(format!("{j} is given and is not listed"));
    }
    let (low, high) = whole.bounds(&alone)[asked];
    let (name, strict, count) = match value {
        0 => ("lower", low > 0, low),
        1 => ("upper", high < 0, high),
        _ => return Err("the variable is free at the end".to_string()),
    };
    same("ground", &ground, &name)?;
    same("bound", &bound, &Some(count as f64))?;
    if strict {
        Ok(())
    } else {
        Err("the bound is not strict with the listed values alone".to_string())
    }
}

/// f of a completion is the reduced f plus the constant, and best completions correspond one to one.
fn reduced(case: &Case, whole: &Whole, line: &str) -> Result<(), String> {
    let linear: Vec<f64> = items(line, "linear", ',').map(weight).collect();
    let entries = items(line, "entries", ';').map(|item| {
        let parts: Vec<_> = item.split(',').collect();
        (
            parts[0].parse().unwrap(),
            parts[1].parse().unwrap(),
            weight(parts[2]),
        )
    });
    let smaller = Whole::new(whole.unit, &linear, entries);
    let constant = part(line, "constant").map_or(0, |c| (weight(c) / (whole.unit / 2.0)) as i64);
    let places: Vec<usize> = if case.call == Call::SubProblem {
        variables(line)
    } else {
        (0..case.n()).collect()
    };
    let start = if case.call == Call::SubProblem {
        case.start.clone()
    } else {
        vec![2; case.n()]
    };
    let rising: Vec<_> = (0..case.n()).filter(|&i| start[i] == 2).collect();
    same("map", &places, &rising)?;
    let restricted = |x: usize| -> usize {
        let bits = places.iter().enumerate();
        bits.map(|(new, old)| ((x >> old) & 1) << new).sum()
    };
    every(
        &Whole::completions(&start),
        |x| whole.twice_f(x) == smaller.twice_f(restricted(x)) + constant,
        "f is not the reduced f plus the constant",
    )?;
    let best: Vec<_> = whole.best(&start).into_iter().map(restricted).collect();
    same("best", &best, &smaller.best(&vec![2; places.len()]))
}

/// An assignment that meets the constraints has every value, and on a clash there is none.
fn propagation(case: &Case, line: &str) -> Result<u64, String> {
    if case.n() > MOST || !(line.starts_with("0 ") || line.starts_with("10 ")) {
        return Ok(0);
    }
    let constraints: Vec<_> = case
        .constraints
        .chunks_exact(3)
        .map(|t| (usize::from(t[0]), usize::from(t[1]), usize::from(t[2])))
        .collect();
    let clash = line.starts_with("10 ");
    let values = if clash {
        Vec::new()
    } else {
        digits(line, "values")
    };
    let meeting: Vec<_> = Whole::completions(&case.start)
        .into_iter()
        .filter(|&x| meets(x, &constraints))
        .collect();
    let ok = |x: usize| !clash && agrees(x, &values);
    every(
        &meeting,
        ok,
        "an assignment meets the constraints and breaks a value",
    )?;
    Ok(1)
}

/// Yes comes with the least of all assignments that meet the constraints, and on no there is none.
fn allow(case: &Case, line: &str) -> Result<u64, String> {
    if case.n() > MOST || !line.starts_with("0 ") {
        return Ok(0);
    }
    let constraints: Vec<_> = case
        .constraints
        .chunks_exact(3)
        .map(|t| (usize::from(t[0]), usize::from(t[1]), usize::from(t[2])))
        .collect();
    let list = |x: usize| (0..case.n()).map(|i| (x >> i & 1) as u8).collect::<Vec<_>>();
    let least = (0..1 << case.n()).filter(|&x| meets(x, &constraints)).map(list).min();
    let given = line.starts_with("0 yes ").then(|| digits(line, "assignment"));
    same("assignment", &given, &least)?;
    Ok(1)
}

fn every(all: &[usize], test: impl Fn(usize) -> bool, what: &str) -> Result<(), String> {
    match all.iter().find(|&&x| !test(x)) {
        Some(x) => Err(format!("{what}: {x:b} (variable 0 on the right)")),
        None => Ok(()),
    }
}

fn some(all: &[usize], test: impl Fn(usize) -> bool, what: &str) -> Result<(), String> {
    if all.iter().any(|&x| test(x)) {
        Ok(())
    } else {
        Err(what.to_string())
    }
}

fn same<T: PartialEq + std::fmt::Debug>(name: &str, got: &T, want: &T) -> Result<(), String> {
    if got == want {
        Ok(())
    } else {
        Err(format!("{name}: {got:?}, but by the definition {want:?}"))
    }
}

fn items<'a>(line: &'a str, name: &str, mark: char) -> impl Iterator<Item = &'a str> {
    part(line, name)
        .unwrap_or("")
        .split(mark)
        .filter(|item| !item.is_empty())
}

fn digits(line: &str, name: &str) -> Vec<u8> {
    part(line, name)
        .unwrap_or("")
        .bytes()
        .map(|b| b - b'0')
        .collect()
}

fn variables(line: &str) -> Vec<usize> {
    items(line, "variables", ',')
        .map(|item| item.parse().unwrap())
        .collect()
}

fn records(line: &str) -> Vec<(usize, usize, usize)> {
    items(line, "constraints", ';')
        .map(|item| {
            let parts: Vec<usize> = item.split(',').map(|x| x.parse().unwrap()).collect();
            (parts[0], parts[1], parts[2])
        })
        .collect()
}

fn weight(hex: &str) -> f64 {
    f64::from_bits(u64::from_str_radix(hex, 16).unwrap())
}
