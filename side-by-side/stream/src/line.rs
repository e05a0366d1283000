//! The words of an answer line, as docs/CASES.md gives them.

use crate::table::{self, Refusal};
use crate::Case;
use std::fmt::Display;

/// What a call answers.
pub enum Answer {
    /// The refusals that change nothing lent.
    Refused(Refusal),
    /// The requests' 12 and 13, which leave the answer list.
    NoReason(u8),
    /// An answer list does not fit.
    NoRoom,
    Clash,
    Done(Done),
}

/// The ground of a value.
#[derive(Clone, Copy, Debug, PartialEq, Eq)]
pub enum Ground {
    Given,
    Lower,
    Upper,
}

impl Ground {
    pub fn name(self) -> &'static str {
        match self {
            Self::Given => "given",
            Self::Lower => "lower",
            Self::Upper => "upper",
        }
    }
}

/// A value's reason: the unit is 2^(unit - 20), and the bound is in half units.
pub struct Reason {
    pub ground: Ground,
    pub unit: u8,
    pub bound: f64,
    pub listed: Vec<usize>,
}

/// A record after its operations: their answers, the record, and what the closing call gives, nothing where its list is not n long.
pub struct Kept {
    pub operations: Vec<u8>,
    pub values: Vec<u8>,
    pub bounds: Vec<f64>,
    pub strict: usize,
    pub closing: Option<(usize, Vec<u8>)>,
}

/// Whether constraints allow any assignment: the least one, or the variable that shows that none does; and how many literals each literal reaches.
pub struct Allowed {
    pub named: Option<usize>,
    pub assignment: Vec<u8>,
    pub counts: Vec<usize>,
}

/// What a call answers on 0; a part that the call does not have is nothing.
#[derive(Default)]
pub struct Done {
    pub values: Option<Vec<u8>>,
    pub flat: Option<usize>,
    pub pairs: Option<u64>,
    pub constraints: Option<Vec<(usize, usize, usize)>>,
    pub found: Option<Vec<u8>>,
    /// Input position, kind and output position.
    pub changes: Option<Vec<(usize, usize, usize)>>,
    pub reason: Option<Reason>,
    pub allowed: Option<Allowed>,
    pub variables: Option<Vec<usize>>,
    pub linear: Option<Vec<f64>>,
    pub entries: Option<Vec<(usize, usize, f64)>>,
    pub constant: Option<f64>,
    pub kept: Option<Kept>,
}

/// The whole line, with the promise for each lent slice.
pub fn line(case: &Case, answer: &Answer) -> String {
    let call = case.call;
    let mut words: Vec<String> = Vec::new();
    // The word for start values, answer lists, the field and scratch.
    let (number, start, lists, scratch) = match answer {
        Answer::Refused(refusal) => (refusal.number, "kept", "kept", "kept"),
        Answer::NoReason(number) => (*number, "kept", "kept", "zeros"),
        Answer::NoRoom => (9, "kept", "zeros", "zeros"),
        Answer::Clash => (10, "kept", "zeros", "zeros"),
        Answer::Done(_) => (0, "", "", "zeros"),
    };
    words.push(number.to_string());
    if let Answer::Refused(Refusal { at: Some(at), .. }) = answer {
        words.push(format!("at={at}"));
    }
    if let Answer::Done(done) = answer {
        if call.has_field() {
            words.push(grade(case, done).to_string());
        }
        done_words(case, done, &mut words);
    } else {
        if call.fills_start() {
            words.push(format!("values={start}"));
        }
        if call == crate::Call::Keep {
            words.push("bounds=kept strict=kept".to_string());
        }
        if call.finds_constraints() {
            words.push(format!("constraints={lists}"));
        }
        if call.finds_changes() {
            words.push(format!("changes={lists}"));
        }
        if call.finds_values() {
            words.push(format!("found={lists}"));
        }
        if call.finds_variables() {
            words.push(format!("variables={lists}"));
        }
        if call == crate::Call::Allow {
            words.push(format!("assignment={lists}"));
            words.push(format!("counts={lists}"));
        }
        if call.changes_field() {
            words.push("field=kept".to_string());
        }
    }
    if call.takes_floats() {
        words.push(format!("floats={scratch}"));
    }
    if call.takes_longs() {
        words.push(format!("longs={scratch}"));
    }
    if call.takes_words() {
        words.push(format!("words={scratch}"));
    }
    words.join(" ")
}

/// The grade of the field as it was given, and of a mended list's field as it is left.
fn grade(case: &Case, done: &Done) -> &'static str {
    match &done.entries {
        Some(entries) if case.call == crate::Call::Mend => {
            let mut mended = case.clone();
            mended.rows = entries.iter().map(|e| e.0 as u16).collect();
            mended.columns = entries.iter().map(|e| e.1 as u16).collect();
            mended.weights = entries.iter().map(|e| e.2).collect();
            table::grade(&mended)
        }
        _ => table::grade(case),
    }
}

fn done_words(case: &Case, done: &Done, words: &mut Vec<String>) {
    if let Some(kept) = &done.kept {
        kept_words(kept, words);
    }
    if let Some(values) = &done.values {
        words.push(format!("values={}", digits(values)));
    }
    if let Some(flat) = done.flat {
        words.push(format!("count={flat}"));
    }
    if let Some(pairs) = done.pairs {
        words.push(format!("pairs={pairs}"));
    }
    if let Some(constraints) = &done.constraints {
        words.push(format!("count={}", constraints.len()));
        let records = constraints.iter().map(|(i, j, set)| format!("{i},{j},{set}"));
        words.push(format!("constraints={}", joined(records, ";")));
        words.push("past=kept".to_string());
    }
    if let Some(found) = &done.found {
        words.push(format!("found={}", digits(found)));
    }
    if let Some(changes) = &done.changes {
        words.push(format!("count={}", changes.len()));
        let numbers = changes.iter().map(|(from, kind, to)| format!("{from},{kind},{to}"));
        words.push(format!("changes={}", joined(numbers, ";")));
        words.push("past=kept".to_string());
    }
    if let Some(reason) = &done.reason {
        words.push(format!("ground={}", reason.ground.name()));
        words.push(format!("unit={}", reason.unit));
        words.push(format!("bound={}", hex(reason.bound)));
    }
    if let Some(allowed) = &done.allowed {
        words.push(allowed.named.map_or("yes".to_string(), |i| format!("no={i}")));
        words.push(format!("assignment={}", digits(&allowed.assignment)));
        words.push("past=kept".to_string());
        words.push(format!("counts={}", joined(allowed.counts.iter(), ",")));
        words.push("past=kept".to_string());
    }
    if let Some(variables) = &done.variables {
        words.push(format!("count={}", variables.len()));
        words.push(format!("variables={}", joined(variables.iter(), ",")));
        words.push("past=kept".to_string());
    }
    if let Some(linear) = &done.linear {
        words.push(format!(
            "linear={}",
            joined(linear.iter().map(|&c| hex(c)), ",")
        ));
    }
    if let Some(entries) = &done.entries {
        words.push(format!("m={}", entries.len()));
        let places = entries
            .iter()
            .map(|&(i, j, q)| format!("{i},{j},{}", hex(q)));
        words.push(format!("entries={}", joined(places, ";")));
        let past = if case.call == crate::Call::Shift {
            "kept"
        } else {
            "zeros"
        };
        words.push(format!("field-past={past}"));
    }
    if let Some(constant) = done.constant {
        words.push(format!("constant={}", hex(constant)));
    }
}

fn kept_words(kept: &Kept, words: &mut Vec<String>) {
    words.push(format!("operations={}", joined(kept.operations.iter(), ",")));
    words.push(format!("values={}", digits(&kept.values)));
    words.push(format!("bounds={}", joined(kept.bounds.iter().map(|&b| hex(b)), ",")));
    words.push(format!("strict={}", kept.strict));
    match &kept.closing {
        Some((flat, found)) => {
            words.push(format!("closing=0 count={flat} found={}", digits(found)));
        }
        None => words.push("closing=9 found=zeros".to_string()),
    }
}

/// The bits of a weight as 16 hex digits; all NaN are one word.
pub fn hex(x: f64) -> String {
    if x.is_nan() {
        "nan".to_string()
    } else {
        format!("{:016x}", x.to_bits())
    }
}

fn digits(values: &[u8]) -> String {
    joined(values.iter(), "")
}

/// The items with the mark between them; a dash where there are none.
fn joined(items: impl Iterator<Item = impl Display>, mark: &str) -> String {
    let words: Vec<_> = items.map(|x| x.to_string()).collect();
    if words.is_empty() {
        "-".to_string()
    } else {
        words.join(mark)
    }
}

/// The content of `name=content` in an answer line.
pub fn part<'a>(line: &'a str, name: &str) -> Option<&'a str> {
    line.split(' ')
        .find_map(|word| word.strip_prefix(name)?.strip_prefix('='))
        .map(|content| if content == "-" { "" } else { content })
}
