//! What makes cases: random numbers, fields of every shape and size, broken cases, and the recorded set.

pub mod breaks;
pub mod fields;
pub mod make;
pub mod random;
pub mod recorded;
pub mod together;
pub mod whole;

/// The calls in a list of names with commas between them; all of them where it is empty or missing.
pub fn calls_named(names: Option<&str>) -> Vec<stream::Call> {
    match names {
        None | Some("" | "all") => stream::CALLS.iter().map(|c| c.0).collect(),
        Some(list) => list
            .split(',')
            .map(|name| stream::Call::from_name(name).unwrap_or_else(|| panic!("no call {name}")))
            .collect(),
    }
}
