//! One call on one field, as it was measured.

use crate::timing::{median, Runs};
use std::fmt;
use std::time::Duration;

/// The medians of each side, how many runs of each there were, and how deep the port's stack was, in bytes.
pub struct Line {
    pub call: &'static str,
    pub shape: &'static str,
    pub n: usize,
    pub m: usize,
    pub runs: usize,
    pub rust: Option<Duration>,
    pub port: Duration,
    pub floor: Option<Duration>,
    pub depth: usize,
}

/// The number with two digits behind the point, or a dash.
pub fn two(number: Option<f64>) -> String {
    number.map_or("–".to_string(), |number| format!("{number:.2}"))
}

pub fn micros(time: Duration) -> String {
    format!("{:.1}", time.as_nanos() as f64 / 1_000.0)
}

impl Line {
    pub fn new(
        call: &'static str,
        shape: &'static str,
        n: usize,
        m: usize,
        mut runs: Runs,
    ) -> Self {
        Self {
            call,
            shape,
            n,
            m,
            runs: runs.port.len(),
            rust: median(&mut runs.rust),
            port: median(&mut runs.port).expect("a run of the port"),
            floor: median(&mut runs.floor),
            depth: runs.depth,
        }
    }

    /// The Rust's time over the port's.
    pub fn ratio(&self) -> Option<f64> {
        Some(self.rust?.as_secs_f64() / self.port.as_secs_f64())
    }

    /// The port's time over one read of the input and one clearing.
    pub fn over_floor(&self) -> Option<f64> {
        Some(self.port.as_secs_f64() / self.floor?.as_secs_f64())
    }

    pub fn place(&self) -> String {
        format!("{}, n = {}", self.shape, self.n)
    }

    /// With tabs: what tells the line from others, the microseconds of the Rust and the port, the runs, the stack, and the
    /// microseconds of one read and one clearing.
    pub fn plain(&self) -> String {
        let Self {
            call, shape, n, m, ..
        } = self;
        let [rust, floor] =
            [self.rust, self.floor].map(|time| time.map_or("-".to_string(), micros));
        let port = micros(self.port);
        format!(
            "{call}\t{shape}\t{n}\t{m}\t{rust}\t{port}\t{}\t{}\t{floor}",
            self.runs, self.depth
        )
    }
}

impl Line {
    /// A line that was printed plainly; the names are those of the tables.
    pub fn read(text: &str, name: fn(&str) -> &'static str) -> Self {
        let words: Vec<_> = text.split('\t').collect();
        let number = |at: usize| words[at].parse::<usize>().expect("a number");
        let time = |at: usize| {
            let micros = words[at].parse::<f64>().ok()?;
            Some(Duration::from_nanos((micros * 1_000.0).round() as u64))
        };
        Self {
            call: name(words[0]),
            shape: name(words[1]),
            n: number(2),
            m: number(3),
            rust: time(4),
            port: time(5).expect("a time"),
            runs: number(6),
            depth: number(7),
            floor: time(8),
        }
    }
}

impl fmt::Display for Line {
    fn fmt(&self, out: &mut fmt::Formatter<'_>) -> fmt::Result {
        write!(
            out,
            "| {} | {} | {} | {} | {} | {} | {} | {} |",
            self.call,
            self.shape,
            self.n,
            self.m,
            self.rust.map_or("–".to_string(), micros),
            micros(self.port),
            two(self.ratio()),
            self.runs
        )
    }
}
