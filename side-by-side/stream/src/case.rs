//! A case: one call with all its arguments.

use std::io::{self, Read, Write};

#[derive(Clone, Copy, Debug, PartialEq, Eq, PartialOrd, Ord)]
pub enum Call {
    Closure = 1,
    Components,
    Preprocess,
    Heavy,
    SingleProbe,
    ColdProbe,
    Probe,
    LimitedProbe,
    Pairs,
    Propagation,
    Anchors,
    NoEffect,
    Shift,
    SubProblem,
    Mend,
    Reason,
    Keep,
    ColdFull,
    ColdLimited,
    Allow,
}

/// The calls with their names, in the order of their codes.
pub const CALLS: [(Call, &str); 20] = [
    (Call::Closure, "closure"),
    (Call::Components, "components"),
    (Call::Preprocess, "preprocess"),
    (Call::Heavy, "heavy"),
    (Call::SingleProbe, "single-probe"),
    (Call::ColdProbe, "cold-probe"),
    (Call::Probe, "probe"),
    (Call::LimitedProbe, "limited-probe"),
    (Call::Pairs, "pairs"),
    (Call::Propagation, "propagation"),
    (Call::Anchors, "anchors"),
    (Call::NoEffect, "no-effect"),
    (Call::Shift, "shift"),
    (Call::SubProblem, "sub-problem"),
    (Call::Mend, "mend"),
    (Call::Reason, "reason"),
    (Call::Keep, "keep"),
    (Call::ColdFull, "cold-full"),
    (Call::ColdLimited, "cold-limited"),
    (Call::Allow, "allow"),
];

impl Call {
    pub fn code(self) -> u8 {
        self as u8
    }

    pub fn from_code(code: u8) -> Option<Self> {
        CALLS.iter().find(|c| c.0.code() == code).map(|c| c.0)
    }

    pub fn name(self) -> &'static str {
        CALLS.iter().find(|c| c.0 == self).map_or("", |c| c.1)
    }

    pub fn from_name(name: &str) -> Option<Self> {
        CALLS.iter().find(|c| c.1 == name).map(|c| c.0)
    }

    /// Takes a field: all calls but the two that take constraints.
    pub fn has_field(self) -> bool {
        !self.takes_constraints()
    }

    /// Takes constraints.
    pub fn takes_constraints(self) -> bool {
        matches!(self, Self::Propagation | Self::Allow)
    }

    /// Takes start values.
    pub fn has_start(self) -> bool {
        !matches!(self, Self::NoEffect | Self::Shift | Self::Mend | Self::Allow)
    }

    /// Writes its values into the start values.
    pub fn fills_start(self) -> bool {
        use Call::{Closure, Components, Heavy, Keep, Preprocess, Propagation};
        matches!(
            self,
            Closure | Components | Preprocess | Heavy | Propagation | Keep
        )
    }

    /// Asks for standard form.
    pub fn needs_standard(self) -> bool {
        use Call::{Anchors, Mend, NoEffect, Shift, SubProblem};
        self.has_field() && !matches!(self, Anchors | NoEffect | Shift | SubProblem | Mend)
    }

    /// Asks for entries inside the field, in order.
    pub fn needs_order(self) -> bool {
        self.has_field() && self != Self::Mend
    }

    /// Probes one variable at one value.
    pub fn probes_one(self) -> bool {
        matches!(self, Self::SingleProbe | Self::ColdProbe)
    }

    /// Probes many variables, each at both values.
    pub fn probes_many(self) -> bool {
        self.takes_candidates() || matches!(self, Self::Probe | Self::ColdFull)
    }

    /// Takes a limit of candidates.
    pub fn takes_candidates(self) -> bool {
        matches!(self, Self::LimitedProbe | Self::ColdLimited)
    }

    /// Answers in a list of values, one a variable.
    pub fn finds_values(self) -> bool {
        self.probes_one() || self.probes_many() || self == Self::Keep
    }

    /// Answers in a list of constraints.
    pub fn finds_constraints(self) -> bool {
        self.probes_many() || self == Self::Pairs
    }

    /// Answers in a list of changes, which is lent where others have a list of constraints.
    pub fn finds_changes(self) -> bool {
        self == Self::Mend
    }

    /// Answers in a list of variables.
    pub fn finds_variables(self) -> bool {
        matches!(
            self,
            Self::Anchors | Self::NoEffect | Self::SubProblem | Self::Reason
        )
    }

    /// Changes the field in place.
    pub fn changes_field(self) -> bool {
        matches!(self, Self::Shift | Self::SubProblem | Self::Mend)
    }

    /// Takes f64 scratch.
    pub fn takes_floats(self) -> bool {
        self.has_field() && !matches!(self, Self::NoEffect | Self::Shift)
    }

    /// Takes u64 scratch, whose length stands where that of the f64 scratch stands elsewhere.
    pub fn takes_longs(self) -> bool {
        self == Self::Allow
    }

    pub fn takes_words(self) -> bool {
        self != Self::Shift
    }
}

#[derive(Clone, Debug, PartialEq)]
pub struct Case {
    pub call: Call,
    pub linear: Vec<f64>,
    pub rows: Vec<u16>,
    pub columns: Vec<u16>,
    pub weights: Vec<f64>,
    pub start: Vec<u8>,
    pub constraints: Vec<u16>,
    /// The lengths of the answer lists, in elements.
    pub found_room: u32,
    pub constraint_room: u32,
    pub variable_room: u32,
    /// The lengths of the two scratches.
    pub floats: u32,
    pub words: u32,
    pub variable: u64,
    pub value: u64,
    pub limit: u64,
    pub least_size: u64,
}

impl Case {
    pub fn new(call: Call) -> Self {
        Self {
            call,
            linear: Vec::new(),
            rows: Vec::new(),
            columns: Vec::new(),
            weights: Vec::new(),
            start: Vec::new(),
            constraints: Vec::new(),
            found_room: 0,
            constraint_room: 0,
            variable_room: 0,
            floats: 0,
            words: 0,
            variable: 0,
            value: 0,
            limit: 0,
            least_size: 0,
        }
    }

    /// The number of variables: of linear weights, in propagation of start values, in `allow` a number of its own.
    pub fn n(&self) -> usize {
        match self.call {
            Call::Propagation => self.start.len(),
            Call::Allow => self.variable as usize,
            _ => self.linear.len(),
        }
    }

    /// The entries as (row, column, weight).
    pub fn entries(&self) -> impl Iterator<Item = (usize, usize, f64)> + '_ {
        self.rows
            .iter()
            .zip(&self.columns)
            .zip(&self.weights)
            .map(|((&i, &j), &q)| (usize::from(i), usize::from(j), q))
    }

    /// The least lengths of the two scratches.
    pub fn least_scratch(&self) -> (u32, u32) {
        let (n, m) = (self.n() as u32, self.weights.len() as u32);
        let k = self.constraints.len() as u32 / 3;
        let (floats, words) = match self.call {
            Call::Propagation => (0, 16 * n + 8 * k + 16),
            Call::Allow => (128 * n, 16 * n + 8 * k + 16),
            _ => (8 * n + 4 * m + 16, 16 * n + 8 * m + 16),
        };
        let first = self.call.takes_floats() || self.call.takes_longs();
        (
            if first { floats } else { 0 },
            if self.call.takes_words() { words } else { 0 },
        )
    }

    /// Whether a program with buffers of the lengths in docs/CASES.md can read the case.
    pub fn within_buffers(&self) -> bool {
        let entries = [self.rows.len(), self.columns.len(), self.weights.len()];
        self.linear.len() <= 4_100
            && entries.iter().all(|&m| m <= 32_772)
            && self.start.len() <= 4_100
            && self.constraints.len() <= 196_620
            && self.found_room <= 4_100
            && self.constraint_room <= 1_500_002
            && self.variable_room <= 4_110
            && self.floats <= 163_900
            && self.words <= 589_900
            && self.variable <= 65_535
            && self.value <= 255
            && (self.call != Call::Keep || self.least_size <= 8_200)
    }

    /// Reads the next case; nothing at the stream's end.
    pub fn read(input: &mut impl Read) -> io::Result<Option<Self>> {
        let mut code = [0];
        if input.read(&mut code)? == 0 {
            return Ok(None);
        }
        let call = Call::from_code(code[0])
            .ok_or_else(|| io::Error::new(io::ErrorKind::InvalidData, "unknown call"))?;
        let mut head = [0; 76];
        input.read_exact(&mut head)?;
        let short = |i: usize| u32::from_le_bytes(head[4 * i..4 * i + 4].try_into().unwrap());
        let long = |i: usize| u64::from_le_bytes(head[44 + 8 * i..52 + 8 * i].try_into().unwrap());
        let mut take = |count: u32, size: usize| -> io::Result<Vec<u8>> {
            let mut bytes = vec![0; count as usize * size];
            input.read_exact(&mut bytes)?;
            Ok(bytes)
        };
        Ok(Some(Self {
            call,
            linear: doubles(&take(short(0), 8)?),
            rows: halves(&take(short(1), 2)?),
            columns: halves(&take(short(2), 2)?),
            weights: doubles(&take(short(3), 8)?),
            start: take(short(4), 1)?,
            constraints: halves(&take(short(5), 2)?),
            found_room: short(6),
            constraint_room: short(7),
            variable_room: short(8),
            floats: short(9),
            words: short(10),
            variable: long(0),
            value: long(1),
            limit: long(2),
            least_size: long(3),
        }))
    }

    pub fn write(&self, output: &mut impl Write) -> io::Result<()> {
        assert!(self.within_buffers(), "{}", self.show());
        let mut bytes = vec![self.call.code()];
        for length in [
            self.linear.len() as u32,
            self.rows.len() as u32,
            self.columns.len() as u32,
            self.weights.len() as u32,
            self.start.len() as u32,
            self.constraints.len() as u32,
            self.found_room,
            self.constraint_room,
            self.variable_room,
            self.floats,
            self.words,
        ] {
            bytes.extend(length.to_le_bytes());
        }
        for parameter in [self.variable, self.value, self.limit, self.least_size] {
            bytes.extend(parameter.to_le_bytes());
        }
        bytes.extend(self.linear.iter().flat_map(|x| x.to_le_bytes()));
        bytes.extend(self.rows.iter().flat_map(|x| x.to_le_bytes()));
        bytes.extend(self.columns.iter().flat_map(|x| x.to_le_bytes()));
        bytes.extend(self.weights.iter().flat_map(|x| x.to_le_bytes()));
        bytes.extend(&self.start);
        bytes.extend(self.constraints.iter().flat_map(|x| x.to_le_bytes()));
        output.write_all(&bytes)
    }

    /// The case in a readable form, long lists cut short.
    pub fn show(&self) -> String {
        let (floats, words) = self.least_scratch();
        let mut text = format!("call {}\n", self.call.name());
        if self.call.has_field() {
            text += &format!("linear ({}): {}\n", self.linear.len(), list(&self.linear));
            if self.rows.len() == self.columns.len() && self.rows.len() == self.weights.len() {
                let entries: Vec<_> = self
                    .entries()
                    .take(200)
                    .map(|(i, j, q)| format!("({i},{j}) {q:?}"))
                    .collect();
                text += &format!("entries ({}): {}\n", self.rows.len(), entries.join(", "));
            } else {
                text += &format!("rows ({}): {}\n", self.rows.len(), list(&self.rows));
                text += &format!(
                    "columns ({}): {}\n",
                    self.columns.len(),
                    list(&self.columns)
                );
                text += &format!(
                    "weights ({}): {}\n",
                    self.weights.len(),
                    list(&self.weights)
                );
            }
        }
        text += &format!(
            "start values ({}): {}\n",
            self.start.len(),
            list(&self.start)
        );
        if !self.constraints.is_empty() {
            let count = self.constraints.len();
            text += &format!("constraints ({count}): {}\n", list(&self.constraints));
        }
        text += &format!(
            "room: {} values, {} constraint elements, {} variables\n",
            self.found_room, self.constraint_room, self.variable_room
        );
        let kind = if self.call.takes_longs() { "u64" } else { "f64" };
        text += &format!(
            "scratch: {} {kind} (least {floats}), {} u32 (least {words})\n",
            self.floats, self.words
        );
        text += &format!(
            "variable {}, value {}, limit {}, least size {}",
            self.variable, self.value, self.limit, self.least_size
        );
        text
    }
}

fn doubles(bytes: &[u8]) -> Vec<f64> {
    bytes
        .chunks_exact(8)
        .map(|b| f64::from_le_bytes(b.try_into().unwrap()))
        .collect()
}

fn halves(bytes: &[u8]) -> Vec<u16> {
    bytes
        .chunks_exact(2)
        .map(|b| u16::from_le_bytes(b.try_into().unwrap()))
        .collect()
}

fn list<T: std::fmt::Debug>(items: &[T]) -> String {
    let shown: Vec<_> = items.iter().take(200).map(|x| format!("{x:?}")).collect();
    let rest = if items.len() > 200 { " .." } else { "" };
    shown.join(" ") + rest
}
