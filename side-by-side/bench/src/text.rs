//! The Rust text's calls, as a user calls them.

use crate::fields::{Field, Rules};
use crate::timing::timed;
use hercules::constraint::{Constraint, ConstraintType};
use hercules::qubo::Qubo;
use hercules::variable_reduction::{self, ProbedEquationSet};
use hercules::{door, preprocess, FixedVarMap};
use ndarray::Array1;
use sprs::CsMat;
use std::collections::HashMap;
use std::time::Duration;

/// The field as the text stores it, and its start values as the text takes them.
pub struct Text {
    pub qubo: Qubo,
    pub given: FixedVarMap,
    n: usize,
}

impl Text {
    pub fn new(field: &Field) -> Self {
        let n = field.n();
        let mut offsets = vec![0; n + 1];
        for &column in &field.cols {
            offsets[usize::from(column) + 1] += 1;
        }
        for column in 0..n {
            offsets[column + 1] += offsets[column];
        }
        let rows = field.rows.iter().map(|&i| usize::from(i)).collect();
        Self {
            qubo: Qubo::new_with_c(
                CsMat::new_csc((n, n), offsets, rows, field.q.clone()),
                Array1::from_vec(field.c.clone()),
            ),
            given: map_of(&field.start),
            n,
        }
    }

    pub fn list(&self, values: &FixedVarMap) -> Vec<u8> {
        list_of(self.n, values)
    }

    /// The sum of a completion.
    pub fn sum(&self, values: &[u8]) -> f64 {
        let values = values.iter().map(|&value| value.into()).collect();
        self.qubo.eval_usize(&Array1::from_vec(values))
    }

    pub fn closure(&self) -> (Duration, FixedVarMap) {
        timed(|| door::closure(&self.qubo, self.given.clone()))
    }

    pub fn components(&self) -> (Duration, FixedVarMap) {
        timed(|| preprocess::solve_small_components(&self.qubo, &self.given, 10))
    }

    pub fn preprocess(&self) -> (Duration, FixedVarMap) {
        timed(|| preprocess::preprocess_qubo(&self.qubo, &self.given, true))
    }

    pub fn no_effect(&self) -> (Duration, Vec<usize>) {
        timed(|| preprocess::find_no_effect_variables(&self.qubo))
    }

    pub fn shift(&self) -> (Duration, Qubo) {
        timed(|| preprocess::shift_qubo(&self.qubo))
    }

    pub fn sub_problem(&self) -> (Duration, (Qubo, HashMap<usize, usize>, f64)) {
        timed(|| preprocess::make_sub_problem(&self.qubo, &self.given))
    }

    pub fn anchors(&self, least: usize) -> (Duration, Vec<usize>) {
        timed(|| door::anchors(&self.qubo, &self.given, least))
    }

    pub fn pairs(&self) -> (Duration, Vec<Constraint>) {
        timed(|| door::pairs(&self.qubo, &self.given))
    }

    pub fn probe_one(&self, variable: usize, value: u8) -> (Duration, FixedVarMap) {
        timed(|| door::single_probe(&self.qubo, &self.given, variable, usize::from(value)))
    }

    pub fn heavy(&self) -> (Duration, FixedVarMap) {
        timed(|| preprocess::preprocess_qubo_heavy(&self.qubo, &self.given, true))
    }

    pub fn probe(&self) -> (Duration, (ProbedEquationSet, FixedVarMap)) {
        timed(|| variable_reduction::probe(&self.qubo, &self.given, true))
    }

    pub fn probe_limited(&self, most: usize) -> (Duration, (ProbedEquationSet, FixedVarMap)) {
        timed(|| variable_reduction::probe_limited(&self.qubo, &self.given, true, most))
    }
}

/// Constraints and start values as the text takes them.
pub struct TextRules {
    n: usize,
    given: FixedVarMap,
    constraints: Vec<Constraint>,
}

impl TextRules {
    pub fn new(rules: &Rules) -> Self {
        const KINDS: [ConstraintType; 6] = [
            ConstraintType::AtLeastOne,
            ConstraintType::ExactlyOne,
            ConstraintType::NoMoreThanOne,
            ConstraintType::GreaterThan,
            ConstraintType::LessThan,
            ConstraintType::Equal,
        ];
        Self {
            n: rules.start.len(),
            given: map_of(&rules.start),
            constraints: rules
                .constraints
                .chunks_exact(3)
                .map(|r| {
                    let kind = stream::FORBIDDEN
                        .iter()
                        .position(|&set| set == usize::from(r[2]))
                        .expect("the set of a kind");
                    Constraint::new(r[0].into(), r[1].into(), KINDS[kind])
                })
                .collect(),
        }
    }

    pub fn propagate(&self) -> (Duration, Option<Vec<u8>>) {
        let (time, found) =
            timed(|| door::propagation(self.n, &self.constraints, self.given.clone()));
        (time, found.map(|values| list_of(self.n, &values)))
    }
}

fn map_of(values: &[u8]) -> FixedVarMap {
    values
        .iter()
        .enumerate()
        .filter(|(_, &v)| v < 2)
        .map(|(i, &v)| (i, usize::from(v)))
        .collect()
}

fn list_of(n: usize, values: &FixedVarMap) -> Vec<u8> {
    (0..n)
        .map(|i| values.get(&i).map_or(2, |&v| v as u8))
        .collect()
}
