//! The door through which the driver reaches what the text keeps to its own crate.

use crate::constraint::{Constraint, ImplicationGraph};
use crate::persistence::{build_gradient_adjacency, cold_gradient_probe};
use crate::preprocess::{complement_components, prepare_preprocess, ProbePreprocess};
use crate::qubo::Qubo;
use crate::variable_reduction::find_pair_dominance;
use crate::FixedVarMap;
use std::time::Duration;

/// The closure alone, from the given values, which stand in the result.
pub fn closure(qubo: &Qubo, given: FixedVarMap) -> FixedVarMap {
    let adjacency = build_gradient_adjacency(qubo);
    cold_gradient_probe(qubo, given, &adjacency)
}

/// The fast probe: the assumption and the new deductions, over remembered rows.
pub fn single_probe(
    qubo: &Qubo,
    given: &FixedVarMap,
    variable: usize,
    value: usize,
) -> FixedVarMap {
    let prepared = prepare_preprocess(qubo, true);
    ProbePreprocess::new(&prepared, given).probe(variable, value)
}

/// All pairs up to the text's own limit, with more time than any run takes.
pub fn pairs(qubo: &Qubo, given: &FixedVarMap) -> Vec<Constraint> {
    let prepared = prepare_preprocess(qubo, true);
    find_pair_dominance(&prepared, given, Duration::from_secs(1_000_000))
}

/// The values with all that the constraints imply, or nothing on a clash.
pub fn propagation(
    n: usize,
    constraints: &[Constraint],
    mut given: FixedVarMap,
) -> Option<FixedVarMap> {
    ImplicationGraph::new(n, constraints)
        .propagate(&mut given)
        .then_some(given)
}

/// The anchors in the order of their components.
pub fn anchors(qubo: &Qubo, given: &FixedVarMap, least_size: usize) -> Vec<usize> {
    complement_components(qubo, least_size)
        .iter()
        .filter_map(|component| component.anchor_if_unfixed(given))
        .collect()
}
