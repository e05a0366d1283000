//! The two types of this module that the text exports again.

pub struct CutDominanceStatistics;
pub struct RootReductionStatistics;
