
// What the requirements add: the two functions that the text calls and does not hold, and a way to read a constraint.
impl Constraint {
    /// Ends keep the order in which they are passed.
    pub const fn new(x_i: usize, x_j: usize, constr_type: ConstraintType) -> Self {
        Self {
            x_i,
            x_j,
            constr_type,
        }
    }

    /// The (first, second) values that the kind forbids.
    pub fn forbidden_assignments(&self) -> Vec<(usize, usize)> {
        match self.constr_type {
            ConstraintType::AtLeastOne => vec![(0, 0)],
            ConstraintType::ExactlyOne => vec![(0, 0), (1, 1)],
            ConstraintType::NoMoreThanOne => vec![(1, 1)],
            ConstraintType::GreaterThan => vec![(0, 1)],
            ConstraintType::LessThan => vec![(1, 0)],
            ConstraintType::Equal => vec![(0, 1), (1, 0)],
        }
    }

    /// The ends, and the pairs of values that are forbidden as four bits 00, 01, 10, 11 from the lowest.
    pub fn forbidden(&self) -> (usize, usize, usize) {
        let pairs = self.forbidden_assignments();
        let set = pairs.iter().map(|(a, b)| 1 << (2 * a + b)).sum();
        (self.x_i, self.x_j, set)
    }
}
