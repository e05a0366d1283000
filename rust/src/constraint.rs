/// A variable's number as the library lays it out; one that does not fit becomes the greatest, which no field has.
pub(crate) const fn number(variable: usize) -> u16 {
    if variable < u16::MAX as usize {
        variable as u16
    } else {
        u16::MAX
    }
}

/// What a constraint says of two variables, the first and the second.
#[derive(Clone, Copy, Debug, PartialEq, Eq, PartialOrd, Ord, Hash)]
pub enum Kind {
    /// One of the two is 1: not 0, 0.
    AtLeastOne,
    /// One is 1 and the other 0: not 0, 0 and not 1, 1.
    ExactlyOne,
    /// One of the two is 0: not 1, 1.
    NoMoreThanOne,
    /// The first is not below the second, and may equal it: not 0, 1.
    GreaterThan,
    /// The first is not above the second, and may equal it: not 1, 0.
    LessThan,
    /// The two are the same: not 0, 1 and not 1, 0.
    Equal,
}

impl Kind {
    /// The pairs of values that are forbidden, where the first variable is the lower one.
    const fn set(self) -> u16 {
        match self {
            Kind::AtLeastOne => 1,
            Kind::ExactlyOne => 9,
            Kind::NoMoreThanOne => 8,
            Kind::GreaterThan => 2,
            Kind::LessThan => 4,
            Kind::Equal => 6,
        }
    }

    /// What says the same of the second and the first.
    const fn turned(self) -> Kind {
        match self {
            Kind::GreaterThan => Kind::LessThan,
            Kind::LessThan => Kind::GreaterThan,
            same => same,
        }
    }
}

/// A constraint: the lower variable, the higher one, and the set of the pairs of values that they may not have, as the
/// library lays it out. The set has four bits, 00, 01, 10, 11 from the lowest, the lower variable's value first. The
/// default, all zeros, fills a list that is lent.
#[derive(Clone, Copy, Debug, Default, PartialEq, Eq, PartialOrd, Ord, Hash)]
#[repr(C)]
pub struct Constraint {
    lower: u16,
    higher: u16,
    set: u16,
}

impl Constraint {
    /// A constraint of this kind on two variables; the lower one is put first.
    ///
    /// ```
    /// use ombradiec::{Constraint, Kind};
    /// let one = Constraint::new(5, 2, Kind::GreaterThan);
    /// assert_eq!(one, Constraint::new(2, 5, Kind::LessThan));
    /// assert_eq!((one.lower(), one.higher(), one.set()), (2, 5, 4));
    /// ```
    pub const fn new(first: usize, second: usize, kind: Kind) -> Constraint {
        if first < second {
            Constraint::forbidding(first, second, kind.set())
        } else {
            Constraint::forbidding(second, first, kind.turned().set())
        }
    }

    /// A constraint that forbids any set of pairs; `propagate` and `allow` refuse a set of 0 or above 15, and ends that do not
    /// rise or are none of their variables.
    ///
    /// ```
    /// use ombradiec::{Constraint, Kind};
    /// assert_eq!(Constraint::forbidding(0, 1, 9), Constraint::new(0, 1, Kind::ExactlyOne));
    /// ```
    pub const fn forbidding(lower: usize, higher: usize, set: u16) -> Constraint {
        Constraint { lower: number(lower), higher: number(higher), set }
    }

    /// The lower variable.
    pub const fn lower(self) -> usize {
        self.lower as usize
    }

    /// The higher variable.
    pub const fn higher(self) -> usize {
        self.higher as usize
    }

    /// The set of forbidden pairs, as four bits.
    pub const fn set(self) -> u16 {
        self.set
    }

    /// Whether the lower variable may not have the first value while the higher one has the second.
    ///
    /// ```
    /// use ombradiec::{Constraint, Kind};
    /// let less = Constraint::new(0, 1, Kind::LessThan);
    /// assert!(less.forbids(true, false) && !less.forbids(false, true));
    /// ```
    pub const fn forbids(self, lower: bool, higher: bool) -> bool {
        self.set >> (2 * lower as u16 + higher as u16) & 1 == 1
    }

    /// How many pairs are forbidden.
    ///
    /// ```
    /// use ombradiec::{Constraint, Kind};
    /// assert_eq!(Constraint::new(0, 1, Kind::Equal).forbidden(), 2);
    /// ```
    pub const fn forbidden(self) -> u32 {
        self.set.count_ones()
    }
}

#[cfg(test)]
mod tests {
    use super::*;

    type Allows = fn(bool, bool) -> bool;

    #[test]
    fn every_kind_forbids_what_it_says() {
        let kinds: [(Kind, Allows); 6] = [
            (Kind::AtLeastOne, |a, b| a || b),
            (Kind::ExactlyOne, |a, b| a != b),
            (Kind::NoMoreThanOne, |a, b| !(a && b)),
            (Kind::GreaterThan, |a, b| a >= b),
            (Kind::LessThan, |a, b| a <= b),
            (Kind::Equal, |a, b| a == b),
        ];
        for (kind, allows) in kinds {
            for (a, b) in [(false, false), (false, true), (true, false), (true, true)] {
                assert_eq!(Constraint::new(3, 8, kind).forbids(a, b), !allows(a, b));
                assert_eq!(Constraint::new(8, 3, kind).forbids(a, b), !allows(b, a));
            }
        }
    }

    #[test]
    fn a_number_that_does_not_fit_is_the_greatest() {
        assert_eq!((number(0), number(65_534), number(65_535), number(65_536)), (0, 65_534, 65_535, 65_535));
        assert_eq!(Constraint::new(70_000, 1, Kind::Equal).higher(), 65_535);
    }
}
