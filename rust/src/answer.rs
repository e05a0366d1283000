use core::fmt;

/// Whether all sums of a field's weights are exact. On an exact field the promises hold over whole numbers; an inexact
/// field is worked in floats, whose sums may round.
#[derive(Clone, Copy, Debug, PartialEq, Eq)]
pub enum Grade {
    /// Some sum may round.
    Inexact,
    /// No sum rounds: there is no diagonal entry, every 2c and every q is a whole multiple of one power of two from 2^-20 to
    /// 2^20, and none is above 2^31 of it in size.
    Exact,
}

/// What a call on a field answers when it refuses nothing.
#[derive(Clone, Copy, Debug, PartialEq, Eq)]
pub struct Done {
    /// The grade of the field as it was given.
    pub grade: Grade,
    /// How many items the answer list has, of `shift` how many entries are left, of `closure` and `close` how many free
    /// variables have a flat row; else 0.
    pub count: usize,
    /// Of `pairs` how many pairs were examined; else 0.
    pub pairs: usize,
}

/// The ground of a value in the closure. A bound is a whole number of half units; see [`Reason::unit`].
#[derive(Clone, Copy, Debug, PartialEq)]
pub enum Ground {
    /// It is given with the start values.
    Given,
    /// It is 0: the lower bound is above 0.
    Lower(f64),
    /// It is 1: the upper bound is below 0.
    Upper(f64),
}

/// Why a variable has its value in the closure.
#[derive(Clone, Copy, Debug, PartialEq)]
pub struct Reason {
    /// The ground, with its bound.
    pub ground: Ground,
    /// The smallest power of two from 2^-20 to 2^20 in which the field is exact.
    pub unit: f64,
    /// How many neighbours stand at the front of the list.
    pub count: usize,
}

impl Reason {
    /// The bound as the weights count it, 0 for a given variable: no rounding, since half a unit is a power of two.
    pub fn bound(&self) -> f64 {
        match self.ground {
            Ground::Given => 0.0,
            Ground::Lower(bound) | Ground::Upper(bound) => bound * (self.unit / 2.0),
        }
    }
}

/// What `sub_problem` answers beside the field that it leaves.
#[derive(Clone, Copy, Debug, PartialEq)]
pub struct Reduced {
    /// The grade of the field as it was given; that of the field left may be another.
    pub grade: Grade,
    /// How many variables are left.
    pub variables: usize,
    /// How many entries are left.
    pub entries: usize,
    /// What the objective of the given variables comes to.
    pub constant: f64,
}

/// What `mend` answers beside the entries that it leaves.
#[derive(Clone, Copy, Debug, PartialEq, Eq)]
pub struct Mended {
    /// The grade of the mended field.
    pub grade: Grade,
    /// How many entries are left.
    pub entries: usize,
    /// How many changes were made.
    pub changes: usize,
}

/// What `mend` did with one entry of the list that it was given; positions count from 0.
#[derive(Clone, Copy, Debug, PartialEq, Eq, PartialOrd, Ord, Hash)]
pub enum Change {
    /// It lay outside the field.
    Dropped {
        /// Its position in the list given.
        from: usize,
    },
    /// It is the first at its place, and stands at another position now.
    Moved {
        /// Its position in the list given.
        from: usize,
        /// Its position in the mended list.
        to: usize,
    },
    /// It was added to an earlier entry at its place.
    Joined {
        /// Its position in the list given.
        from: usize,
        /// The position of its place in the mended list.
        to: usize,
    },
}

impl From<[u16; 3]> for Change {
    /// The change that three numbers of a lent report say.
    fn from([from, kind, to]: [u16; 3]) -> Change {
        let (from, to) = (from.into(), to.into());
        match kind {
            0 => Change::Dropped { from },
            1 => Change::Moved { from, to },
            _ => Change::Joined { from, to },
        }
    }
}

/// Why a call gave no answer; tested in this order. The four that have a position are one test: they say what is wrong with
/// the first entry at fault, its row before its column and both before its place; `at` counts the entries of the list from 0.
///
/// No refusal changes a field or start values. The others up to [`Scratch`](Refusal::Scratch) change no answer list either;
/// [`Inexact`](Refusal::Inexact) and [`Unforced`](Refusal::Unforced), which are those of `reason` and the first one of a
/// record too, leave its list. [`Sum`](Refusal::Sum) is that of `mend`. [`Room`](Refusal::Room) and
/// [`Clash`](Refusal::Clash) are found only when the work is done.
#[derive(Clone, Copy, Debug, PartialEq, Eq)]
pub enum Refusal {
    /// There are more than 4,096 variables, for `allow` more than 1,024.
    Variables,
    /// There are more than 32,768 entries, or lent entry lists differ in length.
    Lists,
    /// The row of this entry is not below n.
    Row {
        /// The position of the entry, from 0.
        at: usize,
    },
    /// The column of this entry is not below n.
    Column {
        /// The position of the entry, from 0.
        at: usize,
    },
    /// This entry has the same place as the entry before.
    Repeat {
        /// The position of the entry, from 0.
        at: usize,
    },
    /// This entry stands before the entry before: entries rise by column, then row.
    Order {
        /// The position of the entry, from 0.
        at: usize,
    },
    /// An entry has its row equal to its column.
    Diagonal,
    /// A weight is not finite.
    Weights,
    /// The weights at one place have a sum that is not finite.
    Sum,
    /// The start values are not n long, or a lent byte is above 2; a record's lent bounds are not 2n long.
    Start,
    /// A probed or pinned variable is not below n or not free, a released one not below n or free, or a constraint is not as
    /// propagation asks.
    Argument,
    /// A lent scratch is too short.
    Scratch,
    /// The field is inexact, so that no value of it has a reason, and no record is made of it.
    Inexact,
    /// The variable is not below n, or is free at the end of the closure.
    Unforced,
    /// A lent answer list does not fit. Then each answer list has lost what it held, and is all zeros.
    Room {
        /// So many items are enough for the first list that does not fit. Of values and of a map it is just what is needed;
        /// of what is found it is the most that the call can find.
        enough: usize,
    },
    /// The constraints clash: no values meet them all.
    Clash,
}

impl Refusal {
    /// The refusal of this number, with the position or the room where it tells one.
    fn of(number: u8, at: usize, enough: usize) -> Option<Refusal> {
        Some(match number {
            1 => Refusal::Variables,
            2 => Refusal::Lists,
            4 => Refusal::Diagonal,
            5 => Refusal::Weights,
            6 => Refusal::Start,
            7 => Refusal::Argument,
            8 => Refusal::Scratch,
            9 => Refusal::Room { enough },
            10 => Refusal::Clash,
            12 => Refusal::Inexact,
            13 => Refusal::Unforced,
            14 => Refusal::Row { at },
            15 => Refusal::Column { at },
            16 => Refusal::Repeat { at },
            17 => Refusal::Order { at },
            18 => Refusal::Sum,
            _ => return None,
        })
    }

    /// The refusal's number in the table.
    ///
    /// ```
    /// assert_eq!(ombradiec::Refusal::Clash.number(), 10);
    /// assert_eq!(ombradiec::Refusal::Row { at: 5 }.number(), 14);
    /// ```
    pub fn number(self) -> u8 {
        match self {
            Refusal::Variables => 1,
            Refusal::Lists => 2,
            Refusal::Row { .. } => 14,
            Refusal::Column { .. } => 15,
            Refusal::Repeat { .. } => 16,
            Refusal::Order { .. } => 17,
            Refusal::Diagonal => 4,
            Refusal::Weights => 5,
            Refusal::Start => 6,
            Refusal::Argument => 7,
            Refusal::Scratch => 8,
            Refusal::Room { .. } => 9,
            Refusal::Clash => 10,
            Refusal::Inexact => 12,
            Refusal::Unforced => 13,
            Refusal::Sum => 18,
        }
    }

    /// The position of the first entry at fault, where the refusal names one.
    ///
    /// ```
    /// use ombradiec::{lent, Refusal};
    ///
    /// // the entries (0, 1) and (0, 7) of a field of two variables
    /// let field = lent::Field { linear: &[1.0, 1.0], rows: &[0, 0], cols: &[1, 7], quad: &[4.0, 4.0] };
    /// let (mut floats, mut words) = ([0.0; lent::floats(2, 2)], [0; lent::words(2, 2)]);
    /// let mut scratch = lent::Scratch { floats: &mut floats, words: &mut words };
    /// let refusal = lent::closure(&field, &mut [2, 2], &mut scratch).unwrap_err();
    /// assert_eq!(refusal, Refusal::Column { at: 1 });
    /// assert_eq!(refusal.position(), Some(1));
    /// assert_eq!(Refusal::Clash.position(), None);
    /// ```
    pub fn position(self) -> Option<usize> {
        match self {
            Refusal::Row { at } | Refusal::Column { at } | Refusal::Repeat { at } | Refusal::Order { at } => Some(at),
            _ => None,
        }
    }
}

impl fmt::Display for Refusal {
    fn fmt(&self, f: &mut fmt::Formatter) -> fmt::Result {
        if let Some(at) = self.position() {
            write!(f, "entry {}, from 0: ", at)?;
        }
        f.write_str(match self {
            Refusal::Variables => "there are more than 4,096 variables, or for allow more than 1,024",
            Refusal::Lists => "the entry lists differ in length, or have more than 32,768 entries",
            Refusal::Row { .. } => "its row is not a variable",
            Refusal::Column { .. } => "its column is not a variable",
            Refusal::Repeat { .. } => "it has the same place as the entry before",
            Refusal::Order { .. } => "it is out of order: entries rise by column, then row",
            Refusal::Diagonal => "an entry is on the diagonal",
            Refusal::Weights => "a weight is not finite",
            Refusal::Sum => "the weights at one place have a sum that is not finite",
            Refusal::Start => "the start values are not one 0, 1 or 2 for each variable",
            Refusal::Argument => "a variable, a value or a constraint is not as the call asks",
            Refusal::Scratch => "a scratch is too short",
            Refusal::Inexact => "the field is inexact",
            Refusal::Unforced => "the variable is none of the field, or is free at the end",
            Refusal::Room { .. } => "an answer list does not fit",
            Refusal::Clash => "the constraints clash",
        })?;
        match self {
            Refusal::Room { enough } => write!(f, ": {} items are enough", enough),
            _ => Ok(()),
        }
    }
}

#[cfg(feature = "std")]
impl std::error::Error for Refusal {}

/// Reads a call's number: bits 0 to 7 the refusal, 8 to 15 the grade, 16 to 43 the count or the position that a refusal names,
/// 44 to 63 the pairs examined, the variables left or the changes. `enough` is what a refusal for want of room tells.
pub(crate) fn read(answer: u64, enough: usize) -> Result<Done, Refusal> {
    let count = ((answer >> 16) & 0xfff_ffff) as usize;
    match (answer & 0xff) as u8 {
        0 => Ok(Done {
            grade: if (answer >> 8) & 0xff == 1 { Grade::Exact } else { Grade::Inexact },
            count,
            pairs: (answer >> 44) as usize,
        }),
        number => Err(Refusal::of(number, count, enough).expect("a number of the table")),
    }
}

/// Reads the number of a reason, where the ground and the unit stand in place of the pairs.
pub(crate) fn read_reason(answer: u64, enough: usize, bound: f64) -> Result<Reason, Refusal> {
    let done = read(answer, enough)?;
    let ground = match done.pairs % 4 {
        0 => Ground::Given,
        1 => Ground::Lower(bound),
        _ => Ground::Upper(bound),
    };
    // A float with nothing behind the point is the power of two that its exponent tells, which has the bias 1023.
    let unit = f64::from_bits(((done.pairs / 4) as u64 + 1003) << 52);
    Ok(Reason { ground, unit, count: done.count })
}

#[cfg(test)]
mod tests {
    use super::*;

    #[test]
    fn every_part_is_read() {
        assert_eq!(read(0x3d09_0007_a120_0100, 0), Ok(Done { grade: Grade::Exact, count: 500_000, pairs: 250_000 }));
        assert_eq!(read(0, 0), Ok(Done { grade: Grade::Inexact, count: 0, pairs: 0 }));
    }

    #[test]
    fn every_part_of_a_reason_is_read() {
        let read_back = read_reason((4 * 30 + 2) << 44 | 7 << 16 | 1 << 8, 0, -3.0);
        assert_eq!(read_back, Ok(Reason { ground: Ground::Upper(-3.0), unit: 1024.0, count: 7 }));
        assert_eq!(read_back.map(|reason| reason.bound()), Ok(-1536.0));
        assert_eq!(read_reason(13, 0, 5.0), Err(Refusal::Unforced));
        for k in 0..=40 {
            let unit = read_reason((4 * k) << 44, 0, 0.0).map(|reason| reason.unit);
            assert_eq!(unit, Ok((1_u64 << k) as f64 / f64::from(1 << 20)));
        }
    }

    #[test]
    fn every_refusal_is_read() {
        let mut refusals = 0;
        for refusal in (1..=255).filter_map(|number| Refusal::of(number, 32_767, 5)) {
            let at = refusal.position().unwrap_or(0);
            assert_eq!(at, if (14..=17).contains(&refusal.number()) { 32_767 } else { 0 });
            assert_eq!(read(u64::from(refusal.number()) + ((at as u64) << 16), 5), Err(refusal));
            refusals += 1;
        }
        assert_eq!(refusals, 16);
    }

    #[test]
    fn a_change_is_read() {
        assert_eq!(Change::from([3, 0, 65_535]), Change::Dropped { from: 3 });
        assert_eq!(Change::from([3, 1, 4]), Change::Moved { from: 3, to: 4 });
        assert_eq!(Change::from([3, 2, 4]), Change::Joined { from: 3, to: 4 });
    }
}
