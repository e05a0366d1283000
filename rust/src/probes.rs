//! The probes, over remembered rows and with rows made afresh.
use crate::answer::{Done, Refusal};
use crate::calls::with_room;
use crate::constraint::Constraint;
use crate::field::{Field, Scratch};
use crate::lent;
use crate::values::Values;
use alloc::vec::Vec;

/// What the closure finds with one more value given, without the start values. On an exact field every best completion that has
/// this value has the found ones.
///
/// ```
/// use ombradiec::{probe_one, Field, Scratch, Values};
/// let field = Field::new(&[-1.0, -1.0], &[(0, 1, 4.0)]);
/// let (values, _) = probe_one(&field, &Values::free(2), 0, true, &mut Scratch::new())?;
/// assert_eq!(values, [true, false].iter().copied().collect());
/// # Ok::<(), ombradiec::Refusal>(())
/// ```
pub fn probe_one(
    field: &Field,
    start: &Values,
    variable: usize,
    value: bool,
    scratch: &mut Scratch,
) -> Result<(Values, Done), Refusal> {
    let mut found = Values::free(field.variables());
    let mut lent = scratch.lend_for(field);
    let done = lent::probe_one(&field.lent(), start.lent(), variable, value, &mut found.0, &mut lent)?;
    Ok((found, done))
}

/// The same as [`probe_one`] with rows made afresh, as a second opinion: on every field and on every refusal the answers are
/// equal.
///
/// ```
/// use ombradiec::{cold_probe_one, Field, Scratch, Values};
/// let field = Field::new(&[-1.0, -1.0], &[(0, 1, 4.0)]);
/// let (values, _) = cold_probe_one(&field, &Values::free(2), 0, true, &mut Scratch::new())?;
/// assert_eq!(values, [true, false].iter().copied().collect());
/// # Ok::<(), ombradiec::Refusal>(())
/// ```
pub fn cold_probe_one(
    field: &Field,
    start: &Values,
    variable: usize,
    value: bool,
    scratch: &mut Scratch,
) -> Result<(Values, Done), Refusal> {
    let mut found = Values::free(field.variables());
    let mut lent = scratch.lend_for(field);
    let done = lent::cold_probe_one(&field.lent(), start.lent(), variable, value, &mut found.0, &mut lent)?;
    Ok((found, done))
}

/// What both probes of every free variable find: values, and constraints, one for one pair and rising by it. On an exact field
/// every best completion obeys both. Where the constraints are more than there is room for at first, the call is made again
/// with more.
///
/// ```
/// use ombradiec::{probe, Constraint, Field, Kind, Scratch, Values};
/// let field = Field::new(&[-1.0, -1.0], &[(0, 1, 4.0)]);
/// let (values, constraints, _) = probe(&field, &Values::free(2), &mut Scratch::new())?;
/// assert_eq!(values, Values::free(2));
/// assert_eq!(constraints, [Constraint::new(0, 1, Kind::ExactlyOne)]);
/// # Ok::<(), ombradiec::Refusal>(())
/// ```
pub fn probe(field: &Field, start: &Values, scratch: &mut Scratch) -> Result<(Values, Vec<Constraint>, Done), Refusal> {
    let (mut values, mut lent) = (Values::free(field.variables()), scratch.lend_for(field));
    let most = lent::found(lent::free(start.lent()));
    let (constraints, done) =
        with_room(most, |room| lent::probe(&field.lent(), start.lent(), &mut values.0, room, &mut lent))?;
    Ok((values, constraints, done))
}

/// The same as [`probe`] with rows made afresh for every probe, as a second opinion: on every field and on every refusal the
/// answers are equal. It takes far longer: 2k closures for k free variables.
///
/// ```
/// use ombradiec::{cold_probe, Constraint, Field, Kind, Scratch, Values};
/// let field = Field::new(&[-1.0, -1.0], &[(0, 1, 4.0)]);
/// let (_, constraints, _) = cold_probe(&field, &Values::free(2), &mut Scratch::new())?;
/// assert_eq!(constraints, [Constraint::new(0, 1, Kind::ExactlyOne)]);
/// # Ok::<(), ombradiec::Refusal>(())
/// ```
pub fn cold_probe(
    field: &Field,
    start: &Values,
    scratch: &mut Scratch,
) -> Result<(Values, Vec<Constraint>, Done), Refusal> {
    let (mut values, mut lent) = (Values::free(field.variables()), scratch.lend_for(field));
    let most = lent::found(lent::free(start.lent()));
    let (constraints, done) =
        with_room(most, |room| lent::cold_probe(&field.lent(), start.lent(), &mut values.0, room, &mut lent))?;
    Ok((values, constraints, done))
}

/// The same as [`probe`] of up to `candidates` free variables, those of the greatest sum of |q| over entries with both ends
/// free.
///
/// ```
/// use ombradiec::{probe_limited, Field, Scratch, Values};
/// let field = Field::new(&[-1.0, -1.0], &[(0, 1, 4.0)]);
/// let (_, constraints, _) = probe_limited(&field, &Values::free(2), 0, &mut Scratch::new())?;
/// assert_eq!(constraints, []);
/// # Ok::<(), ombradiec::Refusal>(())
/// ```
pub fn probe_limited(
    field: &Field,
    start: &Values,
    candidates: usize,
    scratch: &mut Scratch,
) -> Result<(Values, Vec<Constraint>, Done), Refusal> {
    let (mut values, mut lent) = (Values::free(field.variables()), scratch.lend_for(field));
    let most = lent::found_limited(lent::free(start.lent()), candidates);
    let (constraints, done) = with_room(most, |room| {
        lent::probe_limited(&field.lent(), start.lent(), candidates, &mut values.0, room, &mut lent)
    })?;
    Ok((values, constraints, done))
}

/// The same as [`probe_limited`] with rows made afresh for every probe, as a second opinion: on every field and on every refusal
/// the answers are equal.
///
/// ```
/// use ombradiec::{cold_probe_limited, Field, Scratch, Values};
/// let field = Field::new(&[-1.0, -1.0], &[(0, 1, 4.0)]);
/// let (_, constraints, _) = cold_probe_limited(&field, &Values::free(2), 0, &mut Scratch::new())?;
/// assert_eq!(constraints, []);
/// # Ok::<(), ombradiec::Refusal>(())
/// ```
pub fn cold_probe_limited(
    field: &Field,
    start: &Values,
    candidates: usize,
    scratch: &mut Scratch,
) -> Result<(Values, Vec<Constraint>, Done), Refusal> {
    let (mut values, mut lent) = (Values::free(field.variables()), scratch.lend_for(field));
    let most = lent::found_limited(lent::free(start.lent()), candidates);
    let (constraints, done) = with_room(most, |room| {
        lent::cold_probe_limited(&field.lent(), start.lent(), candidates, &mut values.0, room, &mut lent)
    })?;
    Ok((values, constraints, done))
}
