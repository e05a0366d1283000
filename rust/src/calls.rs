//! The calls on a field that owns its lists; what they find comes in a `Vec` as long as it is.
use crate::answer::{Change, Done, Grade, Mended, Reason, Reduced, Refusal};
use crate::constraint::Constraint;
use crate::field::{Field, Scratch};
use crate::lent;
use crate::values::Values;
use alloc::vec;
use alloc::vec::Vec;

/// Room for so many constraints is given at first, and then 16 times as much until they fit.
const FIRST_ROOM: usize = 16_384;

/// Asks with room for constraints, of which there are so many at most, and again with more where they did not fit.
pub(crate) fn with_room(
    most: usize,
    mut ask: impl FnMut(&mut [Constraint]) -> Result<Done, Refusal>,
) -> Result<(Vec<Constraint>, Done), Refusal> {
    let mut room = most.min(FIRST_ROOM);
    loop {
        let mut constraints = vec![Constraint::default(); room];
        match ask(&mut constraints) {
            Err(Refusal::Room { .. }) if room < most => room = most.min(16 * room),
            answer => {
                let done = answer?;
                constraints.truncate(done.count);
                constraints.shrink_to_fit();
                return Ok((constraints, done));
            }
        }
    }
}

/// The numbers at the front of a list that the library wrote.
fn numbers(list: &[u16], count: usize) -> Vec<usize> {
    list[..count].iter().map(|&i| i.into()).collect()
}

/// Puts every value that the gradient forces into `start`. On an exact field every best completion has them. Counts the free
/// variables whose row is flat at the end, with both bounds 0: given the values so far, either value costs nothing.
///
/// ```
/// use ombradiec::{closure, Field, Refusal, Scratch, Values};
/// let mut scratch = Scratch::new();
/// let mut start = Values::free(2);
/// closure(&Field::new(&[-1.0, -5.0], &[(0, 1, 4.0)]), &mut start, &mut scratch)?;
/// assert_eq!(start.iter_forced().collect::<Vec<_>>(), [(0, false), (1, true)]);
/// assert_eq!(closure(&Field::new(&[-5.0, -1.0], &[(0, 1, 2.0)]), &mut Values::free(2), &mut scratch)?.count, 1);
///
/// let diagonal = Field::new(&[1.0], &[(0, 0, 2.0)]);
/// assert_eq!(closure(&diagonal, &mut Values::free(1), &mut scratch), Err(Refusal::Diagonal));
/// # Ok::<(), Refusal>(())
/// ```
pub fn closure(field: &Field, start: &mut Values, scratch: &mut Scratch) -> Result<Done, Refusal> {
    lent::closure(&field.lent(), &mut start.0, &mut scratch.lend_for(field))
}

/// Puts the values of all components of at most 10 free variables into `start`. On an exact field some best completion has
/// them.
///
/// ```
/// use ombradiec::{components, Field, Scratch, Values};
/// let mut start = Values::free(2);
/// components(&Field::new(&[-0.5, -0.5], &[(0, 1, 2.0)]), &mut start, &mut Scratch::new())?;
/// assert_eq!(start, [true, false].iter().copied().collect());
/// # Ok::<(), ombradiec::Refusal>(())
/// ```
pub fn components(field: &Field, start: &mut Values, scratch: &mut Scratch) -> Result<Done, Refusal> {
    lent::components(&field.lent(), &mut start.0, &mut scratch.lend_for(field))
}

/// Puts the closure, the small components, and 0 for a free variable of no effect into `start`. On an exact field some best
/// completion has them.
///
/// ```
/// use ombradiec::{preprocess, Field, Scratch, Values};
/// let mut start = Values::free(1);
/// preprocess(&Field::new(&[0.0], &[]), &mut start, &mut Scratch::new())?;
/// assert_eq!(start.get(0), Some(false));
/// # Ok::<(), ombradiec::Refusal>(())
/// ```
pub fn preprocess(field: &Field, start: &mut Values, scratch: &mut Scratch) -> Result<Done, Refusal> {
    lent::preprocess(&field.lent(), &mut start.0, &mut scratch.lend_for(field))
}

/// Puts what [`preprocess`] and the probes find, round after round until nothing is added, into `start`. On an exact field some
/// best completion has the values.
///
/// ```
/// use ombradiec::{heavy, Field, Scratch, Values};
/// let mut start = Values::free(2);
/// heavy(&Field::new(&[-0.5, -0.5], &[(0, 1, 2.0)]), &mut start, &mut Scratch::new())?;
/// assert_eq!(start, [true, false].iter().copied().collect());
/// # Ok::<(), ombradiec::Refusal>(())
/// ```
pub fn heavy(field: &Field, start: &mut Values, scratch: &mut Scratch) -> Result<Done, Refusal> {
    lent::heavy(&field.lent(), &mut start.0, &mut scratch.lend_for(field))
}

/// The variables with no entry and c = 0, rising. A diagonal is allowed.
///
/// ```
/// use ombradiec::{no_effect, Field, Scratch};
/// assert_eq!(no_effect(&Field::new(&[0.0, 1.0, 0.0], &[]), &mut Scratch::new())?.0, [0, 2]);
/// # Ok::<(), ombradiec::Refusal>(())
/// ```
pub fn no_effect(field: &Field, scratch: &mut Scratch) -> Result<(Vec<usize>, Done), Refusal> {
    let mut list = vec![0; field.variables()];
    let done = lent::no_effect(&field.lent(), &mut list, &mut scratch.lend_for(field))?;
    Ok((numbers(&list, done.count), done))
}

/// Adds half of each diagonal entry to its c and drops the entry, so that the other calls take the field. The grade is that
/// of the field as it was.
///
/// ```
/// use ombradiec::{shift, Field};
/// let mut field = Field::new(&[1.0, 0.0], &[(0, 0, 4.0), (0, 1, 2.0)]);
/// assert_eq!(shift(&mut field)?.count, 1);
/// assert_eq!(field, Field::new(&[3.0, 0.0], &[(0, 1, 2.0)]));
/// # Ok::<(), ombradiec::Refusal>(())
/// ```
pub fn shift(field: &mut Field) -> Result<Done, Refusal> {
    let done = lent::shift(&mut field.lent_mut())?;
    field.truncate(field.variables(), done.count);
    Ok(done)
}

/// What [`sub_problem`] answers beside the field that it leaves.
#[derive(Clone, Debug, PartialEq)]
pub struct SubProblem {
    /// The grade of the field as it was given; that of the field left may be another.
    pub grade: Grade,
    /// The old number of each variable left, rising.
    pub map: Vec<usize>,
    /// What the objective of the given variables comes to.
    pub constant: f64,
}

/// Leaves the field without the variables that `start` gives: the free ones renumbered in order, their entries, and in each c
/// what the given variables add. A diagonal is allowed. On an exact field the objective of a completion is that of its free
/// values in the field left, plus the constant, and best completions correspond one to one.
///
/// ```
/// use ombradiec::{sub_problem, Field, Scratch, Values};
/// let mut field = Field::new(&[-5.0, -1.0, 3.0], &[(1, 0, 2.0), (0, 1, 4.0), (0, 2, -6.0), (1, 2, 8.0)]);
/// let start = [None, Some(true), None].iter().copied().collect();
/// let done = sub_problem(&mut field, &start, &mut Scratch::new())?;
/// assert_eq!(field, Field::new(&[-2.0, 7.0], &[(0, 1, -6.0)]));
/// assert_eq!((done.map, done.constant), (vec![0, 2], -1.0));
/// # Ok::<(), ombradiec::Refusal>(())
/// ```
pub fn sub_problem(field: &mut Field, start: &Values, scratch: &mut Scratch) -> Result<SubProblem, Refusal> {
    let mut map = vec![0; field.variables()];
    let mut lent = scratch.lend_for(field);
    let Reduced { grade, variables, entries, constant } =
        lent::sub_problem(&mut field.lent_mut(), start.lent(), &mut map, &mut lent)?;
    field.truncate(variables, entries);
    Ok(SubProblem { grade, map: numbers(&map, variables), constant })
}

/// Mends the entry list: drops the entries outside the field, puts the others in order, and adds those at one place in the
/// order given. Says each change, by rising position in the list given; a good list has none. A diagonal stays.
/// [`Field::new`] puts entries in order and keeps repeats; [`Field::listed`] keeps the list as it is.
///
/// ```
/// use ombradiec::{mend, Change, Field, Grade, Scratch};
/// let mut field = Field::listed(&[0.0, 0.0], &[(5, 0, 1.0), (0, 1, 2.0), (1, 0, 3.0), (0, 1, 0.5)]);
/// let (changes, done) = mend(&mut field, &mut Scratch::new())?;
/// assert_eq!(field, Field::new(&[0.0, 0.0], &[(1, 0, 3.0), (0, 1, 2.5)]));
/// assert_eq!(
///     changes,
///     [Change::Dropped { from: 0 }, Change::Moved { from: 2, to: 0 }, Change::Joined { from: 3, to: 1 }]
/// );
/// assert_eq!(done.grade, Grade::Exact);
/// # Ok::<(), ombradiec::Refusal>(())
/// ```
pub fn mend(field: &mut Field, scratch: &mut Scratch) -> Result<(Vec<Change>, Mended), Refusal> {
    let mut report = vec![[0; 3]; field.quad.len()];
    let mut lent = scratch.lend_for(field);
    let done = lent::mend(&mut field.lent_mut(), &mut report, &mut lent)?;
    field.truncate(field.variables(), done.entries);
    Ok((report[..done.changes].iter().map(|&numbers| numbers.into()).collect(), done))
}

/// One variable of each complement-symmetric component of at least `least` variables, none of which has a start value. A
/// diagonal is allowed.
///
/// On an exact field all listed anchors may be set at once, each to 0 or 1: some best completion has them, and obeys every
/// value and record that [`closure`], [`probe`](crate::probe) and [`probe_limited`](crate::probe_limited), also cold, and
/// [`pairs`] find from the same start values. The values of [`components`], [`preprocess`] and [`heavy`] are not among these:
/// on the field below they are 1,0, and with 0 at the anchor the one best completion is 0,1. Set anchors before, or run this
/// call from the values that [`preprocess`] left. On an inexact field nothing of it is promised: on
/// c=(-1,2^61,-2,-0.25,-0.5,-0.5), (0,1) -2^61, (0,2) 1, (0,3) 2, (4,5) 2 the anchor is 4, the closure gives x0 = 0, and
/// every best completion has x0 = 1.
///
/// ```
/// use ombradiec::{anchors, Field, Scratch, Values};
/// let field = Field::new(&[-0.5, -0.5], &[(0, 1, 2.0)]);
/// assert_eq!(anchors(&field, &Values::free(2), 2, &mut Scratch::new())?.0, [0]);
/// # Ok::<(), ombradiec::Refusal>(())
/// ```
pub fn anchors(
    field: &Field,
    start: &Values,
    least: usize,
    scratch: &mut Scratch,
) -> Result<(Vec<usize>, Done), Refusal> {
    let mut list = vec![0; field.variables()];
    let done = lent::anchors(&field.lent(), start.lent(), least, &mut list, &mut scratch.lend_for(field))?;
    Ok((numbers(&list, done.count), done))
}

/// Examines the first `limit` free pairs, at most 250,000, and gives what they say, one constraint for one pair. On an exact
/// field every best completion obeys them. Where they are more than there is room for at first, the call is made again with
/// more.
///
/// ```
/// use ombradiec::{pairs, Constraint, Field, Kind, Scratch, Values};
/// let field = Field::new(&[-1.0, -1.0], &[(0, 1, 6.0)]);
/// let (constraints, done) = pairs(&field, &Values::free(2), usize::MAX, &mut Scratch::new())?;
/// assert_eq!(done.pairs, 1);
/// assert_eq!(constraints, [Constraint::new(0, 1, Kind::NoMoreThanOne)]);
/// # Ok::<(), ombradiec::Refusal>(())
/// ```
pub fn pairs(
    field: &Field,
    start: &Values,
    limit: usize,
    scratch: &mut Scratch,
) -> Result<(Vec<Constraint>, Done), Refusal> {
    let mut lent = scratch.lend_for(field);
    let most = lent::found_pairs(lent::free(start.lent()), limit);
    with_room(most, |room| lent::pairs(&field.lent(), start.lent(), limit, room, &mut lent))
}

/// Says why a variable has its value in the closure, which is not written: its ground with the bound, and the neighbours whose
/// values the bound counts as fixed, rising. With these values alone, and all else free, the bound is strict; each of them is
/// given, or was forced earlier in the run. There may be neighbours that the bound could do without. Only exact fields have
/// reasons.
///
/// ```
/// use ombradiec::{reason, Field, Ground, Refusal, Scratch, Values};
/// let (mut scratch, start) = (Scratch::new(), Values::free(2));
/// let field = Field::new(&[-5.0, -1.0], &[(0, 1, 4.0)]);
/// let (why, neighbours) = reason(&field, &start, 1, &mut scratch)?;
/// assert_eq!((why.bound(), neighbours), (1.0, vec![0]));
/// assert!(matches!(why.ground, Ground::Lower(_)));
///
/// let undecided = Field::new(&[0.0, 0.0], &[(0, 1, 2.0)]);
/// assert_eq!(reason(&undecided, &start, 0, &mut scratch), Err(Refusal::Unforced));
/// # Ok::<(), Refusal>(())
/// ```
pub fn reason(
    field: &Field,
    start: &Values,
    variable: usize,
    scratch: &mut Scratch,
) -> Result<(Reason, Vec<usize>), Refusal> {
    let mut list = vec![0; field.variables()];
    let why = lent::reason(&field.lent(), start.lent(), variable, &mut list, &mut scratch.lend_for(field))?;
    Ok((why, numbers(&list, why.count)))
}

/// Puts every value that the constraints imply into `start`, or finds that they clash; then `start` does not change. There is
/// no field here, so no grade.
///
/// ```
/// use ombradiec::{propagate, Constraint, Kind, Refusal, Scratch, Values};
/// let mut scratch = Scratch::new();
/// let mut start = [Some(true), None].iter().copied().collect::<Values>();
/// propagate(&mut start, &[Constraint::new(0, 1, Kind::ExactlyOne)], &mut scratch)?;
/// assert_eq!(start.get(1), Some(false));
/// assert_eq!(propagate(&mut start, &[Constraint::new(0, 1, Kind::Equal)], &mut scratch), Err(Refusal::Clash));
/// # Ok::<(), Refusal>(())
/// ```
pub fn propagate(start: &mut Values, constraints: &[Constraint], scratch: &mut Scratch) -> Result<(), Refusal> {
    let lent = scratch.lend(start.len(), constraints.len());
    lent::propagate(&mut start.0, constraints, lent.words)
}

/// What [`allow`] answers.
#[derive(Clone, Debug, PartialEq, Eq)]
pub struct Allowed {
    /// The least assignment that meets every constraint; or, where none does, the lowest variable each of whose values
    /// implies the other.
    pub least: Result<Values, usize>,
    /// At 2i + v, how many values of variables follow from value v of variable i, itself included.
    pub counts: Vec<usize>,
}

/// Says whether some assignment of 0 and 1 to so many variables meets every constraint, with nothing given, and what follows
/// from each value. Each variable of the assignment, in rising order, is 0 wherever some assignment with the earlier choices
/// still allows it. The time grows with the square of the variables, of which there are at most 1,024.
///
/// ```
/// use ombradiec::{allow, Constraint, Kind, Scratch};
/// let mut scratch = Scratch::new();
/// let equal = Constraint::new(0, 1, Kind::Equal);
/// let one = Constraint::new(0, 1, Kind::ExactlyOne);
/// let allowed = allow(2, &[one], &mut scratch)?;
/// assert_eq!(allowed.least, Ok([false, true].iter().copied().collect()));
/// assert_eq!(allowed.counts, [2, 2, 2, 2]);
/// assert_eq!(allow(2, &[equal, one], &mut scratch)?.least, Err(0));
/// # Ok::<(), ombradiec::Refusal>(())
/// ```
pub fn allow(n: usize, constraints: &[Constraint], scratch: &mut Scratch) -> Result<Allowed, Refusal> {
    let (longs, words) = scratch.lend_longs(n, constraints.len());
    // More variables than it takes are refused before the lists are looked at.
    let room = n.min(lent::MOST_REACHED);
    let (mut assignment, mut counts) = (Values::free(room), vec![0; 2 * room]);
    let named = lent::allow(n, constraints, &mut assignment.0, &mut counts, longs, words)?;
    let counts = numbers(&counts, counts.len());
    Ok(Allowed { least: named.map_or(Ok(assignment), Err), counts })
}
