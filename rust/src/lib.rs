//! A presolver for quadratic 0/1 problems of up to 4,096 variables: it forces easy ones before a solver sees the rest.
//!
//! [`closure`] forces what the signs of the gradient decide; on an exact field every best solution has these values, though
//! others may be the same in every best solution too. [`components`], [`preprocess`] and [`heavy`] force more: values that
//! some best solution has. [`reason`] says why the closure forces a value. [`probe`], [`pairs`] and [`anchors`] find
//! constraints and symmetries. [`sub_problem`] leaves the field of the variables that are still free. [`mend`] makes a field
//! of any entry list. [`Kept`] keeps the rows while variables are pinned and released. [`propagate`] gives what constraints
//! imply of given values, and [`allow`] says whether they allow anything at all.
//!
//! Each call is proved to meet its promise, for every input; this crate is a thin, safe layer over the archive
//! `libombradiec.a`, which is shown by runs. It depends on nothing else. A variable is named by its number, a `usize` from 0.
//!
//! Without the feature `std` the crate is `no_std`; without `alloc`, which `std` has in it, the module [`lent`] is all there
//! is: the same calls on slices, in which nothing is allocated.
//!
//! ```
//! # #[cfg(feature = "alloc")] {
//! use ombradiec::{closure, Field, Grade, Scratch, Values};
//!
//! // -5 x0 - x1 + 0.5 * 4 x0 x1
//! let field = Field::new(&[-5.0, -1.0], &[(0, 1, 4.0)]);
//! let mut values = Values::free(2);
//! let done = closure(&field, &mut values, &mut Scratch::new())?;
//! assert_eq!(done.grade, Grade::Exact);
//! assert_eq!(values.get(0), Some(true));
//! assert_eq!(values.get(1), Some(false));
//! assert_eq!(field.value(&values), Some(-5.0));
//! # }
//! # Ok::<(), ombradiec::Refusal>(())
//! ```
#![deny(missing_docs)]
#![cfg_attr(not(feature = "std"), no_std)]
// The page names what there is with `alloc`.
#![cfg_attr(not(feature = "alloc"), allow(rustdoc::broken_intra_doc_links))]

#[cfg(feature = "alloc")]
extern crate alloc;

mod answer;
mod constraint;
pub mod lent;
mod library;

#[cfg(feature = "alloc")]
mod builder;
#[cfg(feature = "alloc")]
mod calls;
#[cfg(feature = "alloc")]
mod field;
#[cfg(feature = "alloc")]
mod kept;
#[cfg(feature = "alloc")]
mod probes;
#[cfg(feature = "alloc")]
mod values;

pub use answer::{Change, Done, Grade, Ground, Mended, Reason, Reduced, Refusal};
pub use constraint::{Constraint, Kind};

#[cfg(feature = "alloc")]
pub use builder::{Builder, Repeats};
#[cfg(feature = "alloc")]
pub use calls::{
    allow, anchors, closure, components, heavy, mend, no_effect, pairs, preprocess, propagate, reason, shift,
    sub_problem, Allowed, SubProblem,
};
#[cfg(feature = "alloc")]
pub use field::{Field, Scratch};
#[cfg(feature = "alloc")]
pub use kept::Kept;
#[cfg(feature = "alloc")]
pub use probes::{cold_probe, cold_probe_limited, cold_probe_one, probe, probe_limited, probe_one};
#[cfg(feature = "alloc")]
pub use values::Values;
