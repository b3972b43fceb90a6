//! Coded DIBOL units, checked and run by the proved runtime.
//!
//! A host lends a coded unit and a data buffer as slices of bytes. [`Unit::check`] refuses anything
//! but a sound unit with a stop number. A [`Unit`] borrows the bytes that it was made from, so they
//! cannot change under a run. [`Unit::run`] works over the host's buffer for at most as many
//! statements as it is allowed, and hands back the [`State`] to go on from.
//!
//! [`Unit::fence`] says beforehand whether a unit can slip. Its yes is for data whose decimals are all
//! valid, as [`Unit::invalid`] says; after a no [`Unit::breaches`] has every reference that breaks a
//! rule. [`Unit::parts`] and [`Unit::fields`] tell what a unit has, so that no host reads its bytes.
//!
//! ```
//! use dibol::{State, Stop, Unit};
//!
//! // INCR of a decimal field that holds "41", then STOP.
//! let bytes = *b"41\x01\0\0\0\0\x02\0\x01\x02\0\0\0\
//!     \x03\0\0\0\0\0\0\0\x0B\0\0\0\0\0\0\0\0\x02\0\x01\0\x04\0\0\0\x02DB";
//!
//! let unit = Unit::check(&bytes)?;
//! let mut data = unit.image().to_vec();
//! let outcome = unit.run(&mut data, State::START, 100_000);
//!
//! assert_eq!(outcome.stop, Stop::End);
//! assert_eq!((outcome.place, outcome.count), (2, 2));
//! assert_eq!(data, b"42");
//! # Ok::<(), dibol::Refusal>(())
//! ```
//!
//! docs/OWNER.md says what each stop and each fence rule means, docs/HOST.md what a host owes and
//! what a call costs. The functions of the C library stand in [`ffi`]; they are proved. This crate
//! only lends them slices, and is tested.

#![warn(missing_docs)]

mod breaches;
mod fence;
mod field;
mod state;
mod stop;
mod unit;
mod words;

pub use breaches::{Breaches, Broken, Form};
pub use dibol_sys as ffi;
pub use fence::{Breach, Validity, Verdict};
pub use field::{Field, Fields, Kind};
pub use state::{Loop, State, Trapped};
pub use stop::{Refusal, Stop};
pub use unit::{Outcome, Parts, Unit};

/// The version of the library that is linked: 400 is 0.4.0.
///
/// ```
/// assert_eq!(dibol::version() / 100, 4);
/// ```
pub fn version() -> u64 {
    // SAFETY: the function takes nothing and reads nothing.
    unsafe { ffi::dibol_version() }
}

/// The Rust of docs/HOST.md, compiled and run with the other examples.
#[cfg(doctest)]
#[doc = include_str!("../../../../docs/HOST.md")]
struct HostPage;
