//! The proved comparison of route filters, for Rust programs.
//!
//! [`check`] and [`compare`] call two functions of the library `host_calls`, whose contracts are proved in Rattle: which files are
//! good, what the listing of two good files is, and what is refused with which number. `docs/` in the root of the repository
//! has the rules, the bytes of a filter file and the numbers.
//!
//! ```
//! use rowlist_host::compare;
//! use rowlist_host::filter::Filter;
//!
//! let left: Filter = "family prefix\n reject 20.0.0.0/8 8-24\n default accept".parse()?;
//! let right: Filter = "family prefix\n reject 20.0.0.0/8 8-16\n default accept".parse()?;
//!
//! // One row: clause 0 on the left against the default on the right.
//! let listing = compare(&left.write(), &right.write())?;
//! assert_eq!(listing, "rows 1\n0 d 20.0.0.0/8 8-24 - 20.0.0.0/8 8-16\n");
//! # Ok::<(), Box<dyn std::error::Error>>(())
//! ```
//!
//! All else in this package is ordinary Rust of which nothing is proved: the wrappers around the two calls, [`filter`] with filters
//! as values, [`record`] with a reader and a writer of files of its own, and [`text`] with filters as lines of text.

#![warn(missing_docs)]

mod calls;
pub mod filter;
pub mod record;
mod refusal;
pub mod text;

pub use calls::{LONGEST_LISTING, check, compare, compare_into};
pub use refusal::Refusal;
