//! The tests of Gabzeril from outside: a checker written from the contract alone, and comparisons of the
//! C interface with it.
//!
//! Each feature links and compares some calls of the library; without any, the checker stands alone.
//! `GABZERIL_SEED` sets the seed of the first case, `GABZERIL_ROUNDS` multiplies the number of cases.

pub mod answer;
pub mod checker;
pub mod compare;
pub mod demand3;
pub mod ffi;
pub mod generate;
pub mod largest;
pub mod random;
pub mod relied;
