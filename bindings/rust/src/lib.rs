//! Change detection and control charts whose every answer is proved.
//!
//! Overbrindle is `pelt.rs`, `cusum.rs` and `ewma.rs` of u-analytics in a language in which each function is
//! proved to meet its contract. This package calls the library that is built from it. Every call ends with
//! an answer or a numbered [`Refusal`], for all readings and settings:
//!
//! ```
//! use overbrindle::{CostFunction, Pelt, Penalty, Refusal};
//!
//! fn main() -> Result<(), Refusal> {
//!     let search = Pelt::new(CostFunction::L2, Penalty::Custom(1.0))?;
//!     assert_eq!(search.detect(&[0.0, 0.0, 4.0, 4.0])?.changepoints, [2]);
//!
//!     let gap = search.detect_strict(&[0.0, f64::NAN, 4.0, 4.0]).unwrap_err();
//!     assert_eq!(gap, Refusal::NonFinite { channel: 0, index: 1 });
//!     assert_eq!(gap.to_string(), "refusal 8: reading 1 of channel 0 is not finite");
//!     Ok(())
//! }
//! ```
//!
//! There are three ways in:
//!
//! - the types and functions here, which size the room that a call needs, and answer with a `Result`;
//! - [`detection`], with the names and signatures of `u_analytics::detection`, for a program that is
//!   written for it;
//! - [`lent`], the functions of the library over slices that the caller lends, without an allocation.
//!
//! A search takes at most [`MAX_CHANNELS`] channels of [`MAX_READINGS`] readings, and a chart
//! [`MAX_READINGS`] readings. Threads may call at once. The floating-point environment has to be the one that
//! a program starts with: rounding to nearest, and subnormal numbers as they are.

#![deny(missing_docs, unsafe_code)]

#[allow(unsafe_code)]
mod c;
mod cusum;
pub mod detection;
mod elementary;
mod ewma;
#[allow(unsafe_code)]
pub mod lent;
mod measures;
mod pelt;
mod refusal;
mod side;

pub use cusum::{Cusum, CusumResult, Sum};
pub use elementary::{ln, powi, sqrt};
pub use ewma::{Edition, Ewma, EwmaResult};
pub use measures::{noise_variance, piece_summary, PieceSummary};
pub use pelt::{CostFunction, MultiPeltResult, Pelt, PeltResult, Penalty};
pub use refusal::Refusal;
pub use side::Side;

/// The most channels that a search takes: more are [`Refusal::Channels`].
pub const MAX_CHANNELS: usize = 8;

/// The most readings that a channel or a series may have: more are [`Refusal::TooLong`]. A run length is
/// looked for among as many.
pub const MAX_READINGS: usize = 4096;
