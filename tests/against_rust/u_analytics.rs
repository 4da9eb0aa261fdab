//! The Rust's files under the names by which a program that is written for u-analytics calls them.

pub mod detection {
    pub use cusum::*;
    pub use ewma::*;
    pub use pelt::*;
}
