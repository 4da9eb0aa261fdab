//! Writes the predecessors of two functional searches by the Rust's own `partition_functional`, of
//! ramps with a high penalty, in which candidates lose inside more than 64 balls. The crate
//! `replay_functional` has them as its standard output. `tests/vectors/run` makes them.
//!
//! With 110 slots no search is refused, so each begins with the line `slots enough`.

use pelt_opened::opened_functional;

fn ramp(n: u32, step: f64) -> Vec<f64> {
    (0..n).map(|i| f64::from(i) * step).collect()
}

fn print(signals: &[&[f64]]) {
    println!("slots enough");
    for tau in opened_functional(signals, 2, 1e6) {
        println!("{tau}");
    }
}

fn main() {
    print(&[&ramp(300, 1.0)]);
    print(&[&ramp(200, 1.0), &ramp(200, 6.0)]);
}
