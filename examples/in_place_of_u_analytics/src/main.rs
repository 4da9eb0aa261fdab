//! What a trend desk asks of a heating circuit: when its temperatures changed, and when the flow left its
//! target. It is written for u-analytics; the line of Cargo.toml that names the package is all that changed.

use u_analytics::detection::{CostFunction, Cusum, Ewma, Pelt, Penalty};

/// The flow in °C, every ten minutes. A valve is set half way down before the 9th reading.
const FLOW: [f64; 16] = [
    61.8, 62.1, 61.9, 62.3, 62.0, 61.7, 62.2, 62.1, 57.9, 58.2, 58.0, 57.8, 58.1, 58.3, 57.9, 58.0,
];

/// The return in °C.
const RETURN: [f64; 16] = [
    44.9, 45.2, 45.0, 44.8, 45.1, 45.0, 44.9, 45.3, 45.0, 44.7, 45.2, 44.9, 42.1, 41.9, 42.2, 42.0,
];

fn main() {
    let pelt = Pelt::new(CostFunction::L2, Penalty::Bic).expect("right settings");
    println!("flow: {:?}", pelt.detect(&FLOW).changepoints);
    println!("return: {:?}", pelt.detect(&RETURN).changepoints);
    match pelt.detect_multi(&[&FLOW, &RETURN]) {
        Some(found) => println!("both: {:?}", found.changepoints),
        None => println!("flow and return have different lengths"),
    }

    let cusum = Cusum::new(62.0, 0.5).expect("right settings");
    for record in cusum.analyze(&FLOW).iter().filter(|record| record.signal) {
        println!("CUSUM at {}: {:.2}", record.index, record.s_lower);
    }
    let ewma = Ewma::new(62.0, 0.5).expect("right settings");
    println!("EWMA at {:?}", ewma.signal_points(&FLOW));
}
