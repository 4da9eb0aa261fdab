//! Promise 3, of the library's answers alone: where the run length of a level is N, the Nth of any next N
//! finite readings at or beyond the level signals on the side of the sum that hears it, above or both for the
//! upper and below or both for the lower, and is among the signal points.

use crate::charted::{ABOVE, BELOW, BOTH};
use crate::charts;
use crate::faults::Fault;
use crate::Outcome;
use overbrindle::lent::{self, CusumSettings};
use std::rc::Rc;

/// A level, which sum is to hear it (0 the upper and 1 the lower), and a series.
#[derive(Clone)]
pub struct Heard {
    pub settings: [f64; 4],
    pub level: f64,
    pub sum: u32,
    pub readings: Rc<Vec<f64>>,
}

impl Heard {
    fn beyond(&self, reading: f64) -> bool {
        match self.sum {
            0 => reading >= self.level,
            _ => reading <= self.level,
        }
    }

    /// Whether a record of this side says that the sum is above h.
    fn heard_on(&self, side: u8) -> bool {
        match self.sum {
            0 => side == ABOVE || side == BOTH,
            _ => side == BELOW || side == BOTH,
        }
    }

    /// The indices at which a chart has to signal that hears the level at reading `run_length`: as many finite
    /// readings on end, up to and with this one, are at or beyond the level.
    fn due(&self, run_length: usize) -> Vec<usize> {
        let finite = self.readings.iter().enumerate();
        let finite = finite.filter(|(_, reading)| reading.is_finite());
        let (mut on_end, mut due) = (0, Vec::new());
        for (index, &reading) in finite {
            on_end = if self.beyond(reading) { on_end + 1 } else { 0 };
            if on_end >= run_length {
                due.push(index);
            }
        }
        due
    }

    pub fn check(&self, fault: Fault) -> Result<Outcome, String> {
        let named = None;
        let chart = charts::cusum(self.settings);
        let (number, mut run_length) = lent::cusum_run_length(chart, self.level, self.sum);
        if number != 0 || run_length == 0 {
            let outcome = match number {
                0 => "not heard".into(),
                _ => format!("refusal {number}"),
            };
            return Ok(Outcome { outcome, named });
        }
        let mut sides = sides(chart, &self.readings)?;
        let mut points = points(chart, &self.readings)?;
        if fault.is("heard early") {
            run_length -= 1;
        }
        damage(fault, &mut sides, &mut points);
        let due = self.due(run_length);
        for index in &due {
            let (side, point) = (sides[*index], points.binary_search(index).is_ok());
            if !self.heard_on(side) || !point {
                return Err(format!(
                    "heard at reading {run_length}, and index {index} has side {side}, among the points: {point}"
                ));
            }
        }
        let outcome = match due.is_empty() {
            true => "never so many on end".into(),
            false => "signals where it has to".into(),
        };
        Ok(Outcome { outcome, named })
    }
}

/// Puts the fault that is asked for into what a chart said.
fn damage(fault: Fault, sides: &mut [u8], points: &mut Vec<usize>) {
    if fault.is("unheard") {
        sides.fill(0);
    }
    if fault.is("heard on the other side") {
        charts::exchange_sides(sides);
    }
    if fault.is("unheard point") {
        points.clear();
    }
}

/// The sides of the library's records.
fn sides(chart: CusumSettings, readings: &[f64]) -> Result<Vec<u8>, String> {
    let n = readings.len();
    let (mut s_upper, mut s_lower) = (vec![0.0; n], vec![0.0; n]);
    let (mut side, mut index) = (vec![0; n], vec![0; n]);
    let areas = lent::CusumAreas {
        s_upper: &mut s_upper,
        s_lower: &mut s_lower,
        side: &mut side,
        index: &mut index,
    };
    match lent::cusum_analyze(chart, readings, areas) {
        (0, count) if count == n => Ok(side),
        said => Err(format!("number and count are {said:?}")),
    }
}

/// The library's signal points.
fn points(chart: CusumSettings, readings: &[f64]) -> Result<Vec<usize>, String> {
    let mut points = vec![0; readings.len()];
    match lent::cusum_signal_points(chart, readings, &mut points) {
        (0, count) if count <= points.len() => {
            points.truncate(count);
            Ok(points)
        }
        said => Err(format!("number and count are {said:?}")),
    }
}
