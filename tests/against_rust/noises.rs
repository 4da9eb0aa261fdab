//! Noise variances: what they have to be, by the Rust, and whether they are.

use crate::faults::Fault;
use crate::lending::{same_word, Area, Rest, Word};
use crate::rules::pattern;
use crate::{wrapped, Outcome};
use overbrindle::lent;
use std::rc::Rc;

/// The noise variance of a channel, by way of the places from `place` on of an area of this size.
#[derive(Clone)]
pub struct Noise {
    pub readings: Rc<Vec<f64>>,
    pub place: usize,
    pub size: usize,
}

impl Noise {
    pub fn check(&self, area: &mut Area, fault: Fault) -> Result<Outcome, String> {
        let noise = pelt_opened::opened_noise(&self.readings);
        let steps = self.readings.len().saturating_sub(1);
        let end = self.place.checked_add(steps);
        let end = end.filter(|&end| end <= self.size);
        let due = pattern(if end.is_some() { noise } else { f64::NAN });
        area.lend(self.size);
        let before: Vec<Word> = area.words().to_vec();
        let mut said = pattern(lent::noise_variance(
            &self.readings,
            area.floats(),
            self.place,
        ));
        said ^= u64::from(fault.is("noise"));
        if fault.is("noise area") {
            area.words().iter_mut().for_each(|word| *word ^= 1 << 63);
        }
        if fault.is("noise beyond") {
            *area.beyond() = 0;
        }
        if said != due {
            return Err(format!("the noise variance is {said:x} and not {due:x}"));
        }
        let mut after = before;
        if let Some(end) = end {
            after[self.place..end].fill(0);
        }
        area.compare("area", &after, Rest::AsLent, same_word)?;
        wrapped::noise(&self.readings, pattern(noise))?;
        let outcome = match end {
            Some(_) => "with room".into(),
            None => "without room".into(),
        };
        let named = None;
        Ok(Outcome { outcome, named })
    }
}
