// What follows is appended to a copy of `pelt.rs` in which `sed` puts `rule_ln` for `ln`, ranks the radii
// before it compares them for the narrowest, and notes how many candidates live.

#[allow(dead_code)]
#[path = "RULES_RS"]
mod rules;

use std::sync::atomic::{AtomicBool, AtomicUsize, Ordering::Relaxed};

static PEAK: AtomicUsize = AtomicUsize::new(0);
static NAN_ABOVE: AtomicBool = AtomicBool::new(false);

trait RuleLogarithm {
    fn rule_ln(self) -> f64;
}

impl RuleLogarithm for f64 {
    /// By the rule of docs/RULES.md.
    fn rule_ln(self) -> f64 {
        rules::ln(self)
    }
}

/// The list of living candidates holds `count`: at the start, and whenever one joins. It grows nowhere else.
#[deny(dead_code)]
fn note_living(count: usize) {
    PEAK.fetch_max(count, Relaxed);
}

/// The radius as it is, or with every NaN above all numbers.
#[deny(dead_code)]
fn rank(radius: f64) -> f64 {
    match radius.is_nan() && NAN_ABOVE.load(Relaxed) {
        true => f64::from_bits(0x7ff8_0000_0000_0000),
        false => radius,
    }
}

/// The cuts, and the most candidates that lived at once: none where no functional search ran.
#[derive(PartialEq)]
pub struct Ruled {
    pub cuts: Vec<usize>,
    pub peak: usize,
}

/// A search by the rules' logarithm. `nan_above` says whether a radius that is NaN counts as above all
/// numbers, as docs/RULES.md has it, or by its sign, as `total_cmp` has it.
pub fn ruled(pelt: &Pelt, signals: &[&[f64]], nan_above: bool) -> Ruled {
    NAN_ABOVE.store(nan_above, Relaxed);
    PEAK.store(0, Relaxed);
    let cuts = pelt.segment(signals);
    let peak = PEAK.load(Relaxed);
    Ruled { cuts, peak }
}
