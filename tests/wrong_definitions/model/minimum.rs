//! `crates/search_rules/specs`: Minimum.

#[derive(Clone, Copy)]
pub struct Best {
    pub cost: f64,
    pub tau: usize,
}

/// With no total below infinity the predecessor is 0.
const NONE_YET: Best = Best {
    cost: f64::INFINITY,
    tau: 0,
};

/// A total that is strictly below the lowest so far takes its place.
fn better_of(best: Best, total: f64, tau: usize) -> Best {
    if total < best.cost {
        Best { cost: total, tau }
    } else {
        best
    }
}

/// The best of the candidates, of those that take part.
pub fn scan_to(
    takes_part: impl Fn(usize) -> bool,
    total: impl Fn(usize) -> f64,
    candidates: &[usize],
) -> Best {
    let mut best = NONE_YET;
    for &tau in candidates {
        if takes_part(tau) {
            best = better_of(best, total(tau), tau);
        }
    }
    best
}

/// Those candidates that stay, in their order.
pub fn kept_to(stays: impl Fn(usize) -> bool, candidates: &[usize]) -> Vec<usize> {
    candidates
        .iter()
        .copied()
        .filter(|&tau| stays(tau))
        .collect()
}
