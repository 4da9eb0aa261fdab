// What follows is appended to `pelt.rs`, as it is, so that its private functions can be asked.

/// The running sums, those of squares, and the mean.
pub fn opened_sums(signal: &[f64]) -> (Vec<f64>, Vec<f64>, f64) {
    cumulative_sums(signal)
}

/// The range about the mean.
pub fn opened_range(signal: &[f64]) -> (f64, f64) {
    let channel = Channel::new(signal);
    (channel.lo, channel.hi)
}

/// The L2 cost of a segment.
pub fn opened_l2(signal: &[f64], start: usize, end: usize) -> f64 {
    let (sums, squares, _) = cumulative_sums(signal);
    let pelt = Pelt::new(CostFunction::L2, Penalty::Bic).expect("a search");
    pelt.segment_cost(&sums, &squares, start, end)
}

/// The noise variance of a channel.
pub fn opened_noise(signal: &[f64]) -> f64 {
    noise_variance(signal)
}

/// The noise variances of the channels, added as `resolve_penalty` adds them.
pub fn opened_noise_sum(signals: &[&[f64]]) -> f64 {
    signals.iter().map(|s| noise_variance(s)).sum::<f64>()
}

/// The L2 cost of a segment, added over the channels.
pub fn opened_l2_of(signals: &[&[f64]], start: usize, end: usize) -> f64 {
    let channels: Vec<Channel> = signals.iter().map(|s| Channel::new(s)).collect();
    let pelt = Pelt::new(CostFunction::L2, Penalty::Bic).expect("a search");
    pelt.cost_of(&channels, start, end)
}

/// The penalty of channels of n readings.
pub fn opened_penalty(cost: CostFunction, penalty: Penalty, n: usize, signals: &[&[f64]]) -> f64 {
    let pelt = Pelt::new(cost, penalty).expect("a search");
    pelt.resolve_penalty(n, signals)
}

/// The predecessors of the functional search.
pub fn opened_functional(signals: &[&[f64]], m: usize, penalty: f64) -> Vec<usize> {
    let channels: Vec<Channel> = signals.iter().map(|s| Channel::new(s)).collect();
    let pelt = Pelt::with_min_segment_len(CostFunction::L2, Penalty::Bic, m).expect("a search");
    pelt.partition_functional(&channels, signals[0].len(), penalty)
}
