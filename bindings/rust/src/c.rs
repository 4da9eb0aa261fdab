//! The functions by C's conventions, as `include/overbrindle.h` has them: a slice is a pointer and the
//! number of its elements, and a single result is a reference. Nothing checks these declarations against
//! the library but the tests. Those that are given no slice ask nothing of their caller that a reference
//! does not say, so they are safe.

#[link(name = "overbrindle", kind = "static")]
unsafe extern "C" {
    pub fn overbrindle_detect_multi(
        cost: u32,
        penalty_kind: u32,
        penalty: f64,
        min_segment_len: usize,
        readings: *const f64,
        readings_len: usize,
        lengths: *const usize,
        lengths_len: usize,
        cuts: *mut usize,
        cuts_len: usize,
        floats: *mut f64,
        floats_len: usize,
        indices: *mut usize,
        indices_len: usize,
        pool: *mut f64,
        pool_len: usize,
        count: &mut usize,
        channel: &mut usize,
        index: &mut usize,
    ) -> u32;
    pub fn overbrindle_detect_multi_strict(
        cost: u32,
        penalty_kind: u32,
        penalty: f64,
        min_segment_len: usize,
        readings: *const f64,
        readings_len: usize,
        lengths: *const usize,
        lengths_len: usize,
        cuts: *mut usize,
        cuts_len: usize,
        floats: *mut f64,
        floats_len: usize,
        indices: *mut usize,
        indices_len: usize,
        pool: *mut f64,
        pool_len: usize,
        count: &mut usize,
        channel: &mut usize,
        index: &mut usize,
    ) -> u32;
    pub fn overbrindle_piece_summary(
        channel: *const f64,
        channel_len: usize,
        start: usize,
        end: usize,
        length: &mut usize,
        mean: &mut f64,
        has_spread: &mut u32,
        spread: &mut f64,
    ) -> u32;
    pub fn overbrindle_noise_variance(
        channel: *const f64,
        channel_len: usize,
        area: *mut f64,
        area_len: usize,
        place: usize,
    ) -> f64;
    pub fn overbrindle_cusum_analyze(
        target: f64,
        sigma: f64,
        k: f64,
        h: f64,
        data: *const f64,
        data_len: usize,
        s_upper: *mut f64,
        s_upper_len: usize,
        s_lower: *mut f64,
        s_lower_len: usize,
        side: *mut u8,
        side_len: usize,
        index: *mut usize,
        index_len: usize,
        count: &mut usize,
    ) -> u32;
    pub fn overbrindle_cusum_signal_points(
        target: f64,
        sigma: f64,
        k: f64,
        h: f64,
        data: *const f64,
        data_len: usize,
        points: *mut usize,
        points_len: usize,
        count: &mut usize,
    ) -> u32;
    pub safe fn overbrindle_cusum_run_length(
        target: f64,
        sigma: f64,
        k: f64,
        h: f64,
        level: f64,
        sum: u32,
        reading: &mut usize,
    ) -> u32;
    pub fn overbrindle_ewma_analyze(
        target: f64,
        sigma: f64,
        lambda: f64,
        l_factor: f64,
        edition: u32,
        data: *const f64,
        data_len: usize,
        ewma: *mut f64,
        ewma_len: usize,
        ucl: *mut f64,
        ucl_len: usize,
        lcl: *mut f64,
        lcl_len: usize,
        side: *mut u8,
        side_len: usize,
        index: *mut usize,
        index_len: usize,
        count: &mut usize,
    ) -> u32;
    pub fn overbrindle_ewma_signal_points(
        target: f64,
        sigma: f64,
        lambda: f64,
        l_factor: f64,
        edition: u32,
        data: *const f64,
        data_len: usize,
        points: *mut usize,
        points_len: usize,
        count: &mut usize,
    ) -> u32;
    pub safe fn overbrindle_sqrt(x: f64) -> f64;
    pub safe fn overbrindle_powi(x: f64, n: u64) -> f64;
    pub safe fn overbrindle_ln(x: f64) -> f64;
}
