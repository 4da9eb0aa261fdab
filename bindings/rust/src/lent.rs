//! The functions of the library over slices that the caller lends: nothing is allocated and nothing is
//! kept, so this is the form for a program that asks often and has its room ready. The types of the
//! package's root size the room themselves.
//!
//! A call answers with the number of its refusal, or 0, beside what it counts or works out. Numbers and
//! sizes may be any: what the library can't take it refuses.
//!
//! ```
//! use overbrindle::lent::{self, Areas, SearchSettings, SLOT};
//!
//! let (mut cuts, mut floats) = ([0; 2], [0.0; 20]);
//! let (mut indices, mut pool) = ([0; 15], [0.0; 2 * SLOT]);
//! let settings = SearchSettings { cost: 0, penalty_kind: 1, penalty: 1.0, min_segment_len: 2 };
//! let areas = Areas {
//!     cuts: &mut cuts,
//!     floats: &mut floats,
//!     indices: &mut indices,
//!     pool: &mut pool,
//! };
//! let said = lent::detect(false, settings, &[0.0, 0.0, 4.0, 4.0], &[4], areas);
//! assert_eq!((said.number, said.count, cuts[0]), (0, 1, 2));
//! ```

use crate::c;

/// The floats of the pool in which one candidate of a search lives.
pub const SLOT: usize = 200;

/// What a single result holds until it is written: a number that no answer has, so that one that is not
/// written shows.
const UNWRITTEN: usize = usize::MAX;
const UNWRITTEN_FLAG: u32 = u32::MAX;
const UNWRITTEN_FLOAT: f64 = -1e300;

/// Calls a function of the library: with numbers; slices that it reads; areas that it may write to; and
/// last what it takes behind these.
macro_rules! call {
    ($function:expr; $($number:expr),*; $($read:ident),*; $($written:ident),*; $($last:expr),*) => {{
        $(let $read: &[_] = $read;)*
        $(let $written: &mut [_] = $written;)*
        // SAFETY: each pointer is that of a slice with the slice's own length, so it is valid, aligned
        // and initialised, and what is written to overlaps nothing, since references to it are exclusive.
        // That is all that the library asks of a caller, and it keeps no pointer.
        unsafe {
            $function(
                $($number,)*
                $($read.as_ptr(), $read.len(),)*
                $($written.as_mut_ptr(), $written.len(),)*
                $($last),*
            )
        }
    }};
}

/// The settings of a search, by the numbers that the library knows them by.
#[derive(Clone, Copy, Debug, PartialEq)]
pub struct SearchSettings {
    /// 0 for L2, 1 for Normal; any other is refusal 10.
    pub cost: u32,
    /// 0 for BIC, 1 for a custom penalty; any other is refusal 10.
    pub penalty_kind: u32,
    /// The custom penalty, which BIC does not look at.
    pub penalty: f64,
    /// The minimum length of a piece.
    pub min_segment_len: usize,
}

/// What a search is lent, for k channels of n readings.
pub struct Areas<'a> {
    /// n/2 places for cuts.
    pub cuts: &'a mut [usize],
    /// (2k + 2)(n + 1) floats, zero after an answer.
    pub floats: &'a mut [f64],
    /// 3(n + 1) indices, zero after an answer.
    pub indices: &'a mut [usize],
    /// [`SLOT`] floats for each candidate that lives at once, in a search by L2 over one or two channels,
    /// zero after an answer; else none.
    pub pool: &'a mut [f64],
}

/// What a search says.
#[derive(Clone, Copy, Debug, PartialEq, Eq)]
pub struct Said {
    /// The number of the refusal, or 0.
    pub number: u32,
    /// How many cuts stand in the front of the area for them.
    pub count: usize,
    /// The channel of refusal 8, else 0.
    pub channel: usize,
    /// The index of refusal 8 in its channel, else 0.
    pub index: usize,
}

/// The cuts of channels of these lengths, which stand one after the other in the readings. A strict search
/// refuses a reading that is not finite.
pub fn detect(
    strict: bool,
    settings: SearchSettings,
    readings: &[f64],
    lengths: &[usize],
    areas: Areas,
) -> Said {
    let function = match strict {
        true => c::overbrindle_detect_multi_strict,
        false => c::overbrindle_detect_multi,
    };
    let SearchSettings {
        cost,
        penalty_kind,
        penalty,
        min_segment_len,
    } = settings;
    let Areas {
        cuts,
        floats,
        indices,
        pool,
    } = areas;
    let [mut count, mut channel, mut index] = [UNWRITTEN; 3];
    let number = call!(
        function;
        cost, penalty_kind, penalty, min_segment_len;
        readings, lengths;
        cuts, floats, indices, pool;
        &mut count, &mut channel, &mut index
    );
    Said {
        number,
        count,
        channel,
        index,
    }
}

/// What the summary of a piece says.
#[derive(Clone, Copy, Debug, PartialEq)]
pub struct SaidPiece {
    /// The number of the refusal, or 0.
    pub number: u32,
    /// How many readings there are, 0 on a refusal.
    pub length: usize,
    /// Their mean, 0 on a refusal.
    pub mean: f64,
    /// 1 where there is a spread, else 0: of a single reading and on a refusal.
    pub has_spread: u32,
    /// The spread, 0 where there is none.
    pub spread: f64,
}

/// The summary of the readings from start up to end, without end.
pub fn piece_summary(channel: &[f64], start: usize, end: usize) -> SaidPiece {
    let [mut mean, mut spread] = [UNWRITTEN_FLOAT; 2];
    let (mut length, mut has_spread) = (UNWRITTEN, UNWRITTEN_FLAG);
    let number = call!(
        c::overbrindle_piece_summary; ; channel; ;
        start, end, &mut length, &mut mean, &mut has_spread, &mut spread
    );
    SaidPiece {
        number,
        length,
        mean,
        has_spread,
        spread,
    }
}

/// The noise variance of a channel, worked out in the elements of the area from this place on, one fewer
/// than there are readings; they are zero afterwards. Without room it is NaN, and nothing is written.
pub fn noise_variance(channel: &[f64], area: &mut [f64], place: usize) -> f64 {
    call!(c::overbrindle_noise_variance; ; channel; area; place)
}

/// The settings of a CUSUM chart. Any floats may be given: the first that is out of range is refusal 15 to 18,
/// in the order of the fields.
#[derive(Clone, Copy, Debug, PartialEq)]
pub struct CusumSettings {
    /// The mean of the process, finite.
    pub target: f64,
    /// Its standard deviation, finite and above 0.
    pub sigma: f64,
    /// The allowance, finite and not negative.
    pub k: f64,
    /// The decision interval, finite and above 0.
    pub h: f64,
}

/// What a CUSUM chart is lent for its records: each slice has an element for each reading.
pub struct CusumAreas<'a> {
    /// The upper sums.
    pub s_upper: &'a mut [f64],
    /// The lower sums.
    pub s_lower: &'a mut [f64],
    /// The sides: 0 for none, 1 where the upper sum is above h, 2 where the lower sum is, 3 where both are.
    pub side: &'a mut [u8],
    /// The readings' indices, from 0.
    pub index: &'a mut [usize],
}

/// The number of the refusal, or 0, and how many records there are.
pub fn cusum_analyze(settings: CusumSettings, data: &[f64], areas: CusumAreas) -> (u32, usize) {
    let CusumSettings {
        target,
        sigma,
        k,
        h,
    } = settings;
    let CusumAreas {
        s_upper,
        s_lower,
        side,
        index,
    } = areas;
    let mut count = UNWRITTEN;
    let number = call!(
        c::overbrindle_cusum_analyze;
        target, sigma, k, h;
        data;
        s_upper, s_lower, side, index;
        &mut count
    );
    (number, count)
}

/// The number of the refusal, or 0, and how many indices of readings that signal stand in the front of
/// `points`, which has an element for each reading.
pub fn cusum_signal_points(
    settings: CusumSettings,
    data: &[f64],
    points: &mut [usize],
) -> (u32, usize) {
    let CusumSettings {
        target,
        sigma,
        k,
        h,
    } = settings;
    let mut count = UNWRITTEN;
    let number = call!(
        c::overbrindle_cusum_signal_points; target, sigma, k, h; data; points; &mut count
    );
    (number, count)
}

/// The number of the refusal, or 0, and the reading, from 1, at which the level is heard, 0 where it is
/// not. The sum is 0 for the upper and 1 for the lower; any other is refusal 10.
pub fn cusum_run_length(settings: CusumSettings, level: f64, sum: u32) -> (u32, usize) {
    let CusumSettings {
        target,
        sigma,
        k,
        h,
    } = settings;
    let mut reading = UNWRITTEN;
    let number = c::overbrindle_cusum_run_length(target, sigma, k, h, level, sum, &mut reading);
    (number, reading)
}

/// The settings of an EWMA chart. Any numbers may be given. The edition is looked at first; then the first float
/// that is out of range is refusal 15 to 18, in the order of the fields.
#[derive(Clone, Copy, Debug, PartialEq)]
pub struct EwmaSettings {
    /// The mean of the process, finite.
    pub target: f64,
    /// Its standard deviation, finite and above 0.
    pub sigma: f64,
    /// The weight of a reading, above 0 and at most 1.
    pub lambda: f64,
    /// The width of the limits, finite and above 0.
    pub l_factor: f64,
    /// 1 for [`Edition::First`](crate::Edition::First), 2 for [`Edition::Second`](crate::Edition::Second); any
    /// other is refusal 10.
    pub edition: u32,
}

/// What an EWMA chart is lent for its records: each slice has an element for each reading.
pub struct EwmaAreas<'a> {
    /// The statistics.
    pub ewma: &'a mut [f64],
    /// The upper limits.
    pub ucl: &'a mut [f64],
    /// The lower limits.
    pub lcl: &'a mut [f64],
    /// The sides: 0 for none, 1 where the statistic is above the upper limit, 2 where it is below the lower.
    pub side: &'a mut [u8],
    /// The readings' indices, from 0.
    pub index: &'a mut [usize],
}

/// The number of the refusal, or 0, and how many records there are.
pub fn ewma_analyze(settings: EwmaSettings, data: &[f64], areas: EwmaAreas) -> (u32, usize) {
    let EwmaSettings {
        target,
        sigma,
        lambda,
        l_factor,
        edition,
    } = settings;
    let EwmaAreas {
        ewma,
        ucl,
        lcl,
        side,
        index,
    } = areas;
    let mut count = UNWRITTEN;
    let number = call!(
        c::overbrindle_ewma_analyze;
        target, sigma, lambda, l_factor, edition;
        data;
        ewma, ucl, lcl, side, index;
        &mut count
    );
    (number, count)
}

/// The number of the refusal, or 0, and how many indices of readings that signal stand in the front of
/// `points`, which has an element for each reading.
pub fn ewma_signal_points(
    settings: EwmaSettings,
    data: &[f64],
    points: &mut [usize],
) -> (u32, usize) {
    let EwmaSettings {
        target,
        sigma,
        lambda,
        l_factor,
        edition,
    } = settings;
    let mut count = UNWRITTEN;
    let number = call!(
        c::overbrindle_ewma_signal_points;
        target, sigma, lambda, l_factor, edition;
        data;
        points;
        &mut count
    );
    (number, count)
}
