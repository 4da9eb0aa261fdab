//! Best times of two sides that take turns, and the rows that they make. A time is processor time of the
//! thread, so that what else the machine does counts little.

use std::time::{Duration, Instant};

/// Linux's clock of the processor time of a thread.
const THREAD_TIME: i32 = 3;

#[repr(C)]
struct Time {
    seconds: i64,
    nanoseconds: i64,
}

extern "C" {
    fn clock_gettime(clock: i32, time: *mut Time) -> i32;
}

/// The processor time that this thread has taken, in microseconds.
fn thread_time() -> f64 {
    let mut time = Time {
        seconds: 0,
        nanoseconds: 0,
    };
    let failed = unsafe { clock_gettime(THREAD_TIME, &mut time) };
    assert_eq!(failed, 0, "no clock of the thread's time");
    time.seconds as f64 * 1e6 + time.nanoseconds as f64 / 1e3
}

/// How often a side is measured at most, and the time after which a row has enough.
#[derive(Clone, Copy)]
pub struct Best {
    pub rounds: usize,
    pub enough: Duration,
}

/// How long a measure takes, about: it has as many calls as that needs.
const A_MEASURE: Duration = Duration::from_millis(4);
/// Fewer measures than these say nothing.
const LEAST_ROUNDS: usize = 3;

fn microseconds(work: &mut impl FnMut(), calls: u32) -> f64 {
    let start = thread_time();
    (0..calls).for_each(|_| work());
    (thread_time() - start) / f64::from(calls)
}

/// How many calls take about as long as a measure. The first call warms up.
fn calls(work: &mut impl FnMut()) -> u32 {
    work();
    let once = microseconds(work, 1);
    (A_MEASURE.as_micros() as f64 / once.max(0.01)).clamp(1.0, 1e6) as u32
}

impl Best {
    /// The best microseconds a call of the two. They take turns, so that whatever else the machine does
    /// falls on both.
    pub fn of(self, ours: &mut impl FnMut(), theirs: &mut impl FnMut()) -> (f64, f64) {
        let (many, many_theirs) = (calls(ours), calls(theirs));
        let mut best = (f64::INFINITY, f64::INFINITY);
        let start = Instant::now();
        for round in 0..self.rounds {
            best.0 = best.0.min(microseconds(ours, many));
            best.1 = best.1.min(microseconds(theirs, many_theirs));
            if round + 1 >= LEAST_ROUNDS && start.elapsed() > self.enough {
                break;
            }
        }
        best
    }
}

/// A line of the table, in microseconds.
pub struct Row {
    pub name: String,
    pub ours: f64,
    pub theirs: f64,
}

impl Row {
    pub fn new(name: impl Into<String>, ours: f64, theirs: f64) -> Self {
        let name = name.into();
        Row { name, ours, theirs }
    }

    pub fn ratio(&self) -> f64 {
        self.ours / self.theirs
    }

    pub fn print(&self) {
        let Row { name, ours, theirs } = self;
        println!("| {name} | {ours:.1} | {theirs:.1} | {:.2} |", self.ratio());
    }
}
