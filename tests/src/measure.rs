//! Timing for the benchmarks: ways of doing the same, run in turn, with the median
//! of each and of how they compare. What counts is the processor time of this
//! thread, so that other programs on the machine disturb little.

use std::time::Duration;

#[repr(C)]
struct Timespec {
    seconds: i64,
    nanoseconds: i64,
}

const THREAD_TIME: i32 = 3;

extern "C" {
    fn clock_gettime(clock: i32, time: *mut Timespec) -> i32;
}

/// Processor time that this thread has used (Linux, 64 bits).
fn thread_time() -> Duration {
    let mut time = Timespec {
        seconds: 0,
        nanoseconds: 0,
    };
    // SAFETY: the call writes one timespec.
    let status = unsafe { clock_gettime(THREAD_TIME, &mut time) };
    assert_eq!(status, 0, "the clock of the thread can be read");
    Duration::new(time.seconds as u64, time.nanoseconds as u32)
}

/// Seconds that one call takes.
fn time(calls: u32, run: &mut dyn FnMut()) -> f64 {
    let from = thread_time();
    for _ in 0..calls {
        run();
    }
    (thread_time() - from).as_secs_f64() / f64::from(calls)
}

/// The seconds of one call of each way, round by round.
pub struct Rounds<const WAYS: usize>(Vec<[f64; WAYS]>);

impl<const WAYS: usize> Rounds<WAYS> {
    /// Runs all ways in turn `rounds` times, after one round that is not counted;
    /// each round makes `calls` calls of each.
    pub fn run(rounds: usize, calls: u32, mut ways: [&mut dyn FnMut(); WAYS]) -> Rounds<WAYS> {
        let mut round = |calls| ways.each_mut().map(|way| time(calls, way));
        round(1);
        Rounds((0..rounds).map(|_| round(calls)).collect())
    }

    /// The median of what is made of each round by itself: the pace of the machine
    /// changes from round to round.
    pub fn median(&self, of: impl Fn([f64; WAYS]) -> f64) -> f64 {
        let mut values: Vec<f64> = self.0.iter().map(|&round| of(round)).collect();
        values.sort_unstable_by(f64::total_cmp);
        values[values.len() / 2]
    }
}

/// The medians of one comparison.
pub struct Medians {
    pub proved: Duration,
    pub baseline: Duration,
    /// How many times as long the proved one takes.
    pub ratio: f64,
}

/// Runs two ways in turn.
pub fn in_turn(
    rounds: usize,
    calls: u32,
    proved: &mut dyn FnMut(),
    baseline: &mut dyn FnMut(),
) -> Medians {
    let rounds = Rounds::run(rounds, calls, [proved, baseline]);
    Medians {
        proved: Duration::from_secs_f64(rounds.median(|[proved, _]| proved)),
        baseline: Duration::from_secs_f64(rounds.median(|[_, baseline]| baseline)),
        ratio: rounds.median(|[proved, baseline]| proved / baseline),
    }
}
