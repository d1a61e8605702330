//! Clocks, and medians of runs that take turns.

use std::time::{Duration, Instant};

/// What a run is timed by.
#[derive(Clone, Copy)]
pub enum Clock {
    /// The processor time that this thread has used: on a machine that does other things too it tells more than a clock on the wall.
    Processor,
    /// The clock on the wall, which is read faster: for batches of short runs.
    Wall,
}

impl Clock {
    /// The time that something takes.
    pub fn time(self, work: impl FnOnce()) -> Duration {
        match self {
            Self::Processor => {
                let begun = processor_time();
                work();
                processor_time() - begun
            }
            Self::Wall => {
                let begun = Instant::now();
                work();
                begun.elapsed()
            }
        }
    }
}

fn processor_time() -> Duration {
    #[repr(C)]
    struct Time {
        seconds: i64,
        nanoseconds: i64,
    }
    unsafe extern "C" {
        fn clock_gettime(clock: i32, time: *mut Time) -> i32;
    }
    /// Linux's number for the clock of a thread.
    const CLOCK_THREAD_CPUTIME_ID: i32 = 3;
    let mut time = Time {
        seconds: 0,
        nanoseconds: 0,
    };
    // SAFETY: the time is written to a `timespec` of a 64-bit Linux.
    let failed = unsafe { clock_gettime(CLOCK_THREAD_CPUTIME_ID, &mut time) };
    assert_eq!(failed, 0, "the thread has a clock");
    Duration::new(time.seconds as u64, time.nanoseconds as u32)
}

/// How long and how often something is measured.
#[derive(Clone, Copy)]
pub struct Effort {
    pub time: Duration,
    pub fewest: usize,
    pub most: usize,
    /// So many runs of the first alone follow, where the second takes so long that few turns are enough.
    pub alone: usize,
}

/// What measuring two things in turn gave.
pub struct Measured {
    /// The medians, in nanoseconds.
    pub first: f64,
    pub second: f64,
    /// The quartiles of the first by the second, each run by the one beside it, since a machine is faster at one time than at another.
    pub ratio: [f64; 3],
    pub runs: usize,
    /// Runs of the first that stand beside the last of the second.
    pub alone: usize,
}

/// Measures two things that take turns. One run of each is not counted, unless two are enough.
pub fn take_turns(
    effort: Effort,
    mut first: impl FnMut() -> Duration,
    mut second: impl FnMut() -> Duration,
) -> Measured {
    if effort.fewest > 2 {
        first();
        second();
    }
    let begun = Instant::now();
    let mut pairs = Vec::new();
    while pairs.len() < effort.fewest
        || (pairs.len() < effort.most && begun.elapsed() < effort.time)
    {
        pairs.push([first(), second()].map(|time| time.as_nanos() as f64));
    }
    let runs = pairs.len();
    let beside = pairs[runs - 1][1];
    for _ in 0..effort.alone {
        pairs.push([first().as_nanos() as f64, beside]);
    }
    let quartiles = |of: fn(&[f64; 2]) -> f64| quartiles(pairs.iter().map(of).collect());
    Measured {
        first: quartiles(|[first, _]| *first)[1],
        second: quartiles(|[_, second]| *second)[1],
        ratio: quartiles(|[first, second]| first / second),
        runs,
        alone: effort.alone,
    }
}

/// The lower quartile, the median and the upper quartile of some numbers.
fn quartiles(mut numbers: Vec<f64>) -> [f64; 3] {
    numbers.sort_unstable_by(f64::total_cmp);
    let last = numbers.len() - 1;
    [1, 2, 3].map(|quarters| {
        let (at, past) = (last * quarters / 4, last * quarters % 4);
        let next = numbers[(at + 1).min(last)];
        numbers[at] + (next - numbers[at]) * past as f64 / 4.0
    })
}
