//! Times of the Rust, of ours and of a plain copy, over the same calls.

use std::time::{Duration, Instant};

/// Nanoseconds of one call: the median of the passes, and the best.
#[derive(Clone, Copy, Debug)]
pub struct Time {
    pub median: f64,
    pub best: f64,
}

impl Time {
    /// From the nanoseconds of each pass over so many calls.
    fn of(mut passes: Vec<u128>, calls: usize) -> Self {
        passes.sort_unstable();
        let each = |pass: u128| pass as f64 / calls as f64;
        Self {
            median: each(passes[passes.len() / 2]),
            best: each(passes[0]),
        }
    }
}

/// One line of the results.
pub struct Row {
    /// Rows of a group stand in one table, or on one line of the plot.
    pub group: &'static str,
    pub name: String,
    pub calls: usize,
    /// Bytes that a call makes or takes, of which the copy is a copy.
    pub bytes: f64,
    /// None where the Rust has not the like.
    pub rust: Option<Time>,
    pub ours: Time,
    pub copy: Time,
}

/// What is measured, each over all calls.
pub struct Sides<'a> {
    pub rust: Option<Box<dyn FnMut() + 'a>>,
    pub ours: Box<dyn FnMut() + 'a>,
    pub copy: Box<dyn FnMut() + 'a>,
}

/// The thread's own processor time, which other work on the machine touches little; or the time on the wall, where other processes do the work.
#[derive(Clone, Copy)]
pub enum Clock {
    Thread,
    Wall,
}

impl Clock {
    fn timed(self, one: &mut dyn FnMut()) -> u128 {
        match self {
            Self::Thread => {
                let start = thread_time();
                one();
                (thread_time() - start).as_nanos()
            }
            Self::Wall => {
                let start = Instant::now();
                one();
                start.elapsed().as_nanos()
            }
        }
    }
}

/// `clock_gettime` of x86-64 Linux, which the standard library links but does not offer for this clock.
fn thread_time() -> Duration {
    const CLOCK_THREAD_CPUTIME_ID: i32 = 3;
    unsafe extern "C" {
        fn clock_gettime(clock: i32, time: *mut [i64; 2]) -> i32;
    }
    let mut time = [0; 2];
    // Safety: a timespec is two numbers of eight bytes.
    let status = unsafe { clock_gettime(CLOCK_THREAD_CPUTIME_ID, &raw mut time) };
    assert_eq!(status, 0, "clock_gettime");
    Duration::new(time[0] as u64, time[1] as u32)
}

/// In each pass every side goes through the calls once, so that all see the same machine. The first pass warms up and is not counted.
pub fn measure(
    clock: Clock,
    passes: usize,
    calls: usize,
    sides: Sides,
) -> (Option<Time>, Time, Time) {
    let Sides {
        mut rust,
        mut ours,
        mut copy,
    } = sides;
    let (mut rusts, mut mine, mut copies) = (Vec::new(), Vec::new(), Vec::new());
    for pass in 0..=passes {
        let times = (
            rust.as_mut().map(|rust| clock.timed(rust.as_mut())),
            clock.timed(ours.as_mut()),
            clock.timed(copy.as_mut()),
        );
        if pass > 0 {
            rusts.extend(times.0);
            mine.push(times.1);
            copies.push(times.2);
        }
    }
    (
        rust.is_some().then(|| Time::of(rusts, calls)),
        Time::of(mine, calls),
        Time::of(copies, calls),
    )
}
