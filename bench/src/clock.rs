//! Times of calls: medians over rounds in which the two that are compared take turns. The clock is that of the thread's own time
//! on a processor: other programs on the machine then disturb less.

use std::hint::black_box;
use std::time::Duration;

pub const ROUNDS: usize = 101;
/// Rounds of a call that takes longer than a tenth of a second.
pub const SLOW_ROUNDS: usize = 31;
/// A batch of calls takes at least this long.
pub const SHORTEST: Duration = Duration::from_millis(1);

/// C's `struct timespec` of Linux on x86-64, for which the library is built.
#[repr(C)]
struct TimeSpec {
    seconds: i64,
    nanoseconds: i64,
}

const CLOCK_THREAD_CPUTIME_ID: i32 = 3;

extern "C" {
    fn clock_gettime(clock: i32, time: *mut TimeSpec) -> i32;
}

/// The thread's time on a processor so far.
fn now() -> Duration {
    let mut time = TimeSpec { seconds: 0, nanoseconds: 0 };
    // The pointer is to a live value of the struct that the call fills.
    assert_eq!(unsafe { clock_gettime(CLOCK_THREAD_CPUTIME_ID, &mut time) }, 0);
    Duration::new(time.seconds as u64, time.nanoseconds as u32)
}

/// The time of so many calls, which are numbered from `from` on.
pub fn time<T>(from: usize, calls: usize, mut call: impl FnMut(usize) -> T) -> Duration {
    let start = now();
    for i in from..from + calls {
        black_box(call(black_box(i)));
    }
    now() - start
}

/// Nanoseconds of one of so many calls.
pub fn each(time: Duration, calls: usize) -> f64 {
    time.as_nanos() as f64 / calls as f64
}

/// As many calls as take a batch's time, in the fastest of three.
fn enough<T>(mut call: impl FnMut(usize) -> T) -> usize {
    let mut calls = 1;
    while (0..3).map(|_| time(0, calls, &mut call)).min() < Some(SHORTEST) {
        calls *= 2;
    }
    calls
}

/// The quarter points of some numbers; the middle one is the median.
pub fn quarters(mut numbers: Vec<f64>) -> [f64; 3] {
    numbers.sort_by(f64::total_cmp);
    [1, 2, 3].map(|quarter| numbers[quarter * (numbers.len() - 1) / 4])
}

/// Two times in nanoseconds, each the median of its rounds, and the quarter points of their rounds' ratios.
pub struct Pair {
    pub first: f64,
    pub second: f64,
    pub ratio: [f64; 3],
}

/// Rounds of two times each.
pub fn pair(mut round: impl FnMut() -> [f64; 2]) -> Pair {
    let rounds: Vec<[f64; 2]> = (0..ROUNDS).map(|_| round()).collect();
    let of = |part: fn(&[f64; 2]) -> f64| quarters(rounds.iter().map(part).collect());
    Pair { first: of(|r| r[0])[1], second: of(|r| r[1])[1], ratio: of(|r| r[0] / r[1]) }
}

/// The library and Rust by turns, the same number of calls in a batch.
pub fn versus<A, B>(mut library: impl FnMut(usize) -> A, mut rust: impl FnMut(usize) -> B) -> Pair {
    let calls = enough(&mut library).max(enough(&mut rust));
    let mut from = 0;
    pair(|| {
        from += calls;
        [each(time(from, calls, &mut library), calls), each(time(from, calls, &mut rust), calls)]
    })
}

/// The quarter points of one call's times in nanoseconds.
pub fn alone<T>(rounds: usize, mut call: impl FnMut(usize) -> T) -> [f64; 3] {
    let calls = enough(&mut call);
    quarters((0..rounds).map(|_| each(time(0, calls, &mut call), calls)).collect())
}
