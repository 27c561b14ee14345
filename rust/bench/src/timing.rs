//! How things are timed: by the processor time of this thread, which stands still while the machine does other things;
//! and the sides of a row take turns, round after round, so that what is left of those falls on all of them alike.
use std::hint::black_box;

#[repr(C)]
struct Time {
    seconds: i64,
    nanoseconds: i64,
}

extern "C" {
    fn clock_gettime(clock: i32, time: *mut Time) -> i32;
}

/// The number of the clock that counts this thread's processor time, on Linux.
const THREAD: i32 = 3;

/// This thread's processor time so far, in milliseconds.
fn processor_time() -> f64 {
    let mut time = Time { seconds: 0, nanoseconds: 0 };
    // SAFETY: the C library writes the two numbers of a time on a 64-bit Linux, and nothing else.
    let answer = unsafe { clock_gettime(THREAD, &mut time) };
    assert_eq!(answer, 0, "no clock of this thread's processor time");
    time.seconds as f64 * 1e3 + time.nanoseconds as f64 / 1e6
}

/// One side of a row: it makes ready, does its work, and answers how many milliseconds the work took.
pub type Side<'a> = Box<dyn FnMut() -> f64 + 'a>;

/// The milliseconds of some work. What it answers is dropped after the time is taken.
pub fn timed<T>(work: impl FnOnce() -> T) -> f64 {
    let start = processor_time();
    let answer = black_box(work());
    let taken = processor_time() - start;
    drop(answer);
    taken
}

/// The times of each side: one round that is not counted, then so many that are.
pub fn in_turns(rounds: usize, sides: &mut [Side]) -> Vec<Vec<f64>> {
    let mut times = vec![Vec::with_capacity(rounds); sides.len()];
    for round in 0..=rounds {
        for (side, taken) in sides.iter_mut().zip(&mut times) {
            let time = side();
            if round > 0 {
                taken.push(time);
            }
        }
    }
    times
}

/// The middle of some numbers, the least and the greatest.
#[derive(Clone, Copy)]
pub struct Spread {
    pub middle: f64,
    pub least: f64,
    pub most: f64,
}

pub fn spread(numbers: &[f64]) -> Spread {
    let mut sorted = numbers.to_vec();
    sorted.sort_by(f64::total_cmp);
    let n = sorted.len();
    Spread { middle: (sorted[(n - 1) / 2] + sorted[n / 2]) / 2.0, least: sorted[0], most: sorted[n - 1] }
}

/// How many times as fast the first is as the second, round by round.
pub fn ratios(first: &[f64], second: &[f64]) -> Spread {
    spread(&first.iter().zip(second).map(|(a, b)| b / a).collect::<Vec<_>>())
}
