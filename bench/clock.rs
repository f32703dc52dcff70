// Times of runs. A run takes up to 50 milliseconds, in which other programs interrupt it; the time that passes counts them, and more often
// for the side that takes longer. So the processor's time of this thread is taken.
use std::ffi::{c_int, c_long};
use std::hint::black_box;

#[repr(C)]
#[derive(Default)]
struct Time {
    seconds: c_long,
    nanoseconds: c_long,
}

extern "C" {
    fn clock_gettime(clock: c_int, time: *mut Time) -> c_int;
}

// The number of the thread's clock on Linux.
const THREAD: c_int = 3;

// The processor's time of this thread in nanoseconds.
fn now() -> f64 {
    let mut time = Time::default();
    let told = unsafe { clock_gettime(THREAD, &mut time) };
    assert!(told == 0, "the thread's clock cannot be read");
    time.seconds as f64 * 1e9 + time.nanoseconds as f64
}

// How many calls are timed together, for so many pins and clocks. To read the clock takes a quarter of a microsecond, and a short call right
// behind it was seen to take up to twice as long; with several together neither counts for much.
pub fn together(units: usize) -> usize {
    (2_000_000 / units).max(1)
}

// The least time of one call, of so many that are timed together.
pub fn least(best: &mut f64, calls: usize, mut f: impl FnMut()) {
    let start = now();
    for _ in 0..calls {
        f();
    }
    *best = best.min((now() - start) / calls as f64);
}

// At how many depths of the stack the turns stand. A run can take twice as long for the pages of memory that its stack has, as long as the
// program lives; at another depth it has others.
pub const DEPTHS: usize = 8;

// Makes a turn so many times 40 KiB deeper in the stack.
#[inline(never)]
pub fn deeper(depth: usize, turn: &mut dyn FnMut()) {
    let room = black_box([0u8; 40 * 1024]);
    if depth == 0 {
        turn();
    } else {
        deeper(depth - 1, turn);
    }
    black_box(&room);
}
