//! Times of contenders that take turns.

use std::time::Duration;

/// Time each contender 25 times, in turns.
pub fn in_turns<const N: usize>(contenders: [&dyn Fn(); N]) -> [Vec<Duration>; N] {
    let mut times = [(); N].map(|()| Vec::new());
    for _ in 0..25 {
        for (contender, times) in contenders.iter().zip(&mut times) {
            let start = thread_time();
            contender();
            times.push(thread_time() - start);
        }
    }
    times
}

/// The time that the processor has worked for this thread.
fn thread_time() -> Duration {
    #[repr(C)]
    struct Timespec {
        seconds: i64,
        nanoseconds: i64,
    }
    extern "C" {
        fn clock_gettime(clock: i32, time: *mut Timespec) -> i32;
    }
    const CLOCK_THREAD_CPUTIME_ID: i32 = 3;
    let mut time = Timespec { seconds: 0, nanoseconds: 0 };
    // SAFETY: the struct is that of 64-bit Linux, and the call writes no more than it.
    let status = unsafe { clock_gettime(CLOCK_THREAD_CPUTIME_ID, &mut time) };
    assert_eq!(status, 0, "no clock of the thread's time");
    Duration::new(time.seconds as u64, time.nanoseconds as u32)
}

/// The least time in microseconds.
pub fn least(times: Vec<Duration>) -> f64 {
    micros(times.into_iter().min().expect("25 times"))
}

/// The median in microseconds.
pub fn median(mut times: Vec<Duration>) -> f64 {
    times.sort();
    micros(times[times.len() / 2])
}

fn micros(time: Duration) -> f64 {
    time.as_secs_f64() * 1e6
}
