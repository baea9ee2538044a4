// Seconds of the processor that this thread has had: what else runs on the machine is not in them, but for the cache that it takes away.
#[repr(C)]
struct Time {
    seconds: i64,
    nanoseconds: i64,
}

extern "C" {
    fn clock_gettime(clock: i32, time: *mut Time) -> i32;
}

// Linux's CLOCK_THREAD_CPUTIME_ID
const OF_THREAD: i32 = 3;

pub fn seconds() -> f64 {
    let mut time = Time {
        seconds: 0,
        nanoseconds: 0,
    };
    let came = unsafe { clock_gettime(OF_THREAD, &mut time) };
    assert_eq!(came, 0, "no clock of a thread");
    time.seconds as f64 + time.nanoseconds as f64 / 1e9
}
