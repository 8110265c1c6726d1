//! The processor's time in this process: another program's load moves it less than the clock on the wall.

use std::time::Duration;

fn processor_time() -> Duration {
    #[repr(C)]
    struct Timespec {
        seconds: i64,
        nanoseconds: i64,
    }
    unsafe extern "C" {
        fn clock_gettime(clock: i32, time: *mut Timespec) -> i32;
    }
    const PROCESS: i32 = 2;
    let mut time = Timespec { seconds: 0, nanoseconds: 0 };
    // SAFETY: Linux on 64 bits, where a timespec is two 64-bit numbers; it is written by the call alone.
    assert_eq!(unsafe { clock_gettime(PROCESS, &mut time) }, 0, "the clock is there");
    Duration::new(time.seconds as u64, time.nanoseconds as u32)
}

/// Of one call, which must give the code 0.
pub fn time(calls: u32, mut call: impl FnMut() -> u32) -> Duration {
    let start = processor_time();
    for _ in 0..calls {
        assert_eq!(call(), 0);
    }
    (processor_time() - start) / calls
}
