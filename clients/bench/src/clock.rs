//! This process's own time, so that others on the machine don't count.

use std::time::Duration;

#[repr(C)]
#[derive(Default)]
struct Timespec {
    seconds: i64,
    nanoseconds: i64,
}

unsafe extern "C" {
    safe fn clock_gettime(clock: i32, time: &mut Timespec) -> i32;
}

fn now() -> Duration {
    const PROCESS: i32 = 2;
    let mut time = Timespec::default();
    assert_eq!(clock_gettime(PROCESS, &mut time), 0, "the clock");
    Duration::new(time.seconds as u64, time.nanoseconds as u32)
}

/// The clock's own time is taken off.
pub fn time(work: impl FnOnce()) -> Duration {
    let start = now();
    let begin = now();
    work();
    let end = now();
    (end - begin).saturating_sub(begin - start)
}

/// Of one call, from a round of some ten milliseconds.
pub fn time_each(mut call: impl FnMut(usize)) -> Duration {
    let once = time(|| call(0)).max(Duration::from_nanos(100));
    let count = (Duration::from_millis(10).div_duration_f64(once) as u32).clamp(1, 100_000);
    time(|| (0..count as usize).for_each(&mut call)) / count
}
