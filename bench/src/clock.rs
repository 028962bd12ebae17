//! The time that this thread, or another process, has had on a processor, so that other work on the machine counts as little as can be.
//! Where the system does not say it, the time on the wall.

use std::sync::OnceLock;
use std::time::{Duration, Instant};

#[cfg(all(target_os = "linux", target_pointer_width = "64"))]
mod system {
    use std::time::Duration;

    #[repr(C)]
    struct Time {
        seconds: i64,
        nanoseconds: i64,
    }

    extern "C" {
        fn clock_gettime(clock: i32, time: *mut Time) -> i32;
        fn clock_getcpuclockid(process: i32, clock: *mut i32) -> i32;
    }

    const THREAD: i32 = 3;

    fn told(clock: i32) -> Option<Duration> {
        let mut time = Time { seconds: 0, nanoseconds: 0 };
        // SAFETY: the time is borrowed exclusively and has the system's layout; a clock that there is not is refused.
        let refused = unsafe { clock_gettime(clock, &mut time) };
        (refused == 0).then(|| Duration::new(time.seconds as u64, time.nanoseconds as u32))
    }

    pub fn thread() -> Option<Duration> {
        told(THREAD)
    }

    pub fn process(id: u32) -> Option<Duration> {
        let mut clock = 0;
        // SAFETY: the clock is borrowed exclusively; a process that there is not is refused.
        let refused = unsafe { clock_getcpuclockid(id as i32, &mut clock) };
        if refused == 0 {
            told(clock)
        } else {
            None
        }
    }
}

#[cfg(not(all(target_os = "linux", target_pointer_width = "64")))]
mod system {
    use std::time::Duration;

    pub fn thread() -> Option<Duration> {
        None
    }

    pub fn process(_: u32) -> Option<Duration> {
        None
    }
}

fn wall() -> Duration {
    static START: OnceLock<Instant> = OnceLock::new();
    START.get_or_init(Instant::now).elapsed()
}

/// The time of this thread.
pub fn thread() -> Duration {
    system::thread().unwrap_or_else(wall)
}

/// The time of a process that was started.
pub fn process(id: u32) -> Duration {
    system::process(id).unwrap_or_else(wall)
}
