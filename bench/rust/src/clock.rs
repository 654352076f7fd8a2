//! Times and resident memory.
use std::sync::atomic::{AtomicU64, Ordering::Relaxed};

/// The processor time of this thread in nanoseconds: what a full machine has it wait for isn't in it.
pub fn now() -> u64 {
    #[repr(C)]
    struct Time {
        seconds: i64,
        nanos: i64,
    }
    unsafe extern "C" {
        fn clock_gettime(clock: i32, at: *mut Time) -> i32;
    }
    const THREAD_CPUTIME: i32 = 3;
    let mut time = Time { seconds: 0, nanos: 0 };
    assert_eq!(unsafe { clock_gettime(THREAD_CPUTIME, &mut time) }, 0);
    time.seconds as u64 * 1_000_000_000 + time.nanos as u64
}

/// The bytes of this process that are in memory, without what the C library keeps for what comes next.
pub fn resident_alone() -> u64 {
    unsafe extern "C" {
        fn malloc_trim(pad: usize) -> i32;
    }
    unsafe { malloc_trim(0) };
    resident()
}

/// The bytes of this process that are in memory.
pub fn resident() -> u64 {
    let text = std::fs::read_to_string("/proc/self/statm").unwrap();
    text.split(' ').nth(1).unwrap().parse::<u64>().unwrap() * 4096
}

static MARKS: [AtomicU64; 16] = [const { AtomicU64::new(0) }; 16];

/// A program of the project passed the mark `i`.
#[unsafe(no_mangle)]
pub extern "C" fn bench_mark(i: u32) {
    MARKS[i as usize].store(now(), Relaxed);
}

/// Nanoseconds from a mark to another one, for each of so many calls.
pub fn between(from: usize, to: usize, calls: usize) -> f64 {
    (MARKS[to].load(Relaxed) - MARKS[from].load(Relaxed)) as f64 / calls.max(1) as f64
}
