//! The original collector, at what the project's program for the collector does: nanoseconds a call and thread, by the clock.
use crate::row;
use crossbeam_epoch::{Atomic, Collector, LocalHandle, Owned};
use std::hint::black_box;
use std::sync::atomic::Ordering::SeqCst;
use std::time::Instant;

const WORKS: [(&str, u64); 5] = [("pin", 300_000), ("defer", 200_000), ("flush", 100_000), ("load-16", 50_000), ("swap", 100_000)];

fn once(handle: &LocalHandle, root: &Atomic<u64>, work: &str, i: u64) {
    let guard = handle.pin();
    match work {
        "pin" => return,
        "defer" => guard.defer(|| ()),
        "load-16" => {
            for _ in 0..16 {
                black_box(root.load(SeqCst, &guard));
            }
        }
        "swap" => {
            let old = root.swap(Owned::new(i), SeqCst, &guard);
            if !old.is_null() {
                // Safety: it was taken out, and nobody else is given it.
                unsafe { guard.defer_destroy(old) };
            }
        }
        _ => {}
    }
    if work == "flush" || work != "load-16" && i % 128 == 0 {
        guard.flush();
    }
}

/// A round on one, two and four threads.
pub fn round() {
    for (work, n) in WORKS {
        for threads in [1, 2, 4] {
            let collector = Collector::new();
            let root = Atomic::null();
            let start = Instant::now();
            std::thread::scope(|scope| {
                for _ in 0..threads {
                    scope.spawn(|| {
                        let handle = collector.register();
                        (0..n).for_each(|i| once(&handle, &root, work, i));
                    });
                }
            });
            row("collector", 0, "-", threads, work, "crossbeam-epoch", start.elapsed().as_nanos() as f64 / n as f64);
        }
    }
}
