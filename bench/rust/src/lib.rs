//! What the project's indexes are measured beside, and what asks for each call. The project's programs link this library: they
//! ask it what comes next, and it takes the time. `BENCH` in the environment says what is measured; each line that it prints is
//! a row: part, keys, kind, threads, call, index, nanoseconds a call.
pub mod clock;
#[cfg(feature = "epoch")]
pub mod collector;
pub mod further;
pub mod keys;
pub mod peers;
pub mod rounds;
#[cfg(feature = "original")]
pub mod script;
pub mod threads;
pub mod versions;

/// The words of `BENCH`.
pub fn setting() -> Vec<String> {
    let words = std::env::var("BENCH").expect("BENCH says what is measured");
    words.split(',').map(String::from).collect()
}

/// Prints a row.
pub fn row(part: &str, keys: u64, kind: &str, threads: u64, call: &str, index: &str, nanos: f64) {
    println!("row {part} {keys} {kind} {threads} {call} {index} {nanos:.2}");
}
