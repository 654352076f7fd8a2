//! Rounds on one thread: a round puts keys into an empty index, looks them up, asks for ranges and takes the keys out, and rounds of
//! one index come after the other's. The project's program makes its own, and calls this library for the others.
//! `BENCH`: owned|further|machine,KEYS,dense|scattered,ROUNDS,INDEX+.. or versions,VERSIONS,dense|scattered,ROUNDS,INDEX+.. or
//! memory,KEYS,dense|scattered,1,INDEX, in which the machine is `joint`.
use crate::clock::{between, now, resident, resident_alone};
use crate::keys::{Input, SPAN};
use crate::peers::owned::{Map, Ordered, Run, peer};
use crate::{further, row, setting, versions};
use std::hint::black_box;
use std::sync::{Mutex, OnceLock};

/// What a round takes the time of, in its order: of the project's, from a mark to the next one.
const CALLS: [&str; 5] = ["insert", "get", "get-shuffled", "range", "remove"];
/// What the machine does beside, from one mark to another.
const MORE: [(&str, usize, usize); 4] = [("overwrite", 6, 7), ("keys", 7, 8), ("stats", 8, 9), ("close", 10, 11)];
const OURS: &str = "ours";
/// The machine, where its memory is measured beside that of trees of one owner.
const MACHINE: &str = "joint";
/// A store of versions is measured beside the same over this.
const STD: &str = "btree";

struct Bench {
    part: String,
    kind: String,
    rounds: usize,
    names: Vec<String>,
    input: Input,
}

/// How many jobs were begun, and how much was resident as the last one was.
struct Progress {
    begun: usize,
    before: u64,
}

static BENCH: OnceLock<Bench> = OnceLock::new();
static PROGRESS: Mutex<Progress> = Mutex::new(Progress { begun: 0, before: 0 });
/// What the first round told.
static TOLD: OnceLock<u64> = OnceLock::new();

fn bench() -> &'static Bench {
    BENCH.get_or_init(|| {
        let words = setting();
        let keys = words[1].parse().expect("a number of keys");
        Bench {
            part: words[0].clone(),
            input: if words[0] == "versions" { Input::of_rows(keys, &words[2]) } else { Input::new(keys, &words[2]) },
            kind: words[2].clone(),
            rounds: words[3].parse().expect("a number of rounds"),
            names: words[4].split('+').map(String::from).collect(),
        }
    })
}

/// The index of the job that runs.
fn running() -> &'static str {
    let bench = bench();
    &bench.names[(PROGRESS.lock().unwrap().begun - 1) % bench.names.len()]
}

fn told(call: &str, index: &str, nanos: f64) {
    let bench = bench();
    row(&bench.part, bench.input.keys.len() as u64, &bench.kind, 1, call, index, nanos);
}

fn tell(index: &str, nanos: [f64; 5]) {
    for (call, nanos) in CALLS.iter().zip(nanos) {
        told(call, index, nanos);
    }
}

/// Tells what a round took of an index that passed the marks.
fn tell_marks(bench: &Bench, index: &str) {
    let (n, ranges) = (bench.input.keys.len(), bench.input.starts.len());
    match bench.part.as_str() {
        "further" => {
            for (call, from, to, of_ranges) in further::CALLS {
                told(call, index, between(from, to, if of_ranges { ranges } else { n }));
            }
        }
        "versions" => {
            for (call, from, to) in versions::CALLS {
                told(call, index, between(from, to, n));
            }
        }
        _ => {
            tell(index, [between(0, 1, n), between(1, 2, n), between(2, 3, n), between(3, 4, ranges), between(4, 5, n)]);
            if bench.part == "machine" {
                for (call, from, to) in MORE {
                    told(call, index, between(from, to, n));
                }
            }
        }
    }
}

/// Tells what the last round of ours took, and begins the next job: 0 where there is none, 1 for a round of the caller's, 2 for one
/// of the project's index, 3 to fill this index alone and to empty it, 4 for a round of further calls.
#[unsafe(no_mangle)]
pub extern "C" fn rounds_next() -> u64 {
    let bench = bench();
    let memory = bench.part == "memory";
    let mut progress = PROGRESS.lock().unwrap();
    let is_ours = |job: usize| [OURS, MACHINE].contains(&bench.names[job % bench.names.len()].as_str());
    if progress.begun > 0 && !memory && is_ours(progress.begun - 1) {
        tell_marks(bench, OURS);
    }
    if progress.begun == bench.rounds * bench.names.len() {
        return 0;
    }
    progress.begun += 1;
    progress.before = if memory { resident_alone() } else { 0 };
    match is_ours(progress.begun - 1) {
        false => 1,
        true if memory => 3,
        true if bench.part == "further" => 4,
        true => 2,
    }
}

/// How many keys a list has: 0 as they are put in, 1 shuffled, 2 and 3 the starts and ends of ranges, 4 ascending.
#[unsafe(no_mangle)]
pub extern "C" fn rounds_count(which: u32) -> u64 {
    bench().input.list(which).len() as u64
}

/// # Safety
/// `keys` has `n` places.
#[unsafe(no_mangle)]
pub unsafe extern "C" fn rounds_keys(which: u32, keys: *mut u64, n: usize) {
    let keys = unsafe { std::slice::from_raw_parts_mut(keys, n) };
    keys.copy_from_slice(bench().input.list(which));
}

/// Tells the bytes a key that came in since so many were resident.
fn tell_memory(call: &str, index: &str, before: u64) {
    let bench = bench();
    let (n, bytes) = (bench.input.keys.len(), resident().saturating_sub(before));
    row("memory", n as u64, &bench.kind, 1, call, index, bytes as f64 / n as f64);
}

/// The project's index stands, filled.
#[unsafe(no_mangle)]
pub extern "C" fn rounds_filled() {
    tell_memory("bytes", running(), PROGRESS.lock().unwrap().before);
}

/// The project's index stands, and all that was put in is taken out.
#[unsafe(no_mangle)]
pub extern "C" fn rounds_emptied() {
    tell_memory("bytes-emptied", running(), PROGRESS.lock().unwrap().before);
}

/// So many calls of the project's index answered wrong.
#[unsafe(no_mangle)]
pub extern "C" fn rounds_wrong(times: u64) {
    assert_eq!(times, 0, "ours answered wrong so many times");
}

/// What a round told, which is the same of each.
#[unsafe(no_mangle)]
pub extern "C" fn rounds_told(told: u64) {
    assert_eq!(told, *TOLD.get_or_init(|| told), "this round told something else than the first one");
}

/// A job of the caller's.
#[unsafe(no_mangle)]
pub extern "C" fn rounds_peer() {
    let (bench, index) = (bench(), running());
    match bench.part.as_str() {
        "versions" => {
            assert_eq!(index, STD, "no store of versions is over it");
            rounds_told(versions::round(&bench.input));
            tell_marks(bench, index);
        }
        "further" => (peer(index).further.expect("what has further calls"))(&bench.input),
        "memory" => (peer(index).memory)(&bench.input),
        _ => (peer(index).round)(&bench.input),
    }
}

/// A round of an index: what each of its calls took.
fn round<M: Map>(input: &Input) -> [f64; 5] {
    let mut map = M::new();
    let mut marks = vec![now()];
    for key in &input.keys {
        black_box(map.insert(*key, *key));
    }
    marks.push(now());
    for key in &input.keys {
        assert_eq!(map.get(*key), Some(*key));
    }
    marks.push(now());
    for key in &input.shuffled {
        assert_eq!(map.get(*key), Some(*key));
    }
    marks.push(now());
    let mut pairs = [(0, 0); SPAN];
    for (start, end) in input.starts.iter().zip(&input.ends) {
        assert_eq!(map.range(*start, *end, &mut pairs), SPAN);
        black_box(&pairs);
    }
    marks.push(now());
    for key in &input.keys {
        assert!(map.remove(*key));
    }
    marks.push(now());
    let (n, ranges) = (input.keys.len(), input.starts.len());
    let calls = [n, n, n, ranges, n];
    std::array::from_fn(|i| (marks[i + 1] - marks[i]) as f64 / calls[i] as f64)
}

/// The bytes a key that an index takes, and keeps once they are gone.
fn memory<M: Map>(name: &str, input: &Input) {
    let before = resident_alone();
    let mut map = M::new();
    for key in &input.keys {
        map.insert(*key, *key);
    }
    tell_memory("bytes", name, before);
    for key in &input.keys {
        assert!(map.remove(*key));
    }
    tell_memory("bytes-emptied", name, before);
    // (what it holds is the process's, which ends)
    std::mem::forget(map);
}

/// How an index of this name is measured.
pub fn run<M: Map + 'static>(name: &'static str) -> Run {
    Run {
        round: Box::new(move |input| tell(name, round::<M>(input))),
        memory: Box::new(move |input| memory::<M>(name, input)),
        further: None,
    }
}

/// The same of one that has further calls too.
pub fn run_all<M: Ordered + 'static>(name: &'static str) -> Run {
    let further = move |input: &Input| {
        rounds_told(further::round::<M>(input));
        tell_marks(bench(), name);
    };
    Run { further: Some(Box::new(further)), ..run::<M>(name) }
}
