//! Indexes for threads. The project's program makes the threads, for its own indexes and for the caller's: a job is some calls of
//! each of so many threads on one index, and each thread asks here for a hundred keys at a time. The clock runs from the first
//! thread's beginning to the last one's end; look-ups that aren't counted come before.
//! `BENCH`: threads|ranges,KEYS,dense|scattered,ROUNDS,INDEX+..,THREADS+.. ; `BENCH_WORDS` says how many words the index without a
//! lock has.
use crate::clock::resident;
use crate::keys::{END, SPAN, is_scattered, key, stir};
use crate::peers::threads::{Hundred, Peer, SEVERAL, peer};
use crate::{row, setting};
use std::cell::UnsafeCell;
use std::hint::spin_loop;
use std::sync::atomic::{AtomicBool, AtomicU64, Ordering::SeqCst};
use std::time::Instant;

/// How many threads there may be.
const MOST: usize = 4;
/// How many numbers a thread has for keys of its own.
const OWN: u64 = 100_000;

#[derive(Clone, Copy, PartialEq)]
enum Work {
    /// Puts all keys in.
    Fill,
    /// Looks all of them up, where there is no other round.
    All,
    /// Takes out what a mix put in.
    Clean,
    Get,
    Insert,
    Remove,
    Overwrite,
    /// Look-ups, so many in a hundred of them insertions.
    Mix(u64),
    /// Overwritings of the same 256 keys.
    Hot,
    Range,
    /// The same, while the first thread writes.
    RangeBeside,
    /// Ranges, each as it was at one moment.
    AtOnce,
    AtOnceBeside,
    /// Look-ups of sixty-four keys, which count as one call.
    Several,
    /// The same by a call for all of them, where the index has one.
    Many,
}
use Work::*;

const WORKS: [(Work, &str); 7] = [
    (Get, "get"),
    (Insert, "insert"),
    (Remove, "remove"),
    (Overwrite, "overwrite"),
    (Mix(5), "mix-5"),
    (Mix(50), "mix-50"),
    (Hot, "overwrite-256"),
];

const RANGES: [(Work, &str); 6] = [
    (Range, "range"),
    (RangeBeside, "range-beside-writer"),
    (AtOnce, "range-at-once"),
    (AtOnceBeside, "range-at-once-beside-writer"),
    (Several, "get-64"),
    (Many, "get-many"),
];

impl Work {
    /// Whether the first thread writes until the others are done.
    fn has_writer(self) -> bool {
        matches!(self, RangeBeside | AtOnceBeside)
    }

    /// How many calls of each thread are timed.
    fn calls(self) -> u64 {
        if RANGES.iter().any(|it| it.0 == self) { 100 } else { 1000 }
    }
}

#[derive(Clone, Copy)]
struct Job {
    threads: u64,
    work: Work,
    index: usize,
    calls: u64,
}

impl Job {
    /// Whether a thread of it writes until the others are done.
    fn is_writer(&self, thread: u64) -> bool {
        self.work.has_writer() && thread == 0
    }
}

/// What a thread knows of its part of a job.
#[repr(align(256))]
#[derive(Default)]
struct Part {
    x: u64,
    bits: u64,
    warm: u64,
    made: u64,
    new: u64,
    expected: Option<u64>,
    start: Option<u64>,
    end: u64,
}

struct Race {
    part: String,
    n: u64,
    kind: String,
    names: Vec<String>,
    peers: Vec<Option<Box<dyn Peer>>>,
    jobs: Vec<Job>,
    /// The number of the job that runs, and one more.
    begun: usize,
    parts: [UnsafeCell<Part>; MOST],
    clock: Instant,
    salt: u64,
    /// What was resident as the last job began.
    resident: u64,
}

/// Between two jobs the program's first thread alone is here; while one runs, each thread is at its own part, and reads the rest.
struct Shared(UnsafeCell<Option<Race>>);
unsafe impl Sync for Shared {}
static RACE: Shared = Shared(UnsafeCell::new(None));
static PING: AtomicU64 = AtomicU64::new(0);
static HEARD: [AtomicU64; MOST] = [const { AtomicU64::new(0) }; MOST];
static ENDED: AtomicU64 = AtomicU64::new(0);
static OPENED: AtomicBool = AtomicBool::new(false);

fn race() -> &'static Race {
    // Safety: it was opened, and changes between two jobs alone.
    unsafe { (*RACE.0.get()).as_ref().unwrap() }
}

#[allow(clippy::mut_from_ref)]
fn part(race: &Race, thread: u64) -> &mut Part {
    // Safety: a thread takes its own, and the first one's others between two jobs.
    unsafe { &mut *race.parts[thread as usize].get() }
}

impl Race {
    fn open() -> Race {
        let words = setting();
        let names: Vec<String> = words[4].split('+').map(String::from).collect();
        let n = words[1].parse().expect("a number of keys");
        let fill = |index| Job { threads: 1, work: Fill, index, calls: n };
        let mut jobs: Vec<Job> = (0..names.len()).map(fill).collect();
        let rounds = words[3].parse().expect("a number of rounds");
        if rounds == 0 {
            jobs.extend((0..names.len()).map(|index| Job { work: All, ..fill(index) }));
        }
        for _ in 0..rounds {
            for threads in words[5].split('+') {
                jobs.extend(round(works(&words[0]), names.len(), threads.parse().expect("a number of threads")));
            }
        }
        let peers = names.iter().map(|name| peer(name)).collect();
        let (parts, clock) = (Default::default(), Instant::now());
        Race { part: words[0].clone(), n, kind: words[2].clone(), names, peers, jobs, begun: 0, parts, clock, salt: 0, resident: 0 }
    }

    fn job(&self) -> Job {
        self.jobs[self.begun - 1]
    }

    /// What the job is called, where it is one that is told.
    fn call(&self, job: Job) -> Option<&'static str> {
        works(&self.part).iter().find(|it| it.0 == job.work).map(|it| it.1)
    }

    fn nanos(&self) -> u64 {
        self.clock.elapsed().as_nanos() as u64
    }

    /// Tells what the job took that ended, for each call of a thread.
    fn tell(&self) {
        let job = self.job();
        if job.work == Fill && self.names[job.index] == "stepped" {
            let bytes = resident().saturating_sub(self.resident) as f64 / self.n as f64;
            row("memory", self.n, &self.kind, 1, "bytes", "stepped", bytes);
        }
        let Some(call) = self.call(job) else {
            return;
        };
        let parts = (0..job.threads).filter(|thread| !job.is_writer(*thread)).map(|thread| part(self, thread));
        let (start, end) = parts.fold((u64::MAX, 0), |(start, end), it| (start.min(it.start.unwrap()), end.max(it.end)));
        let nanos = (end - start) as f64 / job.calls as f64;
        row(&self.part, self.n, &self.kind, job.threads, call, &self.names[job.index], nanos);
    }

    fn begin(&mut self) -> u64 {
        self.begun += 1;
        self.resident = resident();
        let job = self.job();
        PING.store(0, SeqCst);
        ENDED.store(0, SeqCst);
        for thread in 0..job.threads {
            HEARD[thread as usize].store(0, SeqCst);
            self.salt += 1;
            let warm = if matches!(job.work, Fill | All | Clean) { 0 } else { 20 };
            let new = if job.work == Clean { part(self, thread).new } else { 0 };
            let x = self.salt.wrapping_mul(0x9E37_79B9_7F4A_7C15) | 1;
            *part(self, thread) = Part { x, bits: self.salt * 16, warm, new, ..Default::default() };
        }
        let index = match self.names[job.index].as_str() {
            "unlocked" => 1,
            "stepped" => 2,
            _ => 0,
        };
        job.threads + 16 * index
    }
}

/// What a part has done, and what that is called.
fn works(part: &str) -> &'static [(Work, &'static str)] {
    if part == "ranges" { &RANGES } else { &WORKS }
}

/// The jobs of a round with so many threads.
fn round(works: &[(Work, &str)], indexes: usize, threads: u64) -> Vec<Job> {
    let mut jobs = vec![];
    for (work, _) in works.iter().copied().filter(|it| threads > 1 || !it.0.has_writer()) {
        for index in 0..indexes {
            jobs.push(Job { threads, work, index, calls: work.calls() });
            if matches!(work, Mix(_)) || work.has_writer() {
                jobs.push(Job { threads, work: Clean, index, calls: 1000 });
            }
        }
    }
    jobs
}

/// The keys that the setting speaks of, where an index of this name is asked for, else 0.
fn keys_for(name: &str) -> (u64, bool) {
    let words = setting();
    let wanted = words[4].split('+').any(|it| it == name);
    (if wanted { words[1].parse().unwrap() } else { 0 }, is_scattered(&words[2]))
}

#[unsafe(no_mangle)]
pub extern "C" fn race_words() -> u64 {
    let (keys, scattered) = keys_for("unlocked");
    if let Ok(words) = std::env::var("BENCH_WORDS") {
        return words.parse().expect("a number of words");
    }
    if keys == 0 { 0 } else { (keys * if scattered { 10 } else { 3 }).max(1 << 22) }
}

#[unsafe(no_mangle)]
pub extern "C" fn race_nodes() -> u64 {
    let (keys, scattered) = keys_for("stepped");
    if scattered { keys * 2 + OWN * 8 } else { keys / 64 + OWN }
}

#[unsafe(no_mangle)]
pub extern "C" fn race_next() -> u64 {
    // Safety: no job runs.
    let race = unsafe { &mut *RACE.0.get() };
    if OPENED.swap(true, SeqCst) {
        race.as_ref().unwrap().tell();
    } else {
        *race = Some(Race::open());
    }
    let race = race.as_mut().unwrap();
    if race.begun == race.jobs.len() { 0 } else { race.begin() }
}

/// Waits until all threads of the job are on a processor at one time.
fn meet(race: &Race, threads: u64, thread: u64) {
    if threads == 1 {
        return;
    }
    while thread != 0 {
        match PING.load(SeqCst) {
            1 => return,
            0 => {}
            turn => HEARD[thread as usize].store(turn, SeqCst),
        }
        spin_loop();
    }
    for turn in 2..7 {
        let start = race.nanos();
        PING.store(turn, SeqCst);
        for other in &HEARD[1..threads as usize] {
            while other.load(SeqCst) != turn && (turn == 2 || race.nanos() - start < 1_500_000) {
                spin_loop();
            }
        }
        if race.nanos() - start < 4000 {
            break;
        }
    }
    PING.store(1, SeqCst);
}

/// What a thread does before its part is timed: look-ups, half of them where its keys will come.
fn warm(race: &Race, job: Job, thread: u64, keys: &mut [u64]) -> Hundred {
    let part = part(race, thread);
    part.warm -= 1;
    part.expected = None;
    let scattered = is_scattered(&race.kind);
    for (i, place) in keys.iter_mut().enumerate() {
        let own = matches!(job.work, Insert | Remove) && i % 2 == 0;
        let number =
            if own { race.n + 1 + thread * OWN + (part.warm * 100 + i as u64) % job.calls } else { 1 + stir(&mut part.x) % race.n };
        *place = key(number, scattered);
    }
    Hundred::Get
}

/// A thread's next hundred, or nothing where its part is over.
fn next(thread: u64, keys: &mut [u64], kinds: &mut [u8]) -> Option<Hundred> {
    let race = race();
    let (job, part) = (race.job(), part(race, thread));
    if part.warm > 0 {
        return Some(warm(race, job, thread, keys));
    }
    if part.start.is_none() {
        meet(race, job.threads, thread);
        part.start = Some(race.nanos());
    }
    let over = if job.is_writer(thread) {
        ENDED.load(SeqCst) == job.threads - 1
    } else {
        part.made >= if job.work == Clean { part.new } else { job.calls }
    };
    if over {
        part.end = race.nanos();
        ENDED.fetch_add(1, SeqCst);
        return None;
    }
    Some(hundred(race, job, thread, keys, kinds))
}

/// A hundred keys of the thread's part, and what to do with them.
fn hundred(race: &Race, job: Job, thread: u64, keys: &mut [u64], kinds: &mut [u8]) -> Hundred {
    let (part, scattered) = (part(race, thread), is_scattered(&race.kind));
    let own = race.n + 1 + thread * OWN;
    let (made, writes) = (part.made, job.is_writer(thread));
    let (wanted, count) = if matches!(job.work, Several | Many) { (SEVERAL, 1) } else { (100, 100) };
    for (i, place) in keys[..wanted].iter_mut().enumerate() {
        let x = stir(&mut part.x);
        let number = match job.work {
            Fill | All => 1 + made + i as u64,
            Insert | Remove | Clean => own + made + i as u64,
            _ if writes => own + (made + i as u64) % OWN,
            // (a range of dense keys has all its pairs)
            Get | Overwrite | Range | RangeBeside | AtOnce | AtOnceBeside | Several | Many => 1 + x % (race.n - SPAN as u64),
            Hot => 1 + x % 256,
            Mix(percent) => {
                kinds[i] = ((x >> 40) % 100 < percent) as u8;
                part.new += kinds[i] as u64;
                if kinds[i] == 1 { own + part.new - 1 } else { 1 + (x & 0xffff_ffff) % race.n }
            }
        };
        *place = key(number, scattered);
    }
    part.made += count;
    if writes {
        part.new = part.made.min(OWN);
    }
    part.expected = match job.work {
        Fill | Insert => Some(0),
        Mix(_) => Some(kinds.iter().filter(|kind| **kind == 0).count() as u64),
        _ if writes => None,
        Range | RangeBeside | AtOnce | AtOnceBeside if scattered => None,
        Several | Many => Some(SEVERAL as u64),
        Clean if part.made > part.new => None,
        _ => Some(100),
    };
    let bits = part.bits + 16 + made / 100;
    match job.work {
        Get | All => Hundred::Get,
        Fill | Insert => Hundred::Insert(5),
        Overwrite | Hot => Hundred::Insert(bits),
        _ if writes => Hundred::Insert(bits),
        Remove | Clean => Hundred::Remove,
        Mix(_) => Hundred::Mix,
        Range | RangeBeside => Hundred::Range,
        AtOnce | AtOnceBeside => Hundred::AtOnce,
        Several => Hundred::Several,
        Many => Hundred::Many,
    }
}

fn told(thread: u64, found: u64) {
    let race = race();
    if part(race, thread).expected.is_some_and(|expected| expected != found) {
        let job = race.job();
        let work = race.call(job).unwrap_or("fill or clean");
        eprintln!("{}, {work}: {found} found where {:?} were expected", race.names[job.index], part(race, thread).expected);
        std::process::abort();
    }
}

/// # Safety
/// `keys` has `n` places, and `kinds` `m`.
#[unsafe(no_mangle)]
pub unsafe extern "C" fn race_keys(thread: u64, keys: *mut u64, n: usize, kinds: *mut u8, m: usize) -> u64 {
    let (keys, kinds) = unsafe { (std::slice::from_raw_parts_mut(keys, n), std::slice::from_raw_parts_mut(kinds, m)) };
    match next(thread, keys, kinds) {
        None => 0,
        Some(Hundred::Get) => 1,
        Some(Hundred::Insert(bits)) => 2 + 8 * bits,
        Some(Hundred::Remove) => 3,
        Some(Hundred::Mix) => 4,
        Some(Hundred::Range) => 5,
        Some(Hundred::AtOnce) => 6,
        Some(Hundred::Many) => 7,
        Some(Hundred::Several) => 7 + 8,
    }
}

#[unsafe(no_mangle)]
pub extern "C" fn race_found(thread: u64, found: u64) {
    told(thread, found);
}

/// A thread's part with an index of the caller's.
#[unsafe(no_mangle)]
pub extern "C" fn race_peer(thread: u64) {
    let race = race();
    let peer = race.peers[race.job().index].as_ref().unwrap();
    let (mut keys, mut kinds) = ([0; 100], [0; 100]);
    while let Some(what) = next(thread, &mut keys, &mut kinds) {
        told(thread, peer.calls(what, &keys, &kinds));
    }
}

const _: () = assert!(END > OWN * MOST as u64);
