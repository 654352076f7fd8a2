//! Keys, in order and in none.

/// One above the greatest key.
pub const END: u64 = 1 << 63;

/// The next number in no order.
pub fn stir(x: &mut u64) -> u64 {
    *x ^= *x << 13;
    *x ^= *x >> 7;
    *x ^= *x << 17;
    *x
}

/// The key of a number: itself, or one that lies far from its neighbours'.
#[inline]
pub fn key(i: u64, scattered: bool) -> u64 {
    if scattered { i.wrapping_mul(11400714819323198485) & (END - 1) } else { i }
}

/// The row of a number, of 32 bits: itself, or one that lies far from its neighbours'.
pub fn row(i: u64, scattered: bool) -> u64 {
    if scattered { u64::from((i as u32).wrapping_mul(2654435761)) } else { i }
}

/// Whether the kind of keys is scattered, and not dense.
pub fn is_scattered(kind: &str) -> bool {
    match kind {
        "scattered" => true,
        "dense" => false,
        _ => panic!("{kind}: keys are dense or scattered"),
    }
}

/// The same keys in no order.
pub fn shuffled(keys: &[u64]) -> Vec<u64> {
    let mut all = keys.to_vec();
    let mut x = 43;
    for i in (1..all.len()).rev() {
        all.swap(i, (stir(&mut x) % (i as u64 + 1)) as usize);
    }
    all
}

/// What an index is asked for in a round: its keys as they are put in, the same shuffled, ranges of a hundred of them, and the same
/// ascending. Of a store of versions: the rows that are written, and those that are read.
pub struct Input {
    pub keys: Vec<u64>,
    pub shuffled: Vec<u64>,
    pub starts: Vec<u64>,
    pub ends: Vec<u64>,
    pub sorted: Vec<u64>,
}

/// How many pairs a range has.
pub const SPAN: usize = 100;

impl Input {
    pub fn new(n: usize, kind: &str) -> Input {
        let scattered = is_scattered(kind);
        let keys: Vec<u64> = (1..=n as u64).map(|i| key(i, scattered)).collect();
        let mut sorted = keys.clone();
        sorted.sort_unstable();
        let places: Vec<u64> = (0..(n - SPAN) as u64).collect();
        let at = shuffled(&places);
        let at = &at[..at.len().min(20_000)];
        Input {
            shuffled: shuffled(&keys),
            starts: at.iter().map(|i| sorted[*i as usize]).collect(),
            ends: at.iter().map(|i| sorted[*i as usize + SPAN]).collect(),
            keys,
            sorted,
        }
    }

    /// Drawn rows, a tenth as many as versions, for a store that is written and read so many times.
    pub fn of_rows(versions: usize, kind: &str) -> Input {
        let (rows, scattered) = ((versions as u64 / 10).max(1), is_scattered(kind));
        let drawn = |mut x: u64| -> Vec<u64> { (0..versions).map(|_| row(stir(&mut x) % rows, scattered)).collect() };
        Input { keys: drawn(44), shuffled: drawn(45), starts: Vec::new(), ends: Vec::new(), sorted: Vec::new() }
    }

    /// The keys that a program of the project asks for by number.
    pub fn list(&self, which: u32) -> &[u64] {
        [&self.keys, &self.shuffled, &self.starts, &self.ends, &self.sorted][which as usize]
    }
}
