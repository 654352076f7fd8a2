//! The store of versions of the project's examples, over std's `BTreeMap`: the same calls. A vacuum goes over all versions and lists
//! what goes, since a map takes out a key at a time.
use crate::clock::bench_mark;
use crate::keys::Input;
use std::collections::BTreeMap;

/// What a round takes the time of: a call, and the marks that it lies between. A vacuum's time is told for each version that stood.
pub const CALLS: [(&str, usize, usize); 5] =
    [("write", 0, 1), ("read", 1, 2), ("read-newest", 2, 3), ("vacuum", 3, 4), ("read-vacuumed", 4, 5)];

#[derive(Default)]
struct Store {
    versions: BTreeMap<(u32, u32), Option<u32>>,
    live: BTreeMap<u32, u64>,
    last: u32,
}

impl Store {
    fn begin(&mut self) -> u32 {
        *self.live.entry(self.last).or_insert(0) += 1;
        self.last
    }

    fn read(&self, stamp: u32, row: u32) -> Option<u32> {
        self.versions.range((row, 0)..=(row, stamp)).next_back().and_then(|(_, value)| *value)
    }

    fn write(&mut self, row: u32, value: u32) -> u32 {
        self.last = self.last.checked_add(1).expect("a stamp");
        self.versions.insert((row, self.last), Some(value));
        self.last
    }

    /// Takes out the versions behind which their row has another one that the oldest snapshot sees.
    fn vacuum(&mut self) -> u64 {
        let oldest = self.live.keys().next().map_or(self.last, |stamp| *stamp);
        let mut gone = Vec::new();
        let mut older: Option<(u32, u32)> = None;
        for newer in self.versions.keys() {
            if let Some(older) = older.filter(|older| older.0 == newer.0 && newer.1 <= oldest) {
                gone.push(older);
            }
            older = Some(*newer);
        }
        for version in &gone {
            self.versions.remove(version);
        }
        gone.len() as u64
    }
}

/// What the values that rows show make.
fn read_all(store: &Store, stamp: u32, rows: &[u64]) -> u64 {
    let mut sum = 0u64;
    for row in rows {
        sum = sum.wrapping_mul(31).wrapping_add(store.read(stamp, *row as u32).map_or(0, |value| u64::from(value) + 1));
    }
    sum
}

fn write_all(store: &mut Store, rows: &[u64]) {
    for row in rows {
        let value = store.last;
        assert_eq!(store.write(*row as u32, value), value + 1);
    }
}

/// A round: writes with a snapshot in the midst of them, reads at that one and at the newest, a vacuum, and the newest again; what
/// all of it told.
pub fn round(input: &Input) -> u64 {
    let mut store = Store::default();
    let (first, rest) = input.keys.split_at(input.keys.len() / 2);
    bench_mark(0);
    write_all(&mut store, first);
    let middle = store.begin();
    write_all(&mut store, rest);
    bench_mark(1);
    let mut told = read_all(&store, middle, &input.shuffled);
    bench_mark(2);
    let newest = store.begin();
    told = told.wrapping_mul(31).wrapping_add(read_all(&store, newest, &input.shuffled));
    bench_mark(3);
    told = told.wrapping_mul(31).wrapping_add(store.vacuum());
    bench_mark(4);
    told = told.wrapping_mul(31).wrapping_add(read_all(&store, newest, &input.shuffled));
    bench_mark(5);
    told
}
