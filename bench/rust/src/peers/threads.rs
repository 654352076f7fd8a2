//! Indexes for threads: std's map under its locks, and the original.
use crate::keys::SPAN;
use std::collections::BTreeMap;
use std::sync::{Mutex, RwLock};

pub trait Shared: Sync {
    /// What serves a hundred calls of a thread.
    type Guard;
    fn guard(&self) -> Self::Guard;
    fn get(&self, key: u64, guard: &Self::Guard) -> Option<u64>;
    fn insert(&self, key: u64, value: u64, guard: &Self::Guard) -> Option<u64>;
    fn remove(&self, key: u64, guard: &Self::Guard) -> Option<u64>;
    /// The pairs from `start` on, as many as there are places, and how many these are.
    fn range(&self, start: u64, pairs: &mut [(u64, u64); SPAN], guard: &Self::Guard) -> usize;
}

/// How many of a hundred keys are looked up together.
pub const SEVERAL: usize = 64;

/// What a thread does with a hundred keys.
#[derive(Clone, Copy)]
pub enum Hundred {
    Get,
    /// With values whose bits differ by these from the keys'.
    Insert(u64),
    Remove,
    /// An insertion where the kind is 1, a look-up elsewhere.
    Mix,
    Range,
    /// The same, each as it was at one moment. The original has no call for that: of it these are ranges.
    AtOnce,
    /// Look-ups of the first sixty-four.
    Several,
    /// The same by a call for all of them, which the caller's indexes haven't.
    Many,
}

/// An index that threads are given hundreds of keys for.
pub trait Peer: Sync {
    /// How many of the keys had a value, or a hundred pairs from them on.
    fn calls(&self, what: Hundred, keys: &[u64], kinds: &[u8]) -> u64;
}

impl<S: Shared> Peer for S {
    fn calls(&self, what: Hundred, keys: &[u64], kinds: &[u8]) -> u64 {
        let guard = &self.guard();
        match what {
            Hundred::Get => count(keys, |key| self.get(key, guard).is_some()),
            Hundred::Several | Hundred::Many => count(&keys[..SEVERAL], |key| self.get(key, guard).is_some()),
            Hundred::Insert(bits) => count(keys, |key| self.insert(key, key ^ bits, guard).is_some()),
            Hundred::Remove => count(keys, |key| self.remove(key, guard).is_some()),
            Hundred::Mix => {
                let mut kinds = kinds.iter();
                count(keys, |key| match kinds.next() {
                    Some(1) => self.insert(key, key ^ 5, guard).is_some(),
                    _ => self.get(key, guard).is_some(),
                })
            }
            Hundred::Range | Hundred::AtOnce => {
                let mut pairs = [(0, 0); SPAN];
                count(keys, |key| self.range(key, &mut pairs, guard) == SPAN)
            }
        }
    }
}

fn count(keys: &[u64], mut holds: impl FnMut(u64) -> bool) -> u64 {
    keys.iter().map(|key| holds(*key) as u64).sum()
}

/// The index of a name, or nothing where it is one of the project's.
pub fn peer(name: &str) -> Option<Box<dyn Peer>> {
    match name {
        "unlocked" | "stepped" => None,
        "mutex" => Some(Box::new(Mutex::new(BTreeMap::new()))),
        "rwlock" => Some(Box::new(RwLock::new(BTreeMap::new()))),
        #[cfg(feature = "original")]
        "congee" => Some(Box::new(original::Congee(congee::Congee::new(congee::DefaultAllocator {})))),
        _ => panic!("no index is called {name}, or it was left out"),
    }
}

/// Writes a map's pairs from a key on, and gives their number.
fn written(map: &BTreeMap<u64, u64>, start: u64, pairs: &mut [(u64, u64); SPAN]) -> usize {
    let mut count = 0;
    for (place, (key, value)) in pairs.iter_mut().zip(map.range(start..)) {
        *place = (*key, *value);
        count += 1;
    }
    count
}

impl Shared for Mutex<BTreeMap<u64, u64>> {
    type Guard = ();

    fn guard(&self) {}

    fn get(&self, key: u64, _: &()) -> Option<u64> {
        self.lock().unwrap().get(&key).copied()
    }

    fn insert(&self, key: u64, value: u64, _: &()) -> Option<u64> {
        self.lock().unwrap().insert(key, value)
    }

    fn remove(&self, key: u64, _: &()) -> Option<u64> {
        self.lock().unwrap().remove(&key)
    }

    fn range(&self, start: u64, pairs: &mut [(u64, u64); SPAN], _: &()) -> usize {
        written(&self.lock().unwrap(), start, pairs)
    }
}

impl Shared for RwLock<BTreeMap<u64, u64>> {
    type Guard = ();

    fn guard(&self) {}

    fn get(&self, key: u64, _: &()) -> Option<u64> {
        self.read().unwrap().get(&key).copied()
    }

    fn insert(&self, key: u64, value: u64, _: &()) -> Option<u64> {
        self.write().unwrap().insert(key, value)
    }

    fn remove(&self, key: u64, _: &()) -> Option<u64> {
        self.write().unwrap().remove(&key)
    }

    fn range(&self, start: u64, pairs: &mut [(u64, u64); SPAN], _: &()) -> usize {
        written(&self.read().unwrap(), start, pairs)
    }
}

#[cfg(feature = "original")]
mod original {
    use crate::keys::SPAN;
    use congee::epoch::Guard;

    pub struct Congee(pub congee::Congee<usize, usize>);

    impl super::Shared for Congee {
        type Guard = Guard;

        fn guard(&self) -> Guard {
            self.0.pin()
        }

        fn get(&self, key: u64, guard: &Guard) -> Option<u64> {
            self.0.get(&(key as usize), guard).map(|value| value as u64)
        }

        fn insert(&self, key: u64, value: u64, guard: &Guard) -> Option<u64> {
            self.0.insert(key as usize, value as usize, guard).unwrap().map(|value| value as u64)
        }

        fn remove(&self, key: u64, guard: &Guard) -> Option<u64> {
            self.0.remove(&(key as usize), guard).map(|value| value as u64)
        }

        fn range(&self, start: u64, pairs: &mut [(u64, u64); SPAN], guard: &Guard) -> usize {
            // Safety: `u64` and `usize` are one here.
            let pairs = unsafe { &mut *(pairs as *mut [(u64, u64)] as *mut [(usize, usize)]) };
            self.0.range(&(start as usize), &usize::MAX, pairs, guard)
        }
    }
}
