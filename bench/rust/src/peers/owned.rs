//! Maps of one owner: std's, the original, C++'s `absl::btree_map`, and JudyL of C.
use crate::keys::{Input, SPAN};
use crate::rounds::{run, run_all};
use std::collections::BTreeMap;

pub trait Map {
    fn new() -> Self;
    fn insert(&mut self, key: u64, value: u64) -> bool;
    fn get(&self, key: u64) -> Option<u64>;
    fn remove(&mut self, key: u64) -> bool;
    /// Writes the pairs from `start` on and below `end`, as many as fit, and gives their number.
    fn range(&self, start: u64, end: u64, pairs: &mut [(u64, u64)]) -> usize;
}

/// What has further calls too.
pub trait Ordered: Map {
    fn from_sorted(pairs: Vec<(u64, u64)>) -> Self;
    /// What `added` makes of all pairs, by an iterator.
    fn sum(&self) -> u64;
    /// The same of a range's length of pairs from a key on.
    fn sum_from(&self, start: u64) -> u64;
    fn pop_first(&mut self) -> Option<u64>;
    /// The key's value, or this one, which is put in.
    fn or_insert(&mut self, key: u64, value: u64) -> u64;
}

/// A sum that tells pairs in one order from the same in another.
pub fn added(sum: u64, key: u64, value: u64) -> u64 {
    (sum ^ key).wrapping_add(value)
}

/// How an index is measured; what hasn't all calls has no rounds of further ones.
pub struct Run {
    pub round: Box<dyn Fn(&Input)>,
    pub memory: Box<dyn Fn(&Input)>,
    pub further: Option<Box<dyn Fn(&Input)>>,
}

/// The index of a name.
pub fn peer(name: &str) -> Run {
    match name {
        "btree" => run_all::<Std>("btree"),
        #[cfg(feature = "original")]
        "congee" => run::<original::Congee>("congee"),
        #[cfg(feature = "absl")]
        "absl" => run_all::<absl::Absl>("absl"),
        #[cfg(feature = "judy")]
        "judy" => run::<judy::Judy>("judy"),
        _ => panic!("no index is called {name}, or it was left out"),
    }
}

struct Std(BTreeMap<u64, u64>);

impl Map for Std {
    fn new() -> Self {
        Std(BTreeMap::new())
    }

    fn insert(&mut self, key: u64, value: u64) -> bool {
        self.0.insert(key, value).is_none()
    }

    fn get(&self, key: u64) -> Option<u64> {
        self.0.get(&key).copied()
    }

    fn remove(&mut self, key: u64) -> bool {
        self.0.remove(&key).is_some()
    }

    fn range(&self, start: u64, end: u64, pairs: &mut [(u64, u64)]) -> usize {
        let mut count = 0;
        for (place, (key, value)) in pairs.iter_mut().zip(self.0.range(start..end)) {
            *place = (*key, *value);
            count += 1;
        }
        count
    }
}

impl Ordered for Std {
    fn from_sorted(pairs: Vec<(u64, u64)>) -> Self {
        Std(pairs.into_iter().collect())
    }

    fn sum(&self) -> u64 {
        let mut sum = 0;
        for (key, value) in &self.0 {
            sum = added(sum, *key, *value);
        }
        sum
    }

    fn sum_from(&self, start: u64) -> u64 {
        let mut sum = 0;
        for (key, value) in self.0.range(start..).take(SPAN) {
            sum = added(sum, *key, *value);
        }
        sum
    }

    fn pop_first(&mut self) -> Option<u64> {
        self.0.pop_first().map(|(key, _)| key)
    }

    fn or_insert(&mut self, key: u64, value: u64) -> u64 {
        *self.0.entry(key).or_insert(value)
    }
}

#[cfg(feature = "original")]
mod original {
    use congee::epoch::{Guard, pin};
    use std::mem::ManuallyDrop;

    /// The original, with one guard for all calls.
    pub struct Congee {
        tree: ManuallyDrop<Box<congee::Congee<usize, usize>>>,
        guard: Option<Guard>,
    }

    /// Destroys what earlier rounds put off.
    fn settle() {
        for _ in 0..5_000 {
            pin().flush();
        }
    }

    impl Congee {
        fn guard(&self) -> &Guard {
            self.guard.as_ref().unwrap()
        }
    }

    impl super::Map for Congee {
        fn new() -> Self {
            settle();
            let tree = Box::new(congee::Congee::new(congee::DefaultAllocator {}));
            let guard = Some(tree.pin());
            Congee { tree: ManuallyDrop::new(tree), guard }
        }

        fn insert(&mut self, key: u64, value: u64) -> bool {
            self.tree.insert(key as usize, value as usize, self.guard()).unwrap().is_none()
        }

        fn get(&self, key: u64) -> Option<u64> {
            self.tree.get(&(key as usize), self.guard()).map(|value| value as u64)
        }

        fn remove(&mut self, key: u64) -> bool {
            self.tree.remove(&(key as usize), self.guard()).is_some()
        }

        fn range(&self, start: u64, end: u64, pairs: &mut [(u64, u64)]) -> usize {
            // Safety: `u64` and `usize` are one here.
            let pairs = unsafe { &mut *(pairs as *mut [(u64, u64)] as *mut [(usize, usize)]) };
            self.tree.range(&(start as usize), &(end as usize), pairs, self.guard())
        }
    }

    impl Drop for Congee {
        fn drop(&mut self) {
            self.guard = None;
            // Safety: it isn't looked at any more.
            unsafe { ManuallyDrop::drop(&mut self.tree) };
            settle();
        }
    }
}

#[cfg(feature = "absl")]
mod absl {
    use std::ffi::c_void;

    // (`absl.cc`)
    unsafe extern "C" {
        fn absl_new() -> *mut c_void;
        fn absl_drop(map: *mut c_void);
        fn absl_insert(map: *mut c_void, key: u64, value: u64) -> bool;
        fn absl_get(map: *const c_void, key: u64, value: *mut u64) -> bool;
        fn absl_remove(map: *mut c_void, key: u64) -> bool;
        fn absl_range(map: *const c_void, start: u64, end: u64, pairs: *mut c_void, n: usize) -> usize;
        fn absl_from_sorted(pairs: *const c_void, n: usize) -> *mut c_void;
        fn absl_sum(map: *const c_void) -> u64;
        fn absl_sum_from(map: *const c_void, start: u64, n: usize) -> u64;
        fn absl_pop_first(map: *mut c_void, key: *mut u64) -> bool;
        fn absl_or_insert(map: *mut c_void, key: u64, value: u64) -> u64;
    }

    pub struct Absl(*mut c_void);

    // (a pair is laid out as C++'s)
    const _: () = assert!(std::mem::offset_of!((u64, u64), 0) == 0 && std::mem::offset_of!((u64, u64), 1) == 8);

    // Safety: the map lives as long as this, and places are as many as is said.
    impl super::Map for Absl {
        fn new() -> Self {
            Absl(unsafe { absl_new() })
        }

        fn insert(&mut self, key: u64, value: u64) -> bool {
            unsafe { absl_insert(self.0, key, value) }
        }

        fn get(&self, key: u64) -> Option<u64> {
            let mut value = 0;
            unsafe { absl_get(self.0, key, &mut value) }.then_some(value)
        }

        fn remove(&mut self, key: u64) -> bool {
            unsafe { absl_remove(self.0, key) }
        }

        fn range(&self, start: u64, end: u64, pairs: &mut [(u64, u64)]) -> usize {
            unsafe { absl_range(self.0, start, end, pairs.as_mut_ptr().cast(), pairs.len()) }
        }
    }

    // Safety: the same.
    impl super::Ordered for Absl {
        fn from_sorted(pairs: Vec<(u64, u64)>) -> Self {
            Absl(unsafe { absl_from_sorted(pairs.as_ptr().cast(), pairs.len()) })
        }

        fn sum(&self) -> u64 {
            unsafe { absl_sum(self.0) }
        }

        fn sum_from(&self, start: u64) -> u64 {
            unsafe { absl_sum_from(self.0, start, crate::keys::SPAN) }
        }

        fn pop_first(&mut self) -> Option<u64> {
            let mut key = 0;
            unsafe { absl_pop_first(self.0, &mut key) }.then_some(key)
        }

        fn or_insert(&mut self, key: u64, value: u64) -> u64 {
            unsafe { absl_or_insert(self.0, key, value) }
        }
    }

    impl Drop for Absl {
        fn drop(&mut self) {
            unsafe { absl_drop(self.0) };
        }
    }
}

#[cfg(feature = "judy")]
mod judy {
    use std::ffi::c_void;
    use std::ptr::null_mut;

    unsafe extern "C" {
        fn JudyLIns(array: *mut *mut c_void, key: u64, error: *mut c_void) -> *mut u64;
        fn JudyLGet(array: *const c_void, key: u64, error: *mut c_void) -> *mut u64;
        fn JudyLDel(array: *mut *mut c_void, key: u64, error: *mut c_void) -> i32;
        fn JudyLFirst(array: *const c_void, key: *mut u64, error: *mut c_void) -> *mut u64;
        fn JudyLNext(array: *const c_void, key: *mut u64, error: *mut c_void) -> *mut u64;
        fn JudyLFreeArray(array: *mut *mut c_void, error: *mut c_void) -> u64;
    }

    pub struct Judy(*mut c_void);

    // Safety: a place that is told is the array's until the next writing call.
    impl super::Map for Judy {
        fn new() -> Self {
            Judy(null_mut())
        }

        fn insert(&mut self, key: u64, value: u64) -> bool {
            unsafe { *JudyLIns(&mut self.0, key, null_mut()) = value };
            true
        }

        fn get(&self, key: u64) -> Option<u64> {
            let place = unsafe { JudyLGet(self.0, key, null_mut()) };
            if place.is_null() { None } else { Some(unsafe { *place }) }
        }

        fn remove(&mut self, key: u64) -> bool {
            unsafe { JudyLDel(&mut self.0, key, null_mut()) == 1 }
        }

        fn range(&self, start: u64, end: u64, pairs: &mut [(u64, u64)]) -> usize {
            let mut key = start;
            let mut count = 0;
            let mut place = unsafe { JudyLFirst(self.0, &mut key, null_mut()) };
            while !place.is_null() && key < end && count < pairs.len() {
                pairs[count] = (key, unsafe { *place });
                count += 1;
                place = unsafe { JudyLNext(self.0, &mut key, null_mut()) };
            }
            count
        }
    }

    impl Drop for Judy {
        fn drop(&mut self) {
            unsafe { JudyLFreeArray(&mut self.0, null_mut()) };
        }
    }
}
