//! A round of further calls on a map of one owner: sorted pairs at once, iterators, the least pair taken, and a key's place beside
//! a look-up and an insertion. Marks are passed where the project's program passes them.
use crate::clock::bench_mark;
use crate::keys::Input;
use crate::peers::owned::Ordered;

/// What a round takes the time of: a call, the marks that it lies between, and whether it is called for each start of a range, not
/// for each key.
pub const CALLS: [(&str, usize, usize, bool); 9] = [
    ("iter", 3, 4, false),
    ("range-iter", 4, 5, true),
    ("insert-sorted", 0, 1, false),
    ("from-sorted", 2, 3, false),
    ("pop-first", 5, 6, false),
    ("entry-absent", 7, 8, false),
    ("get-insert-absent", 10, 11, false),
    ("entry-present", 8, 9, false),
    ("get-insert-present", 11, 12, false),
];

fn insert_sorted<M: Ordered>(input: &Input) {
    let mut map = M::new();
    bench_mark(0);
    for key in &input.sorted {
        assert!(map.insert(*key, *key));
    }
    bench_mark(1);
}

/// Builds a map, goes over it and empties it; what its iterators made of the pairs.
fn build<M: Ordered>(input: &Input) -> u64 {
    let pairs = input.sorted.iter().map(|key| (*key, *key)).collect();
    bench_mark(2);
    let mut map = M::from_sorted(pairs);
    bench_mark(3);
    let mut sum = map.sum();
    bench_mark(4);
    for start in &input.starts {
        sum = sum.wrapping_add(map.sum_from(*start));
    }
    bench_mark(5);
    for key in &input.sorted {
        assert_eq!(map.pop_first(), Some(*key));
    }
    bench_mark(6);
    assert_eq!(map.pop_first(), None);
    sum
}

fn entries<M: Ordered>(input: &Input) {
    let mut map = M::new();
    bench_mark(7);
    for key in &input.keys {
        assert_eq!(map.or_insert(*key, *key), *key);
    }
    bench_mark(8);
    for key in &input.keys {
        assert_eq!(map.or_insert(*key, 0), *key);
    }
    bench_mark(9);
}

fn looks_and_inserts<M: Ordered>(input: &Input) {
    let mut map = M::new();
    bench_mark(10);
    for key in &input.keys {
        assert!(map.get(*key).is_none() && map.insert(*key, *key));
    }
    bench_mark(11);
    for key in &input.keys {
        assert!(map.get(*key) == Some(*key) && !map.insert(*key, *key));
    }
    bench_mark(12);
}

/// A round; what its iterators made of the pairs.
pub fn round<M: Ordered>(input: &Input) -> u64 {
    insert_sorted::<M>(input);
    let sum = build::<M>(input);
    entries::<M>(input);
    looks_and_inserts::<M>(input);
    sum
}
