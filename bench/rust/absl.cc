// C++'s map for callers in Rust.
#include <absl/container/btree_map.h>
#include <cstddef>
#include <cstdint>
#include <utility>

using Map = absl::btree_map<uint64_t, uint64_t>;

struct Pair {
    uint64_t key, value;
};

extern "C" {
Map *absl_new() { return new Map(); }

void absl_drop(Map *map) { delete map; }

bool absl_insert(Map *map, uint64_t key, uint64_t value) {
    auto made = map->try_emplace(key, value);
    if (!made.second) made.first->second = value;
    return made.second;
}

bool absl_get(const Map *map, uint64_t key, uint64_t *value) {
    auto found = map->find(key);
    if (found == map->end()) return false;
    *value = found->second;
    return true;
}

bool absl_remove(Map *map, uint64_t key) { return map->erase(key) == 1; }

size_t absl_range(const Map *map, uint64_t start, uint64_t end, Pair *pairs, size_t n) {
    size_t count = 0;
    for (auto at = map->lower_bound(start); count < n && at != map->end() && at->first < end; ++at, ++count)
        pairs[count] = Pair{at->first, at->second};
    return count;
}

Map *absl_from_sorted(const std::pair<uint64_t, uint64_t> *pairs, size_t n) { return new Map(pairs, pairs + n); }

uint64_t absl_sum(const Map *map) {
    uint64_t sum = 0;
    for (const auto &pair : *map) sum = (sum ^ pair.first) + pair.second;
    return sum;
}

uint64_t absl_sum_from(const Map *map, uint64_t start, size_t n) {
    uint64_t sum = 0;
    for (auto at = map->lower_bound(start); n > 0 && at != map->end(); ++at, --n) sum = (sum ^ at->first) + at->second;
    return sum;
}

bool absl_pop_first(Map *map, uint64_t *key) {
    auto at = map->begin();
    if (at == map->end()) return false;
    *key = at->first;
    map->erase(at);
    return true;
}

uint64_t absl_or_insert(Map *map, uint64_t key, uint64_t value) { return map->try_emplace(key, value).first->second; }
}
