/* Draws the rounds and calls of the stress, hands them to the program's threads, and takes in their answers.

   STRESS_SECONDS=N  how long, 60 where none is named
   STRESS_ROUNDS=N   how many rounds, else as many as there is time for
   STRESS_THREADS=N  how many threads, else drawn for each round
   STRESS_CALLS=N    the calls of a round, 10,000
   STRESS_SEED=N     the first round's seed, 1: with one round, that of which a line "WRONG in the round of seed .." tells
   STRESS_LIE=KIND   one answer in 100 of this kind is changed, and has to be told */
#include "stress.h"
#include <time.h>

Round now;
Thread thread[THREADS];
static u64 rounds, calls, drained, full_rounds;
static time_t began;

void *pushed(void **at, size_t *count, size_t *room, size_t size) {
    if (*count == *room) {
        *room = *room ? 2 * *room : 64;
        *at = realloc(*at, *room * size);
        if (!*at) abort();
    }
    return (char *)*at + size * (*count)++;
}

u64 drawn(u64 *state) {
    u64 z = *state += 0x9e3779b97f4a7c15;
    z = (z ^ z >> 30) * 0xbf58476d1ce4e5b9;
    z = (z ^ z >> 27) * 0x94d049bb133111eb;
    return z ^ z >> 31;
}

u64 below(u64 *state, u64 end) { return drawn(state) % end; }

bool comes(u64 *state, u64 in_a_thousand) { return below(state, 1000) < in_a_thousand; }

static u64 asked(const char *name, u64 usual) { return getenv(name) ? strtoull(getenv(name), 0, 10) : usual; }

int place_from(u64 key, bool behind) {
    int low = 0, high = now.keys;
    while (low < high) {
        int middle = (low + high) / 2;
        if (now.key[middle] < key || (behind && now.key[middle] == key)) low = middle + 1;
        else high = middle;
    }
    return low;
}

int place_of(u64 key) {
    int place = place_from(key, false);
    return place < now.keys && now.key[place] == key ? place : -1;
}

/* ---- Keys: a few clusters, each of bytes at one depth or at two; and one of keys that part at each depth, with the ends of all ---- */

enum { CLUSTERS = 6 };
static u64 cluster[CLUSTERS][MOST_KEYS / CLUSTERS];
static int cluster_size[CLUSTERS], clusters;

static u64 with_byte(u64 key, int depth, u64 byte) {
    int shift = 8 * (7 - depth);
    return (key & ~(255ull << shift)) | byte << shift;
}

static void put_key(int of, u64 key) {
    if (cluster_size[of] < MOST_KEYS / CLUSTERS) cluster[of][cluster_size[of]++] = key;
}

static void draw_cluster(u64 *state, int of, u64 base) {
    static const int sizes[] = {2, 3, 5, 6, 9, 17, 18, 20, 33, 34, 49, 50, 65, 80, 120, 256};
    u64 start = comes(state, 600) ? base : with_byte(base, below(state, 8), below(state, 256));
    int depth = comes(state, 400) ? 7 : below(state, 8), size = sizes[below(state, 16)];
    if (!comes(state, 300)) {
        for (int i = 0; i < size; i++) put_key(of, with_byte(start, depth, size == 256 ? (u64)i : below(state, 256)));
        return;
    }
    int above = below(state, 8), nodes = 2 + below(state, 5);
    for (int node = 0; node < nodes; node++) {
        u64 beginning = with_byte(start, above, below(state, 256));
        int at = depth == above ? (depth + 1) % 8 : depth;
        for (int i = 0; i < size && i < 50; i++) put_key(of, with_byte(beginning, at, below(state, 256)));
    }
}

static void draw_parting(u64 *state, int of, u64 base) {
    u64 start = comes(state, 500) ? base : drawn(state);
    put_key(of, start);
    for (int i = 0; i < 16; i++) put_key(of, with_byte(start, i / 2, below(state, 256)));
    static const u64 ends[] = {0, 1, UINT64_MAX - 1, UINT64_MAX};
    for (int i = 0; i < 4 && comes(state, 840); i++) put_key(of, ends[i]);
}

static int in_order(const void *one, const void *other) {
    u64 a = *(const u64 *)one, b = *(const u64 *)other;
    return (a > b) - (a < b);
}

static void draw_owners(u64 *state) {
    for (int i = 0; i < THREADS; i++) thread[i].own.count = thread[i].flips.count = 0;
    for (int place = 0; place < now.keys; place++) {
        now.owner[place] = SHARED;
        now.stands[place] = false;
        if (comes(state, 120)) {
            int of = below(state, now.threads);
            bool flips = comes(state, 200);
            now.owner[place] = flips ? of | FLIPS : of;
            if (flips) push(&thread[of].flips) = place;
            else push(&thread[of].own) = place;
        }
    }
}

static void draw_keys(u64 *state) {
    u64 base = comes(state, 200) ? 0 : comes(state, 200) ? UINT64_MAX : drawn(state);
    clusters = 1 + below(state, CLUSTERS - 2);
    memset(cluster_size, 0, sizeof cluster_size);
    for (int of = 0; of < clusters; of++) draw_cluster(state, of, base);
    draw_parting(state, clusters++, base);
    now.keys = 0;
    for (int of = 0; of < clusters; of++)
        for (int i = 0; i < cluster_size[of]; i++) now.key[now.keys++] = cluster[of][i];
    qsort(now.key, now.keys, sizeof *now.key, in_order);
    int kept = 0;
    for (int i = 0; i < now.keys; i++)
        if (!i || now.key[i] != now.key[i - 1]) now.key[kept++] = now.key[i];
    now.keys = kept;
    draw_owners(state);
}

void draw_round(void) {
    u64 state = (asked("STRESS_SEED", 1) + rounds) * 1000003;
    static const int counts[] = {2, 2, 3, 4, 4, 8, 8, 16};
    now.seed = asked("STRESS_SEED", 1) + rounds;
    now.threads = asked("STRESS_THREADS", counts[below(&state, 8)]);
    draw_keys(&state);
    now.profile = below(&state, 6);
    now.renews = comes(&state, 500);
    now.words = comes(&state, 200) ? 536 + below(&state, 2000) : 400000;
    now.drained.count = 0;
    now.calls = asked("STRESS_CALLS", 10000) / now.threads;
    for (int i = 0; i < now.threads; i++) {
        Thread *t = &thread[i];
        t->drawn = drawn(&state), t->left = now.calls, t->serial = 0, t->phase = 0, t->walks = false;
        t->cluster = below(&state, clusters), t->fills = comes(&state, 700);
        t->calls.count = t->pairs.count = t->args.count = 0;
        for (int place = 0; place < now.keys; place++) t->seen[place] = 5;
    }
}

/* ---- Calls ---- */

static u64 any_key(Thread *t) {
    if (comes(&t->drawn, 100)) return now.key[below(&t->drawn, now.keys)];
    return cluster[t->cluster][below(&t->drawn, cluster_size[t->cluster])];
}

static int shared_place(Thread *t) {
    for (int i = 0; i < 20; i++) {
        int place = place_of(any_key(t));
        if (now.owner[place] == SHARED) return place;
    }
    for (int place = 0; place < now.keys; place++)
        if (now.owner[place] == SHARED) return place;
    return -1;
}

/* A value that no other call brings. */
static u64 fresh(Thread *t) { return (u64)(t - thread + 1) << 56 | ++t->serial; }

static void draw_bounds(Thread *t, Call *call) {
    u64 *state = &t->drawn, low = now.key[below(state, now.keys)], high = now.key[below(state, now.keys)];
    if (low > high && comes(state, 900)) {
        u64 other = low;
        low = high, high = other;
    }
    if (comes(state, 150)) low = 0, high = UINT64_MAX;
    if (comes(state, 100) && high != UINT64_MAX) high++;
    if (comes(state, 100) && low) low--;
    call->a = low, call->b = high;
    call->places = comes(state, 600) ? PLACES : below(state, 20);
}

static void draw_scan(Thread *t, Call *call) {
    static const enum Kind kinds[] = {RANGE, RANGE_INCLUSIVE, RANGE_INCLUSIVE, KEYS, COUNT, LEN, AT_ONCE, AT_ONCE_INCLUSIVE,
                                      AT_ONCE_INCLUSIVE, TRY_AT_ONCE, GET_MANY, GET_MANY, WALK, STEP, STEP, STEP};
    call->kind = kinds[below(&t->drawn, 16)];
    if (call->kind == STEP && !t->walks) call->kind = WALK;
    if (call->kind == WALK) t->walks = true, t->walk_from = call->a, t->walk_last = call->b;
    if (call->kind == GET_MANY) {
        call->arg = t->args.count;
        for (int i = 0; i < LOOKED_UP; i++) push(&t->args) = any_key(t);
    }
}

static void draw_nearest(Thread *t, Call *call) { call->kind = FIRST + below(&t->drawn, IS_EMPTY - FIRST + 1); }

static void draw_own(Thread *t, Call *call) {
    u64 *state = &t->drawn;
    if (comes(state, 100)) {
        call->kind = INSERT_MANY, call->arg = t->args.count;
        for (int i = 0; i < PUT_IN; i++) {
            push(&t->args) = now.key[t->own.at[below(state, t->own.count)]];
            push(&t->args) = fresh(t);
        }
    } else if (comes(state, 150) && t->flips.count) {
        static const enum Kind kinds[] = {INSERT, INSERT, INSERT, REMOVE, OR_INSERT};
        static const u64 values[] = {0, UINT64_MAX, 1};
        call->kind = kinds[below(state, 5)];
        call->a = now.key[t->flips.at[below(state, t->flips.count)]], call->b = values[below(state, 3)];
    } else {
        static const enum Kind kinds[] = {INSERT, INSERT, INSERT, REMOVE, REMOVE, EXCHANGE, EXCHANGE_OUT,
                                          COMPUTE, COMPUTE_OUT, OR_INSERT, GET};
        int place = t->own.at[below(state, t->own.count)];
        call->kind = kinds[below(state, 11)], call->a = now.key[place], call->b = fresh(t);
        if (call->kind == EXCHANGE || call->kind == EXCHANGE_OUT) {
            call->b = now.stands[place] && comes(state, 800) ? now.value[place] : 5;
            call->c = fresh(t);
        }
    }
}

static void draw_shared(Thread *t, Call *call) {
    u64 *state = &t->drawn;
    int place = shared_place(t);
    if (place < 0) {
        call->kind = GET, call->a = any_key(t);
        return;
    }
    call->a = now.key[place];
    if (comes(state, t->fills ? 850 : 150)) {
        static const enum Kind kinds[] = {INSERT, INSERT, INSERT, INSERT, INSERT, INSERT, INSERT,
                                          TRY_INSERT, OR_INSERT, COMPUTE};
        call->kind = kinds[below(state, 10)], call->b = fresh(t);
        if (comes(state, 80)) call->kind = comes(state, 500) ? EXCHANGE : TRY_EXCHANGE, call->b = t->seen[place], call->c = fresh(t);
    } else {
        static const enum Kind kinds[] = {REMOVE, REMOVE, REMOVE, REMOVE, REMOVE, REMOVE, REMOVE,
                                          TRY_REMOVE, COMPUTE_OUT, EXCHANGE_OUT};
        call->kind = kinds[below(state, 10)];
        if (call->kind == EXCHANGE_OUT) call->b = t->seen[place];
    }
}

void draw_call(int of) {
    static const u64 scans[] = {20, 50, 100, 20, 300, 60}, nearest = 40, owned = 120;
    Thread *t = &thread[of];
    Call *call = &t->now;
    memset(call, 0, sizeof *call);
    if (!t->left) return;
    t->left--;
    if (t->phase-- <= 0) {
        t->phase = 20 + below(&t->drawn, 400);
        t->fills = now.profile == 0 ? comes(&t->drawn, 500) : !t->fills;
        if (comes(&t->drawn, 300)) t->cluster = below(&t->drawn, clusters);
    }
    u64 x = below(&t->drawn, 1000), scan = scans[now.profile], get = now.profile == 3 ? 500 : 150;
    call->pair = t->pairs.count;
    draw_bounds(t, call);
    if (x < scan) draw_scan(t, call);
    else if (x < scan + nearest) draw_nearest(t, call);
    else if (x < scan + nearest + get) call->kind = comes(&t->drawn, 850) ? GET : TRY_GET, call->a = any_key(t);
    else if (x < scan + nearest + get + owned && t->own.count) draw_own(t, call);
    else if (x >= 998) call->kind = now.renews && comes(&t->drawn, 750) ? RENEW : WORDS_USED;
    else draw_shared(t, call);
}

/* ---- What the program asks and tells ---- */

static u64 stamp(void) {
#if defined(__x86_64__)
    unsigned low, high, core;
    __asm__ volatile("mfence; lfence; rdtscp; lfence" : "=a"(low), "=d"(high), "=c"(core)::"memory");
    return (u64)high << 32 | low;
#else
    static _Atomic u64 clock;
    return ++clock;
#endif
}

u64 stress_open(void) {
    if (!began) began = time(0);
    u64 most_wrong = getenv("STRESS_LIE") ? 0 : 100;
    bool is_late = (u64)(time(0) - began) >= asked("STRESS_SECONDS", 60);
    if (!is_late && wrong <= most_wrong && rounds < asked("STRESS_ROUNDS", UINT64_MAX)) {
        draw_round();
        return 1;
    }
    printf("rounds %lu, with refusals %lu; calls %lu, refused %lu, ", rounds, full_rounds, calls, refused);
    printf("pairs scanned %lu, drained %lu\n", scanned, drained);
    for (int kind = 1; kind < KINDS; kind++) printf("%s%lu", kind == 1 ? "calls of each kind: " : " ", calls_of[kind]);
    printf("\nwrong %lu\n", wrong);
    fflush(stdout);
    return 0;
}

u64 stress_words(void) { return now.words; }

u64 stress_threads(void) { return now.threads; }

u64 stress_next(u64 of, u64 *words, size_t count) {
    Thread *t = &thread[of];
    Call *call = &t->now;
    draw_call(of);
    words[0] = call->a, words[1] = call->b, words[2] = call->c, words[3] = call->places;
    size_t more = call->kind == GET_MANY ? LOOKED_UP : call->kind == INSERT_MANY ? 2 * PUT_IN : 0;
    for (size_t i = 0; i < more && 4 + i < count; i++) words[4 + i] = t->args.at[call->arg + i];
    return call->kind;
}

void stress_begin(u64 of) { thread[of].now.begin = stamp(); }

void stress_end(u64 of) { thread[of].now.end = stamp(); }

void stress_pair(u64 of, u64 key, u64 value) { push(&thread[of].pairs) = (Pair){key, value}; }

/* Changes an answer: a pair is left out, more are counted, or nothing was found. */
static void lie(Thread *t, Call *call) {
    if (call->kind != asked("STRESS_LIE", KINDS) || !comes(&t->drawn, 10)) return;
    size_t pairs = t->pairs.count - call->pair, gone = call->pair + (pairs ? below(&t->drawn, pairs) : 0);
    if (call->kind == COUNT || call->kind == LEN) call->code += 40;
    else if (call->kind == IS_EMPTY) call->code = SOME - call->code;
    else if (call->kind == GET_MANY) t->pairs.at[gone] = (Pair){NONE, 0};
    else if (call->kind < RANGE || call->kind > LEN) call->code = NONE;
    else if (pairs) {
        memmove(t->pairs.at + gone, t->pairs.at + gone + 1, (--t->pairs.count - gone) * sizeof(Pair));
        call->code--;
    }
}

void stress_told(u64 of, u64 code, u64 key, u64 value) {
    Thread *t = &thread[of];
    Call *call = &t->now;
    call->code = code, call->key = key, call->value = value;
    lie(t, call);
    call->pairs = t->pairs.count - call->pair;
    take_in(of);
    push(&t->calls) = *call;
}

void stress_drained(u64 key, u64 value) { push(&now.drained) = (Pair){key, value}; }

/* The end of a round: whether the index could be closed and its pairs drained. */
void stress_closed(u64 is_drained) {
    u64 before = refused;
    if (!is_drained) tell_wrong("an index that isn't closed, or whose pairs aren't told", 0, 0);
    calls += judge_round();
    drained += now.drained.count, full_rounds += refused > before, rounds++;
}
