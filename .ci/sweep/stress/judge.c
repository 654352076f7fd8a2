/* Judges a round: the calls of each key by real time, scans and ranges by moments within them.

   A write brings a value that no other one brings, and tells the value that it took away. So the writes of a key are chains, each from
   an insertion where nothing stood to a removal. All calls of a chain lie within one stretch of presence: it has surely begun where
   the first of them has ended, and can't have ended before the last one begins. Of one key stretches don't overlap, and no call that
   found nothing lies within one. Keys that flip between three values have one writer, whose order is known. */
#include "stress.h"

typedef struct { u64 from, to; } Window;
typedef struct { u64 begin, end, old, value; bool writes, had, has; int next; } Event;
/* What became of a value: the key, the events that brought it and took it away, the last that read it; and when it can have stood. */
typedef struct { int key, made, gone, read; Window stood; } Slot;
/* A chain: surely present from sure.from to sure.to, if that is later; perhaps within maybe. */
typedef struct { Window sure, maybe; } Stretch;
typedef struct { LIST(Event) events; LIST(Stretch) stretches, sure; } History;

static History history[MOST_KEYS];
static Slot *slots[THREADS];
static size_t slot_counts[THREADS];
static LIST(Window) windows;
_Atomic u64 wrong;
u64 calls_of[KINDS], refused, scanned;

void tell_wrong(const char *what, u64 key, const Call *call) {
    static const Call none;
    if (wrong++ >= 20) return;
    if (!call) call = &none;
    printf("WRONG in the round of seed %lu, %d threads, %lu words: %s, key %lx, ", now.seed, now.threads, now.words, what, key);
    printf("kind %d of %lx %lx %lx, %lu places: ", call->kind, call->a, call->b, call->c, call->places);
    printf("%lu %lx %lx, %zu pairs [%lu %lu]\n", call->code, call->key, call->value, call->pairs, call->begin, call->end);
    fflush(stdout);
}

static bool flips(int place) { return now.owner[place] >= FLIPS; }

static u64 later(u64 a, u64 b) { return a > b ? a : b; }

static u64 sooner(u64 a, u64 b) { return a < b ? a : b; }

/* ---- As a call ends: what its own thread knows ---- */

static bool is_same(const Call *call, int place) {
    return now.stands[place] ? call->code == SOME && call->value == now.value[place] : call->code == NONE;
}

static void leaves(int place, bool stands, u64 value) { now.stands[place] = stands, now.value[place] = value; }

/* The answer of a call on a key that this thread alone writes. */
static void hold_to_owner(int place, const Call *call) {
    bool is_right = is_same(call, place), is_old = now.stands[place] && now.value[place] == call->b;
    switch (call->kind) {
    case TRY_GET: is_right |= call->code == AGAIN; break;
    case INSERT: case OR_INSERT:
        if (call->code == FULL) is_right = true;
        else leaves(place, true, call->b);
        break;
    case REMOVE: case COMPUTE_OUT: leaves(place, false, 0); break;
    case COMPUTE: if (now.stands[place]) leaves(place, true, call->b); break;
    case EXCHANGE:
        if (is_old) is_right = call->code == MADE_SOME && call->value == call->c, leaves(place, true, call->c);
        break;
    case EXCHANGE_OUT:
        if (is_old) is_right = call->code == MADE_NONE, leaves(place, false, 0);
        break;
    default: break;
    }
    if (!is_right) tell_wrong("its only writer knows another value", call->a, call);
}

static void take_in_many(Thread *t, const Call *call) {
    for (size_t i = 0; i < call->code && i < PUT_IN; i++) {
        u64 key = t->args.at[call->arg + 2 * i], value = t->args.at[call->arg + 2 * i + 1];
        int place = place_of(key);
        push(&t->args) = now.stands[place];
        push(&t->args) = now.value[place];
        leaves(place, true, value);
    }
}

void take_in(int of) {
    Thread *t = &thread[of];
    Call *call = &t->now;
    bool is_single = call->kind >= GET && call->kind <= OR_INSERT;
    int place = is_single ? place_of(call->a) : -1;
    if (call->kind == STEP) {
        call->a = t->walk_from, call->b = t->walk_last;
        t->walks = call->code == SOME && call->key != UINT64_MAX;
        t->walk_from = call->key + 1;
    }
    if (call->kind == INSERT_MANY) take_in_many(t, call);
    if (place < 0) return;
    if (now.owner[place] != SHARED && (now.owner[place] & ~FLIPS) == of) hold_to_owner(place, call);
    if (call->kind == GET && call->code == SOME) t->seen[place] = call->value;
    if ((call->kind == INSERT || call->kind == OR_INSERT) && call->code <= SOME) t->seen[place] = call->b;
}

/* ---- Events: what each call read and wrote at each key ---- */

static void add(int place, Event event) { push(&history[place].events) = event; }

static void read_at(u64 key, const Call *call, bool had, u64 value) {
    int place = place_of(key);
    if (place >= 0) add(place, (Event){call->begin, call->end, value, 0, false, had, false, -1});
    else if (had) tell_wrong("a value of a key that nobody puts in", key, call);
}

static void write_at(u64 key, const Call *call, bool had, u64 old, bool has, u64 value) {
    add(place_of(key), (Event){call->begin, call->end, old, value, true, had, has, -1});
}

static void add_single(const Call *call) {
    enum Kind kind = call->kind;
    bool tries = kind == TRY_GET || kind == TRY_INSERT || kind == TRY_REMOVE || kind == TRY_EXCHANGE;
    bool puts = kind == INSERT || kind == TRY_INSERT || kind == OR_INSERT, gets = kind == GET || kind == TRY_GET;
    bool exchanges = kind == EXCHANGE || kind == TRY_EXCHANGE || kind == EXCHANGE_OUT;
    if (call->code == FULL && puts) refused++;
    else if (call->code >= AGAIN) {
        if (call->code != AGAIN || !tries) tell_wrong("a refusal", call->a, call);
    } else if (exchanges && call->code >= MADE_NONE) {
        bool has = kind != EXCHANGE_OUT;
        if ((call->code == MADE_SOME) != has || (has && call->value != call->c)) tell_wrong("what an exchange left", call->a, call);
        write_at(call->a, call, true, call->b, has, call->c);
    } else if (gets || exchanges || (!puts && call->code == NONE)) {
        bool is_old = exchanges && call->code == SOME && call->value == call->b;
        if (is_old) tell_wrong("an exchange that wasn't made, though the value stood", call->a, call);
        read_at(call->a, call, call->code == SOME, call->value);
    } else {
        write_at(call->a, call, call->code == SOME, call->value, puts || kind == COMPUTE, call->b);
    }
}

/* Of which keys, by places, a call says that none of them stands, but those that it told. */
static void reach(const Call *call, const Pair *pairs, int *from, int *to) {
    bool ends_before = call->kind == RANGE || call->kind == AT_ONCE, some = call->code == SOME;
    *from = 0, *to = now.keys;
    switch (call->kind) {
    case LEN: case IS_EMPTY: break;
    case FIRST: if (some) *to = place_from(call->key, false); break;
    case LAST: if (some) *from = place_from(call->key, true); break;
    case AT_OR_AFTER: case NEXT_AFTER:
        *from = place_from(call->a, call->kind == NEXT_AFTER);
        if (some) *to = place_from(call->key, false);
        break;
    case AT_OR_BEFORE: case NEXT_BEFORE:
        *to = place_from(call->a, call->kind == AT_OR_BEFORE);
        if (some) *from = place_from(call->key, true);
        break;
    case FIRST_IN: case STEP: case LAST_IN:
        *from = place_from(call->a, false), *to = place_from(call->b, true);
        if (some && call->kind == LAST_IN) *from = place_from(call->key, true);
        else if (some) *to = place_from(call->key, false);
        break;
    default:
        *from = place_from(call->a, false), *to = place_from(call->b, !ends_before);
        if (call->kind != COUNT && call->pairs == call->places)
            *to = call->pairs ? place_from(pairs[call->pairs - 1].key, true) : *from;
    }
    if (*to < *from) *to = *from;
}

static void add_scan(const Call *call, const Pair *pairs) {
    if (call->code == NO_MEMORY) {
        if (call->kind != TRY_AT_ONCE) tell_wrong("want of memory", 0, call);
        return;
    }
    if (call->code != call->pairs || call->pairs > call->places) tell_wrong("how many pairs a scan told", 0, call);
    scanned += call->pairs;
    for (size_t i = 0; i < call->pairs; i++) {
        u64 key = pairs[i].key;
        bool is_behind = call->kind == RANGE || call->kind == AT_ONCE ? key >= call->b : key > call->b;
        if (key < call->a || is_behind) tell_wrong("a pair out of the range", key, call);
        if (i && pairs[i - 1].key >= key) tell_wrong("pairs that don't ascend", key, call);
        if (place_of(key) < 0) tell_wrong("a pair that nobody puts in", key, call);
    }
    int from, to;
    size_t pair = 0;
    reach(call, pairs, &from, &to);
    for (int place = from; place < to; place++) {
        while (pair < call->pairs && pairs[pair].key < now.key[place]) pair++;
        bool had = pair < call->pairs && pairs[pair].key == now.key[place];
        if (!had || call->kind != KEYS) read_at(now.key[place], call, had, had ? pairs[pair].value : 0);
    }
}

static void add_nearest(const Call *call) {
    bool some = call->kind != IS_EMPTY && call->code == SOME;
    int from, to;
    if (call->kind == IS_EMPTY && call->code == NONE) return;
    if (some) {
        bool after = call->kind == AT_OR_AFTER || call->kind == FIRST_IN || call->kind == LAST_IN || call->kind == STEP;
        bool is_out = (after && call->key < call->a) || (call->kind == NEXT_AFTER && call->key <= call->a);
        is_out |= (call->kind == AT_OR_BEFORE && call->key > call->a) || (call->kind == NEXT_BEFORE && call->key >= call->a);
        is_out |= (call->kind == FIRST_IN || call->kind == LAST_IN || call->kind == STEP) && call->key > call->b;
        if (is_out) tell_wrong("a pair out of its bounds", call->key, call);
        read_at(call->key, call, true, call->value);
    }
    reach(call, 0, &from, &to);
    for (int place = from; place < to; place++) read_at(now.key[place], call, false, 0);
}

static void add_many(const Thread *t, const Call *call) {
    const u64 *args = t->args.at + call->arg;
    if (call->kind == GET_MANY) {
        if (call->code != LOOKED_UP || call->pairs != LOOKED_UP) tell_wrong("how many keys were looked up", 0, call);
        for (size_t i = 0; i < call->pairs; i++) {
            Pair pair = t->pairs.at[call->pair + i];
            read_at(args[i], call, pair.key, pair.value);
        }
        return;
    }
    if (call->code < PUT_IN && call->key != FULL) tell_wrong("a refusal", 0, call);
    refused += call->code < PUT_IN;
    for (size_t i = 0; i < call->code && i < PUT_IN; i++)
        write_at(args[2 * i], call, args[2 * PUT_IN + 2 * i], args[2 * PUT_IN + 2 * i + 1], true, args[2 * i + 1]);
}

static void add_call(const Thread *t, const Call *call) {
    calls_of[call->kind]++;
    if (call->kind <= OR_INSERT) add_single(call);
    else if (call->kind <= TRY_AT_ONCE) add_scan(call, t->pairs.at + call->pair);
    else if (call->kind == STEP || (call->kind >= FIRST && call->kind <= IS_EMPTY)) add_nearest(call);
    else if (call->kind == GET_MANY || call->kind == INSERT_MANY) add_many(t, call);
    else if (call->kind == WORDS_USED && call->code > now.words) tell_wrong("more words in use than there are", 0, call);
}

/* The pairs of the closed index: a scan behind all calls. */
static void add_drained(u64 after) {
    size_t count = now.drained.count;
    Call call = {AT_ONCE_INCLUSIVE, 0, UINT64_MAX, 0, SIZE_MAX, after, UINT64_MAX - 1, count, 0, 0, 0, count, 0};
    add_scan(&call, now.drained.at);
    size_t pair = 0;
    for (int place = 0; place < now.keys; place++) {
        while (pair < count && now.drained.at[pair].key < now.key[place]) pair++;
        bool stands = pair < count && now.drained.at[pair].key == now.key[place];
        bool is_other = stands != now.stands[place] || (stands && now.drained.at[pair].value != now.value[place]);
        if (now.owner[place] != SHARED && is_other) tell_wrong("the end of a key that one thread writes", now.key[place], 0);
    }
}

/* ---- A key's history ---- */

static int by_begin(const void *one, const void *other) {
    const Event *a = one, *b = other;
    return (a->begin > b->begin) - (a->begin < b->begin);
}

/* A key that one thread flips: each read finds what one of the writes left that may have been the last one then. */
static void judge_flips(int place) {
    static LIST(Event) writes;
    History *of = &history[place];
    writes.count = 0;
    for (size_t i = 0; i < of->events.count; i++)
        if (of->events.at[i].writes) push(&writes) = of->events.at[i];
    qsort(writes.at, writes.count, sizeof(Event), by_begin);
    for (size_t i = 0; i < of->events.count; i++) {
        Event *event = &of->events.at[i];
        size_t low = 0, high = writes.count;
        if (event->writes) continue;
        while (low < high) {
            size_t middle = (low + high) / 2;
            if (writes.at[middle].end < event->begin) low = middle + 1;
            else high = middle;
        }
        bool is_found = false;
        for (size_t at = low; at <= writes.count && !is_found; at++) {
            if (at && writes.at[at - 1].begin > event->end) break;
            bool has = at && writes.at[at - 1].has;
            is_found = has == event->had && (!has || writes.at[at - 1].value == event->old);
        }
        if (!is_found) tell_wrong("a read of a key with one writer", now.key[place], 0);
    }
}

static Slot *slot_of(int place, u64 value) {
    u64 of = (value >> 56) - 1, serial = value << 8 >> 8;
    if (of >= (u64)now.threads || serial >= slot_counts[of] || slots[of][serial].key != place) return 0;
    return &slots[of][serial];
}

static void note_events(int place) {
    History *of = &history[place];
    for (size_t i = 0; i < of->events.count; i++) {
        Event *event = &of->events.at[i];
        if (!event->writes || !event->has) continue;
        u64 thread_of = (event->value >> 56) - 1, serial = event->value << 8 >> 8;
        slots[thread_of][serial] = (Slot){place, i, -1, -1, {0, 0}};
    }
    for (size_t i = 0; i < of->events.count; i++) {
        Event *event = &of->events.at[i];
        Slot *slot = event->had ? slot_of(place, event->old) : 0;
        if (event->had && !slot) tell_wrong("a value that nobody put there", now.key[place], 0);
        if (!slot) continue;
        if (!event->writes) event->next = slot->read, slot->read = i;
        else if (slot->gone >= 0) tell_wrong("two writes took one value away", now.key[place], 0);
        else slot->gone = i;
    }
}

/* Goes along a chain from its first write, and tells how many writes it has. */
static size_t follow(int place, int first) {
    History *of = &history[place];
    Stretch stretch = {{UINT64_MAX, 0}, {of->events.at[first].begin, UINT64_MAX}};
    u64 moment = 0;
    size_t count = 0;
    for (int at = first; at >= 0;) {
        Event *event = &of->events.at[at];
        count++;
        if (event->end < moment) tell_wrong("a write before what it goes on from", now.key[place], 0);
        moment = later(moment, event->begin);
        stretch.sure = (Window){sooner(stretch.sure.from, event->end), later(stretch.sure.to, event->begin)};
        if (!event->has) {
            stretch.maybe.to = event->end;
            break;
        }
        Slot *slot = slot_of(place, event->value);
        u64 last = moment;
        for (int read = slot->read; read >= 0; read = of->events.at[read].next) {
            Event *look = &of->events.at[read];
            if (look->end < moment) tell_wrong("a read of a value before it was put in", now.key[place], 0);
            last = later(last, look->begin);
            stretch.sure = (Window){sooner(stretch.sure.from, look->end), later(stretch.sure.to, look->begin)};
        }
        moment = last, at = slot->gone;
        slot->stood = (Window){event->begin, at < 0 ? UINT64_MAX : of->events.at[at].end};
        if (at < 0) stretch.sure.to = UINT64_MAX;
    }
    push(&of->stretches) = stretch;
    return count;
}

static int by_from(const void *one, const void *other) {
    const Stretch *a = one, *b = other;
    return (a->sure.from > b->sure.from) - (a->sure.from < b->sure.from);
}

/* Whether the key surely stood from one moment to another. */
static bool surely(int place, u64 from, u64 to) {
    History *of = &history[place];
    size_t low = 0, high = of->sure.count;
    while (low < high) {
        size_t middle = (low + high) / 2;
        if (of->sure.at[middle].sure.from < from) low = middle + 1;
        else high = middle;
    }
    return !flips(place) && low && of->sure.at[low - 1].sure.to > to;
}

static bool perhaps(int place, u64 from, u64 to) {
    History *of = &history[place];
    for (size_t i = 0; i < of->stretches.count; i++)
        if (of->stretches.at[i].maybe.from <= to && of->stretches.at[i].maybe.to >= from) return true;
    return flips(place);
}

static void judge_key(int place) {
    History *of = &history[place];
    size_t followed = 0, writes = 0;
    note_events(place);
    for (size_t i = 0; i < of->events.count; i++) {
        Event *event = &of->events.at[i];
        writes += event->writes;
        if (event->writes && !event->had) followed += follow(place, i);
    }
    if (followed != writes) tell_wrong("writes that go on from no insertion", now.key[place], 0);
    for (size_t i = 0; i < of->stretches.count; i++)
        if (of->stretches.at[i].sure.from < of->stretches.at[i].sure.to) push(&of->sure) = of->stretches.at[i];
    qsort(of->sure.at, of->sure.count, sizeof(Stretch), by_from);
    for (size_t i = 0; i + 1 < of->sure.count; i++)
        if (of->sure.at[i].sure.to > of->sure.at[i + 1].sure.from)
            tell_wrong("two stretches of presence overlap", now.key[place], 0);
    for (size_t i = 0; i < of->stretches.count; i++) {
        Window sure = of->stretches.at[i].sure;
        if (sure.from >= sure.to && surely(place, sure.to, sure.from))
            tell_wrong("a stretch of presence within another", now.key[place], 0);
    }
    for (size_t i = 0; i < of->events.count; i++) {
        Event *event = &of->events.at[i];
        if (!event->writes && !event->had && surely(place, event->begin, event->end))
            tell_wrong("nothing found where it stood throughout", now.key[place], 0);
    }
}

/* ---- Moments ---- */

static int by_window(const void *one, const void *other) {
    const Window *a = one, *b = other;
    return (a->from > b->from) - (a->from < b->from);
}

/* The moments of a pair; all where nothing is known of it. */
static Window moments_of(Pair pair) {
    int place = place_of(pair.key);
    Slot *slot = place < 0 || flips(place) ? 0 : slot_of(place, pair.value);
    return slot ? slot->stood : (Window){0, UINT64_MAX};
}

/* The first of a key's stretches that reaches up to a moment or beyond. */
static size_t first_to(int place, u64 moment) {
    History *of = &history[place];
    size_t low = 0, high = of->sure.count;
    while (low < high) {
        size_t middle = (low + high) / 2;
        if (of->sure.at[middle].sure.to < moment) low = middle + 1;
        else high = middle;
    }
    return low;
}

/* There is a moment within the call at which all these pairs stood, and no other key that it reached. */
static void judge_moment(const Call *call, const Pair *pairs, size_t count, int from, int to) {
    Window moment = {call->begin, call->end};
    for (size_t i = 0; i < count; i++) {
        Window one = moments_of(pairs[i]);
        moment = (Window){later(moment.from, one.from), sooner(moment.to, one.to)};
    }
    if (moment.from > moment.to) {
        tell_wrong("pairs that didn't stand at one moment", count ? pairs[0].key : 0, call);
        return;
    }
    size_t pair = 0;
    windows.count = 0;
    for (int place = from; place < to; place++) {
        while (pair < count && pairs[pair].key < now.key[place]) pair++;
        if (flips(place) || (pair < count && pairs[pair].key == now.key[place])) continue;
        History *of = &history[place];
        for (size_t i = first_to(place, moment.from); i < of->sure.count && of->sure.at[i].sure.from <= moment.to; i++)
            push(&windows) = of->sure.at[i].sure;
    }
    qsort(windows.at, windows.count, sizeof(Window), by_window);
    for (size_t i = 0; i < windows.count; i++)
        if (windows.at[i].from < moment.from) moment.from = later(moment.from, windows.at[i].to);
    if (moment.from > moment.to) tell_wrong("no moment at which no other key stood", count ? pairs[0].key : 0, call);
}

/* A key's answer has a moment that isn't before this one, to which this one is put forth. */
static void rise(const Call *call, u64 *moment, u64 key, bool had, u64 value) {
    int place = place_of(key);
    if (place < 0 || flips(place)) return;
    Window one = had ? moments_of((Pair){key, value}) : (Window){0, UINT64_MAX};
    *moment = later(*moment, one.from);
    History *of = &history[place];
    size_t at = had ? of->sure.count : first_to(place, *moment);
    if (at < of->sure.count && of->sure.at[at].sure.from < *moment) *moment = later(*moment, of->sure.at[at].sure.to);
    if (*moment > one.to || *moment > call->end) {
        tell_wrong("moments that don't rise", key, call);
        *moment = call->begin;
    }
}

static void judge_count(const Call *call, int from, int to) {
    u64 least = 0, most = 0;
    for (int place = from; place < to; place++) {
        least += surely(place, call->begin, call->end);
        most += perhaps(place, call->begin, call->end);
    }
    if (call->code < least || call->code > most) tell_wrong("how many pairs stand", call->code, call);
}

static void judge_keys(const Call *call, const Pair *pairs, int from, int to) {
    size_t pair = 0;
    for (int place = from; place < to; place++) {
        while (pair < call->pairs && pairs[pair].key < now.key[place]) pair++;
        bool told = pair < call->pairs && pairs[pair].key == now.key[place];
        if (told && !perhaps(place, call->begin, call->end)) tell_wrong("a key that never stood", now.key[place], call);
        if (!told && surely(place, call->begin, call->end)) tell_wrong("a key left out that stood", now.key[place], call);
    }
}

static void judge_is_not_empty(const Call *call) {
    for (int place = 0; place < now.keys; place++)
        if (perhaps(place, call->begin, call->end)) return;
    tell_wrong("it isn't empty where nothing stood", 0, call);
}

static void judge_moments(const Thread *t, const Call *call) {
    const Pair *pairs = t->pairs.at + call->pair;
    Pair nearest = {call->key, call->value};
    u64 moment = call->begin;
    int from, to;
    if (call->code == NO_MEMORY) return;
    reach(call, pairs, &from, &to);
    switch (call->kind) {
    case RANGE: case RANGE_INCLUSIVE:
        for (size_t i = 0; i < call->pairs; i++) rise(call, &moment, pairs[i].key, true, pairs[i].value);
        break;
    case GET_MANY:
        for (size_t i = 0; i < call->pairs; i++)
            rise(call, &moment, t->args.at[call->arg + i], pairs[i].key, pairs[i].value);
        break;
    case KEYS: judge_keys(call, pairs, from, to); break;
    case COUNT: case LEN: judge_count(call, from, to); break;
    case AT_ONCE: case AT_ONCE_INCLUSIVE: case TRY_AT_ONCE: judge_moment(call, pairs, call->pairs, from, to); break;
    case FIRST: case LAST: case AT_OR_AFTER: case NEXT_AFTER: case AT_OR_BEFORE: case NEXT_BEFORE:
    case FIRST_IN: case LAST_IN: case STEP:
        judge_moment(call, &nearest, call->code == SOME, from, to);
        break;
    case IS_EMPTY:
        if (call->code == SOME) judge_moment(call, 0, 0, 0, now.keys);
        else judge_is_not_empty(call);
        break;
    default: break;
    }
}

/* ---- The round ---- */

static void clear(void) {
    for (int place = 0; place < now.keys; place++) {
        History *of = &history[place];
        of->events.count = of->stretches.count = of->sure.count = 0;
    }
    for (int of = 0; of < now.threads; of++) {
        slot_counts[of] = thread[of].serial + 1;
        slots[of] = realloc(slots[of], slot_counts[of] * sizeof(Slot));
        if (!slots[of]) abort();
        for (size_t i = 0; i < slot_counts[of]; i++) slots[of][i].key = -1;
    }
}

u64 judge_round(void) {
    u64 last = 0, count = 0;
    clear();
    for (int of = 0; of < now.threads; of++)
        for (size_t i = 0; i < thread[of].calls.count; i++) {
            add_call(&thread[of], &thread[of].calls.at[i]);
            last = later(last, thread[of].calls.at[i].end), count++;
        }
    add_drained(last + 1);
    for (int place = 0; place < now.keys; place++) {
        if (flips(place)) judge_flips(place);
        else judge_key(place);
    }
    for (int of = 0; of < now.threads; of++)
        for (size_t i = 0; i < thread[of].calls.count; i++) judge_moments(&thread[of], &thread[of].calls.at[i]);
    return count;
}
