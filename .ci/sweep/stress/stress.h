/* What the calls of a round are and what was answered, for the file that draws them (draw.c) and the one that judges them (judge.c). */
#ifndef STRESS_H
#define STRESS_H

#include <stdbool.h>
#include <stddef.h>
#include <stdint.h>
#include <stdio.h>
#include <stdlib.h>
#include <string.h>

typedef uint64_t u64;

enum { THREADS = 16, MOST_KEYS = 2048, PLACES = 700, LOOKED_UP = 64, PUT_IN = 16 };

/* The kinds of calls, as main.rt has them. */
enum Kind {
    END, GET, TRY_GET, INSERT, TRY_INSERT, REMOVE, TRY_REMOVE, EXCHANGE, TRY_EXCHANGE, EXCHANGE_OUT, COMPUTE, COMPUTE_OUT, OR_INSERT,
    RANGE, RANGE_INCLUSIVE, KEYS, AT_ONCE, AT_ONCE_INCLUSIVE, TRY_AT_ONCE, COUNT, LEN,
    FIRST, LAST, AT_OR_AFTER, NEXT_AFTER, AT_OR_BEFORE, NEXT_BEFORE, FIRST_IN, LAST_IN, IS_EMPTY, WALK, STEP,
    GET_MANY, INSERT_MANY, WORDS_USED, RENEW, KINDS
};

/* What a call told beside pairs: none, some value, an exchange that was made and left none or some; or how it was refused. */
enum Code { NONE, SOME, MADE_NONE, MADE_SOME, AGAIN = 10, FULL = 11, EXHAUSTED = 12, NO_MEMORY = 9999 };

/* A list that grows: LIST(type) its members, push() a place at its end. */
#define LIST(type) struct { type *at; size_t count, room; }
#define push(list) (*(typeof((list)->at))pushed((void **)&(list)->at, &(list)->count, &(list)->room, sizeof *(list)->at))
void *pushed(void **at, size_t *count, size_t *room, size_t size);

typedef struct { u64 key, value; } Pair;

/* A call: its arguments, when it began and ended, and what it told. Its pairs, and its keys if it has several, stand in its thread's
   lists. */
typedef struct {
    enum Kind kind;
    u64 a, b, c, places, begin, end, code, key, value;
    size_t pair, pairs, arg;
} Call;

typedef struct {
    u64 drawn, left, serial, walk_from, walk_last;
    int cluster, phase;
    bool fills, walks;
    Call now;
    LIST(Call) calls;
    LIST(Pair) pairs;
    LIST(u64) args;
    /* Places of keys that this thread alone writes: with values of their own, or with three in turn. */
    LIST(int) own, flips;
    /* A value that this thread saw at the key. */
    u64 seen[MOST_KEYS];
} Thread;

/* Who writes a key. */
enum { SHARED = -1, FLIPS = 256 };

/* A round: its keys in order, who writes each, and what an owner's key has. */
typedef struct {
    u64 seed, words, calls;
    int threads, keys, profile;
    bool renews;
    u64 key[MOST_KEYS];
    int owner[MOST_KEYS];
    bool stands[MOST_KEYS];
    u64 value[MOST_KEYS];
    LIST(Pair) drained;
} Round;

extern Round now;
extern Thread thread[THREADS];

/* The next drawn number; one below another; and whether something comes so often in a thousand times. */
u64 drawn(u64 *state);
u64 below(u64 *state, u64 end);
bool comes(u64 *state, u64 in_a_thousand);

/* The place of a key, or of the first one from there on (with its end: behind it); -1 where it is none of the round's. */
int place_of(u64 key);
int place_from(u64 key, bool behind);

/* Draws a round, and a thread's next call. */
void draw_round(void);
void draw_call(int of);

/* Takes in what a call answered, and judges a round. How many answers no map gives. */
void take_in(int of);
u64 judge_round(void);
extern u64 calls_of[KINDS], refused, scanned;
extern _Atomic u64 wrong;
void tell_wrong(const char *what, u64 key, const Call *call);

#endif
