/*
 * How much stack the library's calls use: each is made in a thread of its own whose stack was painted, on each segment that is named, and
 * the deepest byte that is no longer as painted tells. What a thread with an empty call changes is taken off.
 */
#include <pthread.h>
#include <stdio.h>
#include <stdlib.h>
#include <string.h>
#include <sys/mman.h>

#include "mazurlot.h"

#define STACK_BYTES (1u << 20)
#define PAINT 0xA5
#define GOAL 65536u
#define TABLE_NUMBERS (MAZURLOT_MOST_LEAVES * MAZURLOT_RECORD_NUMBERS)

static uint8_t *stack;
static uint8_t *segment;
static size_t segment_bytes;
static uint64_t state[MAZURLOT_STATE_NUMBERS], table[TABLE_NUMBERS], answer[MAZURLOT_RESOLVE_NUMBERS];
static uint8_t work[MAZURLOT_WORK_BYTES];
static size_t piece_bytes;

static void *empty(void *unused) { return unused; }

static void *start(void *unused) {
    mazurlot_start(MAZURLOT_BRAND_MSDH, state, MAZURLOT_STATE_NUMBERS);
    return unused;
}

static void *feed(void *unused) {
    for (size_t at = 0; at < segment_bytes; at += piece_bytes) {
        size_t rest = segment_bytes - at;
        mazurlot_feed(segment + at, rest < piece_bytes ? rest : piece_bytes, state, MAZURLOT_STATE_NUMBERS, work, sizeof work, table,
                      TABLE_NUMBERS, answer, MAZURLOT_ANSWER_NUMBERS);
    }
    return unused;
}

static void *finish(void *unused) {
    mazurlot_finish(state, MAZURLOT_STATE_NUMBERS, answer, MAZURLOT_ANSWER_NUMBERS);
    return unused;
}

static void *whole(void *unused) {
    mazurlot_whole(MAZURLOT_BRAND_MSDH, segment, segment_bytes, state, MAZURLOT_STATE_NUMBERS, work, sizeof work, table, TABLE_NUMBERS,
                   answer, MAZURLOT_ANSWER_NUMBERS);
    return unused;
}

/* The times looked up, in seconds: one before the lists here, one in most of them, one past all. */
static const double times[] = {0.0, 7.0, 1e9};

#define TIMES (sizeof times / sizeof times[0])

static void *lookup_ticks(void *unused) {
    for (size_t i = 0; i < TIMES; i++)
        mazurlot_lookup_ticks((uint64_t)times[i] * 1000, state, MAZURLOT_STATE_NUMBERS, table, TABLE_NUMBERS, answer,
                              MAZURLOT_LOOKUP_NUMBERS);
    return unused;
}

static void *lookup_seconds(void *unused) {
    for (size_t i = 0; i < TIMES; i++)
        mazurlot_lookup_seconds(times[i], state, MAZURLOT_STATE_NUMBERS, table, TABLE_NUMBERS, answer, MAZURLOT_LOOKUP_NUMBERS);
    return unused;
}

static void *resolve(void *unused) {
    for (size_t i = 0; i < TIMES; i++)
        mazurlot_resolve(1, times[i], state, MAZURLOT_STATE_NUMBERS, table, TABLE_NUMBERS, answer, MAZURLOT_RESOLVE_NUMBERS);
    return unused;
}

static void fail(const char *what) {
    fprintf(stderr, "stack: %s\n", what);
    exit(1);
}

/* How many bytes of a painted stack a call in a thread of its own has changed, from the deepest one on. */
static size_t used(void *(*call)(void *)) {
    pthread_attr_t attributes;
    pthread_t thread;
    memset(stack, PAINT, STACK_BYTES);
    if (pthread_attr_init(&attributes) != 0 || pthread_attr_setstack(&attributes, stack, STACK_BYTES) != 0) fail("no stack for a thread");
    if (pthread_create(&thread, &attributes, call, NULL) != 0 || pthread_join(thread, NULL) != 0) fail("no thread");
    pthread_attr_destroy(&attributes);
    size_t untouched = 0;
    while (untouched < STACK_BYTES && stack[untouched] == PAINT) untouched++;
    return STACK_BYTES - untouched;
}

struct measure {
    const char *name;
    void *(*call)(void *);
    size_t most;
};

static struct measure measures[] = {
    {"start", start, 0},
    {"feed", feed, 0},
    {"finish", finish, 0},
    {"whole", whole, 0},
    {"lookup_ticks", lookup_ticks, 0},
    {"lookup_seconds", lookup_seconds, 0},
    {"resolve", resolve, 0},
};

#define MEASURES (sizeof measures / sizeof measures[0])

/* Reads a file into `segment`. */
static void load(const char *name) {
    FILE *file = fopen(name, "rb");
    if (file == NULL || fseek(file, 0, SEEK_END) != 0) fail(name);
    segment_bytes = (size_t)ftell(file);
    rewind(file);
    segment = malloc(segment_bytes + 1);
    if (segment == NULL || fread(segment, 1, segment_bytes, file) != segment_bytes) fail(name);
    fclose(file);
}

/* All calls on one segment, in an order in which each finds what it needs. */
static void measure_all(size_t empty_call) {
    for (size_t i = 0; i < MEASURES; i++) {
        size_t bytes = used(measures[i].call);
        bytes = bytes > empty_call ? bytes - empty_call : 0;
        if (bytes > measures[i].most) measures[i].most = bytes;
    }
}

int main(int count, char **names) {
    stack = mmap(NULL, STACK_BYTES, PROT_READ | PROT_WRITE, MAP_PRIVATE | MAP_ANONYMOUS, -1, 0);
    if (stack == MAP_FAILED) fail("no memory");
    size_t empty_call = used(empty);
    for (int i = 1; i < count; i++) {
        load(names[i]);
        piece_bytes = segment_bytes;
        measure_all(empty_call);
        piece_bytes = 1460;
        measure_all(empty_call);
        free(segment);
    }
    printf("Stack, the most bytes that a call used on any of these segments, beyond what is lent (goal: at most %u):\n\n", GOAL);
    for (size_t i = 0; i < MEASURES; i++)
        printf("%-15s %8zu %s\n", measures[i].name, measures[i].most, measures[i].most > GOAL ? "MISSED" : "");
    return 0;
}
