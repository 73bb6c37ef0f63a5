/*
 * Holds include/mazurlot.h to the compiled library: declarations SEGMENT, where SEGMENT is segment S, crates/list/stdin.
 *
 * No compiler compares the header's declarations with the functions in the archive. So each function is called here with lengths and
 * contents that are all different, and what it answers and writes is compared to the byte: with two parameters exchanged, one missing or
 * one of another size it would answer something else, or write into another buffer. The named numbers are held to what the calls do.
 *
 * Prints how many checks were made, or the first that does not hold.
 */
#define _DEFAULT_SOURCE
#include <float.h>
#include <math.h>
#include <stdio.h>
#include <stdlib.h>
#include <string.h>
#include <sys/mman.h>

#include "mazurlot.h"

#define STATE MAZURLOT_STATE_NUMBERS
#define WORK MAZURLOT_WORK_BYTES
#define LIMIT 268435456u
#define S_BYTES 196u

/* All that is lent, each buffer between guards and longer than what is said of it. There is no room for padding. */
struct lent {
    uint64_t guard_0[4];
    uint64_t state[STATE + 1];
    uint64_t guard_1[4];
    uint64_t table[20];
    uint64_t guard_2[4];
    uint64_t answer[12];
    uint64_t guard_3[4];
    uint8_t segment[512];
    uint64_t guard_4[4];
    uint8_t work[WORK + 64];
    uint64_t guard_5[4];
};

struct lengths {
    size_t state, work, table, answer;
};

static const struct lengths fitting = {STATE, WORK, 12, 1};

/* What is lent, and what it should be after a call. */
static struct lent lent, expected;
static uint8_t s[S_BYTES + 1];
static const char *about = "";
static unsigned checks;

static void check(int holds, int line, const char *what)
{
    ++checks;
    if (holds)
        return;
    printf("tests/declarations.c:%d: %s%sdoes not hold: %s\n", line, about, *about ? ": " : "", what);
    exit(1);
}

#define CHECK(...) check(__VA_ARGS__, __LINE__, #__VA_ARGS__)

/* Of all that is lent, guards too, only what was put into `expected` since the call has changed. */
#define WRITTEN(what) check(memcmp(&lent, &expected, sizeof lent) == 0, __LINE__, what)
#define NOTHING_WRITTEN() WRITTEN("nothing is written")

/* Fills all with numbers that differ from each other, and puts a segment in. */
static void lend(const uint8_t *segment, size_t bytes)
{
    uint64_t number = 1;
    for (size_t at = 0; at < sizeof lent; at += sizeof number) {
        number = number * 6364136223846793005u + 1442695040888963407u;
        memcpy((uint8_t *)&lent + at, &number, sizeof number);
    }
    memcpy(lent.segment, segment, bytes);
}

/* The calls, with the buffers above. Each notes first what was there. */

static uint64_t start(uint32_t brand, size_t state)
{
    expected = lent;
    return mazurlot_start(brand, lent.state, state);
}

static uint64_t feed(size_t from, size_t bytes, struct lengths n)
{
    expected = lent;
    return mazurlot_feed(lent.segment + from, bytes, lent.state, n.state, lent.work, n.work, lent.table, n.table, lent.answer, n.answer);
}

static uint64_t finish(struct lengths n)
{
    expected = lent;
    return mazurlot_finish(lent.state, n.state, lent.answer, n.answer);
}

static uint64_t whole(uint32_t brand, size_t bytes, struct lengths n)
{
    expected = lent;
    return mazurlot_whole(brand, lent.segment, bytes, lent.state, n.state, lent.work, n.work, lent.table, n.table, lent.answer, n.answer);
}

static uint64_t ticks(uint64_t time, struct lengths n)
{
    expected = lent;
    return mazurlot_lookup_ticks(time, lent.state, n.state, lent.table, n.table, lent.answer, n.answer);
}

static uint64_t seconds(double time, struct lengths n)
{
    expected = lent;
    return mazurlot_lookup_seconds(time, lent.state, n.state, lent.table, n.table, lent.answer, n.answer);
}

static uint64_t resolve(uint32_t page, double time, struct lengths n)
{
    expected = lent;
    return mazurlot_resolve(page, time, lent.state, n.state, lent.table, n.table, lent.answer, n.answer);
}

/* What may have been written. */

/* The state is opaque: its 57 numbers may be any, and what lies behind them not. */
static void any_state(void)
{
    memcpy(expected.state, lent.state, STATE * sizeof *lent.state);
}

static void any_work(void)
{
    memcpy(expected.work, lent.work, WORK);
}

static void any_table(size_t numbers)
{
    memcpy(expected.table, lent.table, numbers * sizeof *lent.table);
}

/* The entries of S, stored as read, and the records of its leaves as document 01 lists them. */
static void s_is_listed(void)
{
    static const uint64_t listing[] = {76, 60, 5000, 2000, 2415919104, 100, 136, 60, 7000, 3000, 2415919104, 2100};
    memcpy(expected.work, s + 52, 24);
    memcpy(expected.table, listing, sizeof listing);
    any_state();
}

/* The answer of a lookup in S, and behind it the page of a mark. Leaf 0 is a refusal. */
static void leaf_is_answered(uint64_t leaf)
{
    memset(expected.answer, 0, MAZURLOT_LOOKUP_NUMBERS * sizeof *expected.answer);
    if (leaf == 0)
        return;
    expected.answer[MAZURLOT_ANSWER_LEAF] = leaf;
    memcpy(expected.answer + MAZURLOT_ANSWER_RECORD, lent.table + 6 * (leaf - 1), 6 * sizeof *lent.table);
}

static struct lengths with_state(size_t state, size_t answer)
{
    struct lengths n = {state, WORK, 12, answer};
    return n;
}

static struct lengths with_answer(size_t answer)
{
    return with_state(STATE, answer);
}

/* Has S accepted, for lookups. */
static void accept_s(void)
{
    lend(s, S_BYTES);
    CHECK(whole(MAZURLOT_BRAND_MSDH, S_BYTES, fitting) == 0);
    expected.answer[MAZURLOT_ANSWER_COUNT] = 2;
    s_is_listed();
    WRITTEN("whole writes state, work area, table and one number of the answer");
}

static void check_start(void)
{
    lend(s, S_BYTES);
    for (size_t state = 0; state <= STATE + 1; ++state) {
        if (state == STATE)
            continue;
        CHECK(start(MAZURLOT_BRAND_MSDH, state) == MAZURLOT_NO_STATE);
        NOTHING_WRITTEN();
    }
    CHECK(start(MAZURLOT_BRAND_MSDH, STATE) == 0);
    CHECK(memcmp(lent.state, expected.state, STATE * sizeof *lent.state) != 0);
    any_state();
    WRITTEN("start writes the state alone");
}

static void check_feed(void)
{
    lend(s, S_BYTES);
    CHECK(start(MAZURLOT_BRAND_MSDH, STATE) == 0);
    CHECK(feed(0, S_BYTES, with_state(STATE - 1, 1)) == MAZURLOT_NO_STATE);
    NOTHING_WRITTEN();
    CHECK(feed(0, S_BYTES, with_state(STATE + 1, 1)) == MAZURLOT_NO_STATE);
    NOTHING_WRITTEN();
    CHECK(feed(0, S_BYTES, with_answer(MAZURLOT_ANSWER_NUMBERS - 1)) == MAZURLOT_NO_STATE);
    NOTHING_WRITTEN();

    struct lengths n = fitting;
    n.work = WORK - 1;
    CHECK(feed(0, S_BYTES, n) == MAZURLOT_SMALL_WORK_AREA);
    expected.answer[MAZURLOT_ANSWER_PLACE] = 0;
    WRITTEN("a feed with a small work area writes its place alone");
    n.work = WORK + 64;

    CHECK(feed(0, 0, n) == 0);
    expected.answer[MAZURLOT_ANSWER_COUNT] = 0;
    WRITTEN("an empty feed writes the count alone");
    CHECK(feed(0, 77, n) == 0);
    expected.answer[MAZURLOT_ANSWER_COUNT] = 77;
    memcpy(expected.work, s + 52, 24);
    any_state();
    WRITTEN("a feed of both entries writes them into the work area");
    n.answer = 12;
    CHECK(feed(77, S_BYTES - 77, n) == 0);
    expected.answer[MAZURLOT_ANSWER_COUNT] = S_BYTES;
    s_is_listed();
    WRITTEN("a feed of both leaves writes them into the table, and no more of a longer answer");
}

static void check_finish(void)
{
    lend(s, S_BYTES);
    CHECK(start(MAZURLOT_BRAND_MSDH, STATE) == 0);
    CHECK(feed(0, S_BYTES, fitting) == 0);
    CHECK(finish(with_state(STATE - 1, 1)) == MAZURLOT_NO_STATE);
    NOTHING_WRITTEN();
    CHECK(finish(with_state(STATE + 1, 1)) == MAZURLOT_NO_STATE);
    NOTHING_WRITTEN();
    CHECK(finish(with_answer(MAZURLOT_ANSWER_NUMBERS - 1)) == MAZURLOT_NO_STATE);
    NOTHING_WRITTEN();
    CHECK(finish(with_answer(12)) == 0);
    expected.answer[MAZURLOT_ANSWER_COUNT] = 2;
    any_state();
    WRITTEN("finish writes the state and one number of the answer");

    CHECK(finish(fitting) == MAZURLOT_OUT_OF_ORDER);
    expected.answer[MAZURLOT_ANSWER_PLACE] = 0;
    WRITTEN("a second finish writes its place alone");
    CHECK(feed(0, 3, fitting) == MAZURLOT_OUT_OF_ORDER);
    WRITTEN("a feed after finish writes its place alone");
    memset(lent.state, 0, STATE * sizeof *lent.state);
    CHECK(finish(fitting) == MAZURLOT_NO_STATE);
    NOTHING_WRITTEN();
    CHECK(feed(0, 3, fitting) == MAZURLOT_NO_STATE);
    NOTHING_WRITTEN();
}

static void check_whole(void)
{
    lend(s, S_BYTES);
    CHECK(whole(MAZURLOT_BRAND_MSDH, S_BYTES, with_state(STATE - 1, 1)) == MAZURLOT_NO_STATE);
    NOTHING_WRITTEN();
    CHECK(whole(MAZURLOT_BRAND_MSDH, S_BYTES, with_state(STATE + 1, 1)) == MAZURLOT_NO_STATE);
    NOTHING_WRITTEN();
    CHECK(whole(MAZURLOT_BRAND_MSDH, S_BYTES, with_answer(MAZURLOT_ANSWER_NUMBERS - 1)) == MAZURLOT_NO_STATE);
    NOTHING_WRITTEN();

    struct lengths n = fitting;
    n.work = WORK - 1;
    CHECK(whole(MAZURLOT_BRAND_MSDH, S_BYTES, n) == MAZURLOT_SMALL_WORK_AREA);
    expected.answer[MAZURLOT_ANSWER_PLACE] = 0;
    mazurlot_start(MAZURLOT_BRAND_MSDH, expected.state, STATE);
    WRITTEN("whole with a small work area writes the state of start and its place");
    n.work = WORK + 64;
    n.answer = 12;
    n.table = 19;
    CHECK(whole(MAZURLOT_BRAND_MSDH, S_BYTES, n) == 0);
    expected.answer[MAZURLOT_ANSWER_COUNT] = 2;
    s_is_listed();
    WRITTEN("whole writes no more of longer buffers");
}

/* Every lookup of a state or an answer of another length writes nothing. */
static void check_lookup_lengths(void)
{
    accept_s();
    for (size_t state = STATE - 1; state <= STATE + 1; state += 2) {
        CHECK(ticks(7000, with_state(state, 7)) == MAZURLOT_NO_STATE);
        NOTHING_WRITTEN();
        CHECK(seconds(7.0, with_state(state, 7)) == MAZURLOT_NO_STATE);
        NOTHING_WRITTEN();
        CHECK(resolve(3, 7.0, with_state(state, 8)) == MAZURLOT_NO_STATE);
        NOTHING_WRITTEN();
    }
    CHECK(ticks(7000, with_answer(MAZURLOT_LOOKUP_NUMBERS - 1)) == MAZURLOT_NO_STATE);
    NOTHING_WRITTEN();
    CHECK(seconds(7.0, with_answer(MAZURLOT_LOOKUP_NUMBERS - 1)) == MAZURLOT_NO_STATE);
    NOTHING_WRITTEN();
    CHECK(resolve(3, 7.0, with_answer(MAZURLOT_RESOLVE_NUMBERS - 1)) == MAZURLOT_NO_STATE);
    NOTHING_WRITTEN();
}

/* A table of 11 numbers has no room for two leaves, and one of 12 has. */
static void check_table_lengths(void)
{
    struct lengths n = {STATE, WORK, 11, 1};
    lend(s, S_BYTES);
    CHECK(whole(MAZURLOT_BRAND_MSDH, S_BYTES, n) == MAZURLOT_TABLE_FULL);
    CHECK(lent.answer[MAZURLOT_ANSWER_PLACE] == 136);
    CHECK(start(MAZURLOT_BRAND_MSDH, STATE) == 0);
    CHECK(feed(0, S_BYTES, n) == MAZURLOT_TABLE_FULL);
    CHECK(lent.answer[MAZURLOT_ANSWER_PLACE] == 136);
    accept_s();
    n.answer = MAZURLOT_RESOLVE_NUMBERS;
    CHECK(ticks(7000, n) == MAZURLOT_SHORT_TABLE);
    leaf_is_answered(0);
    WRITTEN("a refused lookup writes zeros into its answer");
    CHECK(seconds(7.0, n) == MAZURLOT_SHORT_TABLE);
    WRITTEN("a refused lookup writes zeros into its answer");
    CHECK(resolve(77, 7.0, n) == MAZURLOT_SHORT_TABLE);
    expected.answer[MAZURLOT_ANSWER_PAGE] = 77;
    WRITTEN("a refused mark writes zeros and its page into its answer");
    CHECK(ticks(7000, with_answer(7)) == 0);
    CHECK(seconds(7.0, with_answer(7)) == 0);
    CHECK(resolve(77, 7.0, with_answer(8)) == 0);
}

/* The places in a record and in an answer, one by one. */
static void check_places(void)
{
    accept_s();
    CHECK(resolve(0xfedcba98u, 7.0, with_answer(MAZURLOT_RESOLVE_NUMBERS)) == 0);
    const uint64_t *record = lent.table + MAZURLOT_RECORD_NUMBERS, *answer = lent.answer + MAZURLOT_ANSWER_RECORD;
    CHECK(record[MAZURLOT_RECORD_POSITION] == 136 && answer[MAZURLOT_RECORD_POSITION] == 136);
    CHECK(record[MAZURLOT_RECORD_SIZE] == 60 && answer[MAZURLOT_RECORD_SIZE] == 60);
    CHECK(record[MAZURLOT_RECORD_START] == 7000 && answer[MAZURLOT_RECORD_START] == 7000);
    CHECK(record[MAZURLOT_RECORD_DURATION] == 3000 && answer[MAZURLOT_RECORD_DURATION] == 3000);
    CHECK(record[MAZURLOT_RECORD_SAP] == 2415919104 && answer[MAZURLOT_RECORD_SAP] == 2415919104);
    CHECK(record[MAZURLOT_RECORD_DECODE] == 2100 && answer[MAZURLOT_RECORD_DECODE] == 2100);
    CHECK(lent.state[MAZURLOT_STATE_LEAVES] == 2 && lent.state[MAZURLOT_STATE_TIMESCALE] == 1000);
    CHECK(lent.answer[MAZURLOT_ANSWER_LEAF] == 2);
    CHECK(lent.answer[MAZURLOT_ANSWER_PAGE] == 0xfedcba98u);
}

/* Lookups in S, with an answer that is longer than it has to be. */
static void check_lookups(void)
{
    static const struct { double seconds; uint64_t ticks, number, leaf; } times[] = {
        {4.999, 4999, MAZURLOT_BEFORE_LIST, 0}, {5.0, 5000, 0, 1}, {6.999, 6999, 0, 1}, {7.0, 7000, 0, 2}, {9.999, 9999, 0, 2},
        {10.0, 10000, MAZURLOT_PAST_LIST, 0}, {0.0, 0, MAZURLOT_BEFORE_LIST, 0}, {-0.0, 1, MAZURLOT_BEFORE_LIST, 0},
        /* What a product rounded to a double, a float, or 32 bits would find in leaf 2, or in a leaf. */
        {7.0 - 4 * DBL_EPSILON, 6999, 0, 1}, {6.9999999999, 6999, 0, 1},
        {4294967.296 + 7.0, 4294967296 + 7000, MAZURLOT_PAST_LIST, 0}, {DBL_MAX, UINT64_MAX, MAZURLOT_PAST_LIST, 0},
    };
    accept_s();
    for (size_t at = 0; at < sizeof times / sizeof *times; ++at) {
        uint32_t page = 0x80000001u + (uint32_t)at;
        CHECK(ticks(times[at].ticks, with_answer(12)) == times[at].number);
        leaf_is_answered(times[at].leaf);
        WRITTEN("a lookup of ticks writes its answer alone");
        CHECK(seconds(times[at].seconds, with_answer(12)) == times[at].number);
        WRITTEN("a lookup of seconds writes the same");
        CHECK(resolve(page, times[at].seconds, with_answer(12)) == times[at].number);
        expected.answer[MAZURLOT_ANSWER_PAGE] = page;
        WRITTEN("a mark writes the same and its page");
    }
}

static void check_no_time(void)
{
    static const double no_times[] = {NAN, -NAN, INFINITY, -INFINITY, -1.0, -4.9e-324};
    accept_s();
    for (size_t at = 0; at < sizeof no_times / sizeof *no_times; ++at) {
        CHECK(seconds(no_times[at], with_answer(8)) == MAZURLOT_NO_TIME);
        leaf_is_answered(0);
        WRITTEN("a lookup of no time writes zeros");
        CHECK(resolve(0xffffffffu, no_times[at], with_answer(8)) == MAZURLOT_NO_TIME);
        expected.answer[MAZURLOT_ANSWER_PAGE] = 0xffffffffu;
        WRITTEN("a mark of no time writes zeros and its page");
    }
    CHECK(start(MAZURLOT_BRAND_MSDH, STATE) == 0);
    CHECK(ticks(7000, with_answer(7)) == MAZURLOT_OUT_OF_ORDER);
    CHECK(seconds(7.0, with_answer(7)) == MAZURLOT_OUT_OF_ORDER);
    CHECK(resolve(9, 7.0, with_answer(8)) == MAZURLOT_OUT_OF_ORDER);
    leaf_is_answered(0);
    expected.answer[MAZURLOT_ANSWER_PAGE] = 9;
    WRITTEN("a mark without a list writes zeros and its page");
}

static uint8_t *put(uint8_t *to, uint64_t number, unsigned bytes)
{
    for (unsigned at = 0; at < bytes; ++at)
        to[at] = (uint8_t)(number >> 8 * (bytes - 1 - at));
    return to + bytes;
}

/* S with an index of version 1, which starts where the last leaf ends at the top of 64 bits. */
static void check_top_of_64_bits(void)
{
    const uint64_t from = UINT64_MAX - 5000;
    uint8_t late[S_BYTES + 8], *to = late;
    memcpy(late, s, 40);
    put(late + 20, 64, 4);
    late[28] = 1;
    to = put(put(late + 40, from, 8), 0, 8);
    memcpy(to, s + 48, S_BYTES - 48);
    lend(late, sizeof late);
    CHECK(whole(MAZURLOT_BRAND_MSDH, sizeof late, fitting) == 0);
    CHECK(lent.table[MAZURLOT_RECORD_START] == from && lent.table[6 + MAZURLOT_RECORD_START] == from + 2000);
    CHECK(ticks(from - 1, with_answer(7)) == MAZURLOT_BEFORE_LIST);
    CHECK(ticks(from & 0xffffffffu, with_answer(7)) == MAZURLOT_BEFORE_LIST);
    CHECK(ticks(from, with_answer(7)) == 0 && lent.answer[MAZURLOT_ANSWER_LEAF] == 1);
    CHECK(ticks(UINT64_MAX - 1, with_answer(7)) == 0 && lent.answer[MAZURLOT_ANSWER_LEAF] == 2);
    CHECK(ticks(UINT64_MAX, with_answer(7)) == MAZURLOT_PAST_LIST);
}

/* A brand is the number that its four bytes spell, and each of the four counts. */
static void check_brand(void)
{
    static const uint8_t listed[] = {0x81, 0x92, 0xa3, 0xf4};
    lend(s, S_BYTES);
    memcpy(lent.segment + 16, listed, sizeof listed);
    CHECK(MAZURLOT_BRAND_MSDH == 0x6d736468u);
    CHECK(MAZURLOT_BRAND('a', '\xa9', 'b', '\xfe') == 0x61a962feu);
    CHECK(whole(MAZURLOT_BRAND(0x81, 0x92, 0xa3, 0xf4), S_BYTES, fitting) == 0);
    CHECK(whole(MAZURLOT_BRAND(0xf4, 0xa3, 0x92, 0x81), S_BYTES, fitting) == MAZURLOT_BRAND_NOT_LISTED);
    CHECK(whole(MAZURLOT_BRAND_MSDH, S_BYTES, fitting) == MAZURLOT_BRAND_NOT_LISTED);
    CHECK(start(MAZURLOT_BRAND(0x81, 0x92, 0xa3, 0xf4), STATE) == 0 && feed(0, 20, fitting) == 0);
    for (unsigned byte = 0; byte < 4; ++byte)
        CHECK(start(0x8192a3f4u ^ 1u << 8 * byte, STATE) == 0 && feed(0, 20, fitting) == MAZURLOT_BRAND_NOT_LISTED);
}

/* Reads what is lent as segment whole and in parts. Both refuse it so, leave the same, and keep the refusal. */
static void check_refused(uint64_t number, uint64_t place, size_t bytes)
{
    static struct lent fresh, by_whole;
    fresh = lent;
    CHECK(whole(MAZURLOT_BRAND_MSDH, bytes, fitting) == number);
    expected.answer[MAZURLOT_ANSWER_PLACE] = place;
    any_state();
    any_work();
    any_table(fitting.table);
    WRITTEN("whole has its place");
    by_whole = lent;

    lent = fresh;
    CHECK(start(MAZURLOT_BRAND_MSDH, STATE) == 0);
    for (size_t at = 0; at < bytes && feed(at, bytes - at < 7 ? bytes - at : 7, fitting) == 0; at += 7)
        ;
    CHECK(finish(fitting) == number);
    expected = by_whole;
    WRITTEN("the parts have its place, and leave what whole leaves");
    CHECK(feed(3, 11, fitting) == number);
    WRITTEN("a later feed has its place, and leaves all as it was");
    CHECK(finish(fitting) == number);
    WRITTEN("a later finish has its place, and leaves all as it was");
}

/* Refusals that S shows with a few bytes changed; a byte of 0 at 0 ends the changes. */
static void check_refusals(void)
{
    static const struct { const char *name; uint64_t number, place; size_t bytes; struct { uint8_t at, byte; } changes[4]; } cases[] = {
        {"a moof of size 4", MAZURLOT_BAD_BOX_SIZE, 76, S_BYTES, {{79, 4}}},
        {"an mdat that ends past its leaf", MAZURLOT_BOX_TOO_LONG, 124, S_BYTES, {{127, 13}}},
        {"a count of 3 in a box for 2", MAZURLOT_BAD_BODY_LENGTH, 20, S_BYTES, {{51, 3}}},
        {"no styp", MAZURLOT_STYP_OUT_OF_PLACE, 0, S_BYTES, {{4, 't'}}},
        {"brand msdi", MAZURLOT_BRAND_NOT_LISTED, 0, S_BYTES, {{19, 'i'}}},
        {"an mdat in place of the moof", MAZURLOT_BOX_OUT_OF_PLACE, 76, S_BYTES, {{80, 'm'}, {81, 'd'}, {82, 'a'}, {83, 't'}}},
        {"a sidx of version 2", MAZURLOT_UNKNOWN_VERSION, 20, S_BYTES, {{28, 2}}},
        {"timescale 0", MAZURLOT_BAD_INDEX_NUMBER, 20, S_BYTES, {{38, 0}, {39, 0}}},
        {"an entry past the limit", MAZURLOT_PAST_LIMITS, 20, S_BYTES, {{64, 0x7f}}},
        {"no tfdt", MAZURLOT_BAD_TRACK_FRAGMENT, 84, S_BYTES, {{115, 'x'}}},
        {"a tfad", MAZURLOT_TFAD, 92, S_BYTES, {{98, 'a'}}},
        {"decode time 99", MAZURLOT_DECODE_TIME_FALLS, 168, S_BYTES, {{182, 0}, {183, 99}}},
        {"another track", MAZURLOT_NO_DECODE_TIME, 76, S_BYTES, {{107, 2}}},
        {"no bytes", MAZURLOT_UNFINISHED, 0, 0, {{0, 0}}},
        {"a byte less", MAZURLOT_UNFINISHED, 195, S_BYTES - 1, {{0, 0}}},
        {"a byte more", MAZURLOT_BYTES_AFTER_END, 196, S_BYTES + 1, {{0, 0}}},
    };
    for (size_t at = 0; at < sizeof cases / sizeof *cases; ++at) {
        about = cases[at].name;
        lend(s, S_BYTES);
        for (size_t change = 0; change < 4 && cases[at].changes[change].at != 0; ++change)
            lent.segment[cases[at].changes[change].at] = cases[at].changes[change].byte;
        check_refused(cases[at].number, cases[at].place, cases[at].bytes);
    }
    about = "";
}

/* Puts an index of one entry over all that the segment has after its styp, on a level above it. Returns the new length. */
static size_t put_index_above(uint8_t *segment, size_t bytes)
{
    memmove(segment + 64, segment + 20, bytes - 20);
    put(segment + 20, 44, 4);
    put(segment + 50, 1, 2);
    put(put(put(segment + 52, 0x80000000u | (bytes - 20), 4), 5000, 4), 2415919104, 4);
    return bytes + 44;
}

/* Segment T, with the right duration and another, and S four and five levels deep. */
static void check_levels(void)
{
    lend(s, S_BYTES);
    size_t bytes = put_index_above(lent.segment, S_BYTES);
    CHECK(whole(MAZURLOT_BRAND_MSDH, bytes, fitting) == 0);
    CHECK(lent.table[MAZURLOT_RECORD_POSITION] == 120 && lent.table[6 + MAZURLOT_RECORD_POSITION] == 180);
    put(lent.segment + 56, 4999, 4);
    check_refused(MAZURLOT_INDEX_DISAGREES, 64, bytes);
    put(lent.segment + 56, 5000, 4);
    bytes = put_index_above(lent.segment, put_index_above(lent.segment, bytes));
    CHECK(whole(MAZURLOT_BRAND_MSDH, bytes, fitting) == 0);
    CHECK(lent.answer[MAZURLOT_ANSWER_COUNT] == 2);
    check_refused(MAZURLOT_TOO_DEEP, 20 + 4 * 44, put_index_above(lent.segment, bytes));
}

/* Of the next two, what is lent is too long for the buffers above. */

static uint64_t state[STATE], answer[MAZURLOT_ANSWER_NUMBERS];
static uint8_t work[WORK];

/* The longest segment that may be, and a byte more. All but its first bytes is the body of a box that is skipped. */
static void check_longest(void)
{
    uint8_t *segment = calloc(LIMIT + 1, 1);
    CHECK(segment != NULL);
    memcpy(segment, s, 20);
    memcpy(put(segment + 20, LIMIT - 20, 4), "free", 4);
    CHECK(mazurlot_whole(MAZURLOT_BRAND_MSDH, segment, LIMIT, state, STATE, work, WORK, lent.table, 12, answer, 1) == MAZURLOT_UNFINISHED);
    CHECK(answer[MAZURLOT_ANSWER_PLACE] == LIMIT);
    CHECK(mazurlot_whole(MAZURLOT_BRAND_MSDH, segment, LIMIT + 1, state, STATE, work, WORK, lent.table, 12, answer, 1)
          == MAZURLOT_SEGMENT_TOO_LONG);
    CHECK(answer[MAZURLOT_ANSWER_PLACE] == LIMIT);
    CHECK(mazurlot_start(MAZURLOT_BRAND_MSDH, state, STATE) == 0);
    CHECK(mazurlot_feed(segment, LIMIT, state, STATE, work, WORK, lent.table, 12, answer, 1) == 0);
    CHECK(answer[MAZURLOT_ANSWER_COUNT] == LIMIT);
    CHECK(mazurlot_feed(segment, 1, state, STATE, work, WORK, lent.table, 12, answer, 1) == MAZURLOT_SEGMENT_TOO_LONG);
    CHECK(answer[MAZURLOT_ANSWER_PLACE] == LIMIT);
    CHECK(mazurlot_finish(state, STATE, answer, 1) == MAZURLOT_SEGMENT_TOO_LONG);
    free(segment);
}

/* An index over so many leaves, each of 48 bytes and one tick, or over an index for each 1,024 of them. Returns where it ends. */
static uint8_t *put_index(uint8_t *to, uint64_t time, size_t leaves, size_t each)
{
    size_t count = (leaves + each - 1) / each;
    memcpy(put(to, 32 + 12 * count, 4), s + 24, 16);
    put(to + 20, time, 4);
    to = put(put(to + 24, 0, 6), count, 2);
    for (size_t left = leaves; left > 0;) {
        size_t here = left < each ? left : each;
        to = put(to, each == 1 ? 48 : 0x80000000u | (32 + (12 + 48) * here), 4);
        to = put(put(to, here, 4), 0, 4);
        left -= here;
    }
    return to;
}

/* A table with room for more than 4,096 leaves takes 4,096. */
static void check_most_leaves(void)
{
    const size_t most = MAZURLOT_MOST_LEAVES, room = (most + 1) * MAZURLOT_RECORD_NUMBERS;
    for (size_t leaves = most; leaves <= most + 1; ++leaves) {
        uint64_t *table = calloc(room, sizeof *table);
        uint8_t *segment = calloc(leaves, 100), *to = segment + 20;
        CHECK(table != NULL && segment != NULL);
        memcpy(segment, s, 20);
        to = put_index(to, 0, leaves, 1024);
        for (size_t leaf = 0; leaf < leaves; ++leaf, to += 48) {
            if (leaf % 1024 == 0)
                to = put_index(to, leaf, leaves - leaf < 1024 ? leaves - leaf : 1024, 1);
            memcpy(to, s + 76, 48);
        }
        size_t bytes = (size_t)(to - segment), numbers = leaves == most ? room - MAZURLOT_RECORD_NUMBERS : room;
        uint64_t number = mazurlot_whole(MAZURLOT_BRAND_MSDH, segment, bytes, state, STATE, work, WORK, table, numbers, answer, 1);
        CHECK(number == (leaves == most ? 0 : MAZURLOT_TABLE_FULL));
        CHECK(answer[0] == (leaves == most ? most : bytes - 48));
        free(segment);
        free(table);
    }
}

/*
 * A parameter of 32 bits takes the lower half of a register, and what is in the upper half is open. So it is filled here, by calls of
 * another type: a function that takes 64 bits would see it.
 */
typedef uint64_t start_64(uint64_t, uint64_t *, size_t);
typedef uint64_t whole_64(uint64_t, const uint8_t *, size_t, uint64_t *, size_t, uint8_t *, size_t, uint64_t *, size_t, uint64_t *, size_t);
typedef uint64_t resolve_64(uint64_t, double, const uint64_t *, size_t, const uint64_t *, size_t, uint64_t *, size_t);

static void check_32_bits(void)
{
    const uint64_t upper = 0xdeadbeef00000000u;
    start_64 *start_wide = (start_64 *)(void (*)(void))mazurlot_start;
    whole_64 *whole_wide = (whole_64 *)(void (*)(void))mazurlot_whole;
    resolve_64 *resolve_wide = (resolve_64 *)(void (*)(void))mazurlot_resolve;
    lend(s, S_BYTES);
    CHECK(start_wide(upper | MAZURLOT_BRAND_MSDH, lent.state, STATE) == 0);
    CHECK(feed(0, S_BYTES, fitting) == 0 && finish(fitting) == 0);
    CHECK(whole_wide(upper | MAZURLOT_BRAND_MSDH, lent.segment, S_BYTES, lent.state, STATE, lent.work, WORK, lent.table, 12, lent.answer, 1)
          == 0);
    CHECK(resolve_wide(upper | 0x80000001u, 7.0, lent.state, STATE, lent.table, 12, lent.answer, 8) == 0);
    CHECK(lent.answer[MAZURLOT_ANSWER_PAGE] == 0x80000001u);
}

/* Lengths have 64 bits: with its upper half cut off, each of these would be another. `far` has so much room behind it. */

#define FAR ((size_t)1 << 32)

static void check_long_reading(uint64_t *far)
{
    uint8_t *bytes = (uint8_t *)far;
    memcpy(bytes, s, S_BYTES);
#define WHOLE(...) mazurlot_whole(MAZURLOT_BRAND_MSDH, __VA_ARGS__)
    CHECK(WHOLE(bytes, FAR + S_BYTES, lent.state, STATE, lent.work, WORK, lent.table, 12, lent.answer, 1) == MAZURLOT_BYTES_AFTER_END);
    CHECK(WHOLE(lent.segment, S_BYTES, far, FAR + STATE, lent.work, WORK, lent.table, 12, lent.answer, 1) == MAZURLOT_NO_STATE);
    CHECK(WHOLE(lent.segment, S_BYTES, lent.state, STATE, bytes, FAR, lent.table, 12, lent.answer, 1) == 0);
    CHECK(WHOLE(lent.segment, S_BYTES, lent.state, STATE, lent.work, WORK, far, FAR, lent.answer, 1) == 0);
    CHECK(WHOLE(lent.segment, S_BYTES, lent.state, STATE, lent.work, WORK, lent.table, 12, far, FAR) == 0);
#undef WHOLE
    CHECK(mazurlot_start(MAZURLOT_BRAND_MSDH, far, FAR + STATE) == MAZURLOT_NO_STATE);
    CHECK(mazurlot_start(MAZURLOT_BRAND_MSDH, far, STATE) == 0);
    CHECK(mazurlot_feed(lent.segment, 1, far, FAR + STATE, lent.work, WORK, lent.table, 12, lent.answer, 1) == MAZURLOT_NO_STATE);
    CHECK(mazurlot_finish(far, FAR + STATE, lent.answer, 1) == MAZURLOT_NO_STATE);
    memcpy(bytes, s, S_BYTES);
    CHECK(mazurlot_start(MAZURLOT_BRAND_MSDH, lent.state, STATE) == 0);
    CHECK(mazurlot_feed(lent.segment, 50, lent.state, STATE, bytes, FAR, lent.table, 12, lent.answer, 1) == 0);
    CHECK(mazurlot_feed(lent.segment + 50, 100, lent.state, STATE, lent.work, WORK, far, FAR, lent.answer, 1) == 0);
    CHECK(mazurlot_feed(lent.segment + 150, 46, lent.state, STATE, lent.work, WORK, lent.table, 12, far, FAR) == 0);
    CHECK(mazurlot_finish(lent.state, STATE, far, FAR) == 0);
    CHECK(mazurlot_start(MAZURLOT_BRAND_MSDH, lent.state, STATE) == 0);
    memcpy(bytes, s, S_BYTES);
    CHECK(mazurlot_feed(bytes, FAR, lent.state, STATE, lent.work, WORK, lent.table, 12, lent.answer, 1) == MAZURLOT_BYTES_AFTER_END);
}

static void check_long_lookups(uint64_t *far)
{
    accept_s();
    memcpy(far, lent.state, STATE * sizeof *far);
    CHECK(mazurlot_lookup_ticks(7000, far, FAR + STATE, lent.table, 12, lent.answer, 7) == MAZURLOT_NO_STATE);
    CHECK(mazurlot_lookup_seconds(7.0, far, FAR + STATE, lent.table, 12, lent.answer, 7) == MAZURLOT_NO_STATE);
    CHECK(mazurlot_resolve(1, 7.0, far, FAR + STATE, lent.table, 12, lent.answer, 8) == MAZURLOT_NO_STATE);
    memcpy(far, lent.table, 12 * sizeof *far);
    CHECK(mazurlot_lookup_ticks(7000, lent.state, STATE, far, FAR, lent.answer, 7) == 0);
    CHECK(mazurlot_lookup_seconds(7.0, lent.state, STATE, far, FAR, lent.answer, 7) == 0);
    CHECK(mazurlot_resolve(1, 7.0, lent.state, STATE, far, FAR, lent.answer, 8) == 0);
    CHECK(mazurlot_lookup_ticks(7000, lent.state, STATE, lent.table, 12, far, FAR) == 0);
    CHECK(mazurlot_lookup_seconds(7.0, lent.state, STATE, lent.table, 12, far, FAR) == 0);
    CHECK(mazurlot_resolve(1, 7.0, lent.state, STATE, lent.table, 12, far, FAR) == 0);
}

/* The room is only set aside by the system, and hardly touched. */
static void check_long_lengths(void)
{
    const size_t bytes = (FAR + STATE) * sizeof(uint64_t);
    void *far = mmap(NULL, bytes, PROT_READ | PROT_WRITE, MAP_PRIVATE | MAP_ANONYMOUS | MAP_NORESERVE, -1, 0);
    if (far == MAP_FAILED) {
        puts("declarations: lengths above 2^32 are left out: the system does not set so much room aside");
        return;
    }
    lend(s, S_BYTES);
    check_long_reading(far);
    check_long_lookups(far);
    munmap(far, bytes);
}

int main(int count, char **arguments)
{
    FILE *file = count == 2 ? fopen(arguments[1], "rb") : NULL;
    if (file == NULL || fread(s, 1, sizeof s, file) != S_BYTES) {
        fputs("usage: declarations crates/list/stdin\n", stderr);
        return 2;
    }
    fclose(file);
    check_start();
    check_feed();
    check_finish();
    check_whole();
    check_lookup_lengths();
    check_table_lengths();
    check_places();
    check_lookups();
    check_no_time();
    check_top_of_64_bits();
    check_brand();
    check_refusals();
    check_levels();
    check_longest();
    check_most_leaves();
    check_32_bits();
    check_long_lengths();
    printf("declarations: %u checks\n", checks);
    return 0;
}
