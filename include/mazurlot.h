/*
 * Mazurlot: the segment index of a 3GP media segment, read and looked up.
 *
 * A film's segment is read once, in parts as they come (start, feed, finish) or at once (whole). That lists its leaves: the byte ranges
 * that can be fetched, each with its start and its duration. Then times are looked up in the list.
 *
 *     uint64_t state[MAZURLOT_STATE_NUMBERS], table[256 * MAZURLOT_RECORD_NUMBERS], answer[MAZURLOT_LOOKUP_NUMBERS];
 *     static uint8_t work[MAZURLOT_WORK_BYTES];
 *
 *     mazurlot_start(MAZURLOT_BRAND_MSDH, state, MAZURLOT_STATE_NUMBERS);
 *     while ((n = fread(piece, 1, sizeof piece, file)) > 0)
 *         if (mazurlot_feed(piece, n, state, MAZURLOT_STATE_NUMBERS, work, sizeof work, table, 1536, answer, 1) != 0) break;
 *     if (mazurlot_finish(state, MAZURLOT_STATE_NUMBERS, answer, 1) == 0
 *         && mazurlot_lookup_seconds(7.0, state, MAZURLOT_STATE_NUMBERS, table, 1536, answer, MAZURLOT_LOOKUP_NUMBERS) == 0)
 *         fetch(answer[MAZURLOT_ANSWER_RECORD + MAZURLOT_RECORD_POSITION], answer[MAZURLOT_ANSWER_RECORD + MAZURLOT_RECORD_SIZE]);
 *
 * Every call returns 0, or the number of a refusal. Nothing has to be checked before a call: whatever the numbers and bytes are, each call
 * returns, and touches only what it is lent. That is proved; what C has to keep to is this:
 *
 * - Lend as much as you say. A length counts numbers of 64 bits, or bytes for `piece`, `segment` and `work`.
 * - A pointer is never NULL, also where its length is 0, and is aligned for its type.
 * - What is lent to one call does not overlap. What is lent as const is only read.
 * - State, work area and table belong together: between start and finish lend the same three, and do not write into them. If you do, the
 *   calls stay safe, and answer by what they find.
 *
 * How long. The library keeps no pointer. A piece or a segment is needed only during its call, the work area until finish or whole returns,
 * state and table as long as times are looked up.
 *
 * What is written. Where a call returns 2, nothing. Else `answer` has what is answered, or for a refusal its place; what lies behind the
 * numbers named below stays as it was. State, work area and table are as the reading leaves them, after a refusal too: a refusal from 3 to
 * 21 is kept in the state, and every later feed or finish gives it again; after 22 to 26 all three are as they were. So they are after 1
 * where feed returns it; whole leaves the state of a start then.
 *
 * Where several refusals could be given: an answer that is too short goes first (2), and for whole a state that has not 57 numbers; then a
 * work area that is too small (1); then numbers that are no state (2); then a kept refusal, 22, and what the bytes show, or for a lookup 22,
 * 25, 26, and then 23 or 24.
 */
#ifndef MAZURLOT_H
#define MAZURLOT_H

#include <stddef.h>
#include <stdint.h>

#ifdef __cplusplus
extern "C" {
#endif

/* How much is lent: the state has just so many numbers, the work area at least so many bytes. */
#define MAZURLOT_STATE_NUMBERS 57
#define MAZURLOT_WORK_BYTES 49152

/* What a player may read in the state after an accepted finish: how many leaves are listed, and how many ticks a second has. */
#define MAZURLOT_STATE_LEAVES 2
#define MAZURLOT_STATE_TIMESCALE 4

/* A leaf takes so many numbers of the table. A table of 6 * n numbers has room for n leaves, for 4,096 at most. */
#define MAZURLOT_RECORD_NUMBERS 6
#define MAZURLOT_MOST_LEAVES 4096

/* Where a leaf's numbers stand in its record. Leaf n, counted from 1, has its record from table[6 * (n - 1)] on. */
#define MAZURLOT_RECORD_POSITION 0 /* first byte to fetch, counted from 0 in the segment */
#define MAZURLOT_RECORD_SIZE 1     /* how many bytes to fetch */
#define MAZURLOT_RECORD_START 2    /* the first tick that the leaf covers, on the index's own time line */
#define MAZURLOT_RECORD_DURATION 3 /* how many ticks it covers */
#define MAZURLOT_RECORD_SAP 4      /* the entry's SAP word */
#define MAZURLOT_RECORD_DECODE 5   /* the first decode time of the reference track */

/* How many numbers an answer has, at least to be lent: of feed, finish and whole; of a lookup; of a mark. */
#define MAZURLOT_ANSWER_NUMBERS 1
#define MAZURLOT_LOOKUP_NUMBERS 7
#define MAZURLOT_RESOLVE_NUMBERS 8

/* Where they stand. */
#define MAZURLOT_ANSWER_PLACE 0  /* of a refusal: the byte it is about, counted from 0; 0 where it is about the call */
#define MAZURLOT_ANSWER_COUNT 0  /* of feed: all bytes read so far; of finish and whole: how many leaves are listed */
#define MAZURLOT_ANSWER_LEAF 0   /* of a lookup: the leaf's number, from 1 on */
#define MAZURLOT_ANSWER_RECORD 1 /* of a lookup: the six numbers of the leaf's record; zeros with a refusal */
#define MAZURLOT_ANSWER_PAGE 7   /* of a mark: its page, with a refusal too */

/* The brand that the segment's styp has to list, as the number that its four bytes spell. */
#define MAZURLOT_BRAND(a, b, c, d) \
    ((uint32_t)(uint8_t)(a) << 24 | (uint32_t)(uint8_t)(b) << 16 | (uint32_t)(uint8_t)(c) << 8 | (uint8_t)(d))
#define MAZURLOT_BRAND_MSDH MAZURLOT_BRAND('m', 's', 'd', 'h')

/* The refusals. Those from 3 to 21 are about the segment, and are kept. */
#define MAZURLOT_SMALL_WORK_AREA 1    /* The work area has under 49,152 bytes. */
#define MAZURLOT_NO_STATE 2           /* What is lent as state is none, or the answer has too little room. Nothing is written. */
#define MAZURLOT_SEGMENT_TOO_LONG 3   /* The segment has more than 268,435,456 bytes. */
#define MAZURLOT_BAD_BOX_SIZE 4       /* A box's size is one that no box has. */
#define MAZURLOT_BOX_TOO_LONG 5       /* A box ends past what it stands in, or too few bytes remain for a box. */
#define MAZURLOT_BAD_BODY_LENGTH 6    /* The body of a styp, sidx, tfhd or tfdt has not the length that it must have. */
#define MAZURLOT_STYP_OUT_OF_PLACE 7  /* The first box is not a styp, or a second styp follows. */
#define MAZURLOT_BRAND_NOT_LISTED 8   /* The styp does not list the brand wanted among its compatible ones. */
#define MAZURLOT_BOX_OUT_OF_PLACE 9   /* A moof, mdat or sidx stands where it may not. */
#define MAZURLOT_UNKNOWN_VERSION 10   /* A sidx or tfdt has a version above 1. */
#define MAZURLOT_BAD_INDEX_NUMBER 11  /* A timescale of 0, no entry or more than 1,024, or an entry of size 0. */
#define MAZURLOT_INDEX_DISAGREES 12   /* An inner index disagrees with its entry, or a stored entry was altered between calls. */
#define MAZURLOT_TOO_DEEP 13          /* An index stands on a fifth level. */
#define MAZURLOT_PAST_LIMITS 14       /* The material ends past byte 268,435,456, or its time past 2^64 - 1. */
#define MAZURLOT_TABLE_FULL 15        /* There are more leaves than the table has room for. */
#define MAZURLOT_BAD_TRACK_FRAGMENT 16 /* A traf has not one tfhd and then one tfdt. */
#define MAZURLOT_TFAD 17              /* A traf has a tfad. */
#define MAZURLOT_DECODE_TIME_FALLS 18 /* The reference track's decode time falls. */
#define MAZURLOT_NO_DECODE_TIME 19    /* A leaf has no decode time of the reference track. */
#define MAZURLOT_UNFINISHED 20        /* The segment ends before its material does. */
#define MAZURLOT_BYTES_AFTER_END 21   /* A byte follows the material. */
#define MAZURLOT_OUT_OF_ORDER 22      /* A feed or finish after an accepted finish, or a lookup without one. */
#define MAZURLOT_BEFORE_LIST 23       /* The time is before the first leaf. */
#define MAZURLOT_PAST_LIST 24         /* The time is in no leaf, and not before the first. */
#define MAZURLOT_SHORT_TABLE 25       /* The table is shorter than the list. */
#define MAZURLOT_NO_TIME 26           /* The seconds are not a number, infinite, or below zero. */

/*
 * Starts a reading: what was in `state` is not looked at. Refuses with 2 where `state` has not 57 numbers, and else never.
 */
uint64_t mazurlot_start(uint32_t brand, uint64_t *state, size_t state_numbers);

/*
 * The next part of the segment, of any length, also none. Answers the count of all bytes read so far.
 */
uint64_t mazurlot_feed(const uint8_t *piece, size_t piece_bytes, uint64_t *state, size_t state_numbers, uint8_t *work, size_t work_bytes,
                       uint64_t *table, size_t table_numbers, uint64_t *answer, size_t answer_numbers);

/*
 * The segment has no more bytes. Answers how many leaves are listed. Not before the last byte is fed: a refusal with 20 is kept.
 */
uint64_t mazurlot_finish(uint64_t *state, size_t state_numbers, uint64_t *answer, size_t answer_numbers);

/*
 * A whole segment in memory, in one call: start, one feed of all the bytes and finish, ending at the first refusal, and faster. What was
 * in `state` is not looked at. Answers how many leaves are listed.
 */
uint64_t mazurlot_whole(uint32_t brand, const uint8_t *segment, size_t segment_bytes, uint64_t *state, size_t state_numbers, uint8_t *work,
                        size_t work_bytes, uint64_t *table, size_t table_numbers, uint64_t *answer, size_t answer_numbers);

/*
 * The leaf that covers a time in ticks of the index's timescale, counted on the index's own time line. Answers the leaf's number and record.
 */
uint64_t mazurlot_lookup_ticks(uint64_t ticks, const uint64_t *state, size_t state_numbers, const uint64_t *table, size_t table_numbers,
                               uint64_t *answer, size_t answer_numbers);

/*
 * The same of a time in seconds, taken at its exact value: nothing is rounded.
 */
uint64_t mazurlot_lookup_seconds(double seconds, const uint64_t *state, size_t state_numbers, const uint64_t *table, size_t table_numbers,
                                 uint64_t *answer, size_t answer_numbers);

/*
 * A mark of a course book, its page and its seconds. Answers what a lookup of the seconds does, and behind it the page.
 */
uint64_t mazurlot_resolve(uint32_t page, double seconds, const uint64_t *state, size_t state_numbers, const uint64_t *table,
                          size_t table_numbers, uint64_t *answer, size_t answer_numbers);

#ifdef __cplusplus
}
#endif

#endif
