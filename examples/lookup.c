/*
 * Looks a time up in a film's segment, and tells which bytes to fetch: lookup FILE SECONDS.
 *
 *     cc -I include -o lookup examples/lookup.c target/staticlib/libmazurlot.a
 */
#include <inttypes.h>
#include <stdio.h>
#include <stdlib.h>

#include "mazurlot.h"

/* What the reading is lent. The table has room for the most leaves that there are. */
static uint64_t state[MAZURLOT_STATE_NUMBERS];
static uint8_t work[MAZURLOT_WORK_BYTES];
static uint64_t table[MAZURLOT_MOST_LEAVES * MAZURLOT_RECORD_NUMBERS];
static const size_t table_numbers = MAZURLOT_MOST_LEAVES * MAZURLOT_RECORD_NUMBERS;

/* Reads the segment in pieces, as a player does, and looks the time up in its list. Returns 0 or the number of the refusal. */
static uint64_t lookup(FILE *file, double seconds, uint64_t answer[MAZURLOT_LOOKUP_NUMBERS])
{
    static uint8_t piece[65536];
    size_t count;
    uint64_t number;

    mazurlot_start(MAZURLOT_BRAND_MSDH, state, MAZURLOT_STATE_NUMBERS);
    while ((count = fread(piece, 1, sizeof piece, file)) > 0) {
        number = mazurlot_feed(piece, count, state, MAZURLOT_STATE_NUMBERS, work, sizeof work, table, table_numbers, answer, 1);
        if (number != 0)
            return number;
    }
    number = mazurlot_finish(state, MAZURLOT_STATE_NUMBERS, answer, 1);
    if (number != 0)
        return number;
    return mazurlot_lookup_seconds(seconds, state, MAZURLOT_STATE_NUMBERS, table, table_numbers, answer, MAZURLOT_LOOKUP_NUMBERS);
}

static int failed(const char *what, const char *why)
{
    fprintf(stderr, "%s: %s\n", what, why);
    return 2;
}

int main(int count, char **arguments)
{
    uint64_t answer[MAZURLOT_LOOKUP_NUMBERS], number;
    const uint64_t *record = answer + MAZURLOT_ANSWER_RECORD;
    char *end;

    if (count != 3)
        return failed("usage", "lookup FILE SECONDS");
    double seconds = strtod(arguments[2], &end);
    if (end == arguments[2] || *end != '\0')
        return failed(arguments[2], "not a number of seconds");
    FILE *file = fopen(arguments[1], "rb");
    if (file == NULL)
        return failed(arguments[1], "cannot be opened");
    number = lookup(file, seconds, answer);
    /* A read that fails says nothing of the segment. */
    int unread = ferror(file);
    fclose(file);
    if (unread)
        return failed(arguments[1], "cannot be read");
    if (number != 0) {
        fprintf(stderr, "refused: number %" PRIu64 ", place %" PRIu64 "\n", number, answer[MAZURLOT_ANSWER_PLACE]);
        return 1;
    }
    uint64_t first = record[MAZURLOT_RECORD_POSITION], last = first + record[MAZURLOT_RECORD_SIZE] - 1;
    printf("leaf %" PRIu64 ": bytes %" PRIu64 "-%" PRIu64 ", %" PRIu64 " ticks from %" PRIu64 "\n",
           answer[MAZURLOT_ANSWER_LEAF], first, last, record[MAZURLOT_RECORD_DURATION], record[MAZURLOT_RECORD_START]);
    return 0;
}
