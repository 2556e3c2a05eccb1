/* The ten lines of the worked example by calls, each answer printed as a script would print it, and two of its timestamps side by side; then two sales in one commit, what
   waits for a site after them, where two timestamps part, copies at lower-numbered sites, a collect, a round, and a state saved and loaded, which the exit status judges. */
#include <inttypes.h>
#include <stdio.h>
#include <string.h>

#include "gevrolen.h"

static uint32_t state[GEVROLEN_WORDS];

/* A refusal is its number alone. */
static int refused(uint32_t number)
{
    printf("%" PRIu32, number);
    return number != GEVROLEN_ACCEPTED;
}

static void print_stamp(const struct gevrolen_stamp *stamp)
{
    printf(" %" PRIu32 " ", stamp->epoch);
    for (uint32_t i = 0; i < stamp->length; i++)
        printf("%s%" PRIu32 ".%" PRIu32, i == 0 ? "" : ",", stamp->tuples[i].site, stamp->tuples[i].count);
}

static void commit(uint32_t site, const struct gevrolen_operation *operations, size_t count)
{
    struct gevrolen_committed answer;
    if (!refused(gevrolen_commit(state, site, operations, count, &answer))) {
        print_stamp(&answer.stamp);
        for (uint32_t i = 0; i < answer.count; i++)
            printf(" %" PRId32, answer.values[i]);
    }
    printf("\n");
}

static void deliver(uint32_t parent, uint32_t child)
{
    refused(gevrolen_deliver(state, parent, child));
    printf("\n");
}

static void schedule(uint32_t site)
{
    struct gevrolen_scheduled answer;
    if (!refused(gevrolen_schedule(state, site, &answer))) {
        printf(" %" PRIu32, answer.parent);
        print_stamp(&answer.stamp);
    }
    printf("\n");
}

#define TEXT 32 /* holds two numbers and a point */

/* How many tuples a timestamp has: a length above eight is all eight. */
static uint32_t tuples_of(const struct gevrolen_stamp *stamp)
{
    return stamp->length < GEVROLEN_SITES ? stamp->length : GEVROLEN_SITES;
}

/* Line 0 of a timestamp is its epoch, line k its tuple k - 1; those behind are empty. The line's length. */
static int line_of(const struct gevrolen_stamp *stamp, uint32_t line, char text[TEXT])
{
    text[0] = '\0';
    if (line == 0)
        return snprintf(text, TEXT, "epoch %" PRIu32, stamp->epoch);
    if (line > tuples_of(stamp))
        return 0;
    return snprintf(text, TEXT, "%" PRIu32 ".%" PRIu32, stamp->tuples[line - 1].site, stamp->tuples[line - 1].count);
}

/* Two timestamps, line by line, compared by a table of places. The line where they part has `<` between them where the first is earlier, `>` where it is later. */
static void side_by_side(const struct gevrolen_stamp *first, const struct gevrolen_stamp *second, const uint8_t places[GEVROLEN_SITES])
{
    struct gevrolen_compared answer;
    const int32_t order = gevrolen_compare(first, second, places, &answer);
    const uint32_t parting = answer.epochs_differ ? 0 : answer.shared + 1; /* behind the last line where they are equal */
    char left[TEXT], right[TEXT], both[2 * TEXT];
    int width = 0;
    for (uint32_t k = 0; k <= tuples_of(first); k++) {
        const int length = line_of(first, k, left);
        width = length > width ? length : width;
    }
    for (uint32_t k = 0; k <= tuples_of(first) || k <= tuples_of(second); k++) {
        line_of(first, k, left);
        line_of(second, k, right);
        int length = snprintf(both, sizeof both, "%-*s %c %s", width, left, k != parting ? ' ' : order < 0 ? '<' : '>', right);
        while (both[length - 1] == ' ')
            length--;
        printf("%.*s\n", length, both);
    }
}

static void sites_side_by_side(uint32_t first_site, uint32_t second_site)
{
    struct gevrolen_stamp first, second;
    uint8_t places[GEVROLEN_SITES];
    if (gevrolen_stamp(state, first_site, &first) == GEVROLEN_ACCEPTED && gevrolen_stamp(state, second_site, &second) == GEVROLEN_ACCEPTED
        && gevrolen_places(state, places) == GEVROLEN_ACCEPTED)
        side_by_side(&first, &second, places);
}

/* Whether a comparison by the state's places has this answer. */
static int answers(const struct gevrolen_stamp *first, const struct gevrolen_stamp *second, int32_t order, uint32_t epochs_differ, uint32_t shared)
{
    struct gevrolen_compared answer;
    uint8_t places[GEVROLEN_SITES];
    return gevrolen_places(state, places) == GEVROLEN_ACCEPTED && gevrolen_compare(first, second, places, &answer) == order
        && answer.epochs_differ == epochs_differ && answer.shared == shared;
}

/* Timestamps that part at their epochs, at once, behind a tuple, where one ends, and nowhere. */
static int parted(void)
{
    const struct gevrolen_stamp heard = {0, 2, {{0, 1}, {1, 1}}}, later = {1, 2, {{0, 1}, {1, 1}}}, other = {0, 2, {{0, 2}, {1, 1}}};
    const struct gevrolen_stamp higher = {0, 2, {{0, 1}, {2, 1}}}, shorter = {0, 1, {{0, 1}}};
    return answers(&heard, &later, -1, 1, 0) && answers(&heard, &other, -1, 0, 0) && answers(&heard, &higher, 1, 0, 1)
        && answers(&shorter, &heard, -1, 0, 1) && answers(&heard, &heard, 0, 0, 2);
}

/* Two sales in one commit, and what is left read before, between and after them: whether the reads gave that, and the later two came from this commit. */
static int sold_twice(void)
{
    const struct gevrolen_operation operations[] = {
        {GEVROLEN_READ, 0, 0}, {GEVROLEN_WRITE, 0, 4}, {GEVROLEN_READ, 0, 0}, {GEVROLEN_WRITE, 0, 3}, {GEVROLEN_READ, 0, 0},
    };
    struct gevrolen_committed answer;
    struct gevrolen_origin before, between, after;
    return gevrolen_commit(state, 0, operations, 5, &answer) == GEVROLEN_ACCEPTED
        && answer.count == 3 && answer.values[0] == 5 && answer.values[1] == 4 && answer.values[2] == 3
        && gevrolen_origin(state, 3, 0, &before) == GEVROLEN_ACCEPTED && before.kind == GEVROLEN_COMMIT && before.record == 0
        && gevrolen_origin(state, 3, 2, &between) == GEVROLEN_ACCEPTED && between.kind == GEVROLEN_COMMIT && between.record == 3
        && gevrolen_origin(state, 3, 4, &after) == GEVROLEN_ACCEPTED && after.kind == GEVROLEN_COMMIT && after.record == 3;
}

/* What waits for site 2 then, the earliest waiting write first: whether it is site 1's of item 1 at 0.1,1.1, and behind it the sales at 0.2. */
static int waits(void)
{
    struct gevrolen_report report;
    return gevrolen_waiting(state, 2, &report) == GEVROLEN_ACCEPTED && report.count == 2 && report.items[0] == 1 && report.items[1] == 0;
}

/* A house that joined late, site 2, owns an item that the two older ones copy: its place is before theirs, so 0.1 is earlier than 2.1. The history keeps the places. */
static int joined_late(void)
{
    const uint32_t primaries[] = {2, 0, 1};
    const uint8_t masks[] = {3, 2, 1}; /* with the last item site 1 would hear of itself */
    const struct gevrolen_operation sold[] = {{GEVROLEN_WRITE, 0, 9}};
    const struct gevrolen_stamp late = {0, 1, {{2, 1}}}, older = {0, 1, {{0, 1}}}, heard = {0, 2, {{2, 1}, {0, 1}}};
    static uint8_t file[GEVROLEN_FILE_BYTES];
    struct gevrolen_committed committed;
    struct gevrolen_scheduled scheduled;
    struct gevrolen_file found;
    struct gevrolen_base base;
    struct gevrolen_record record;
    uint8_t places[GEVROLEN_SITES];
    size_t length, next;
    return gevrolen_set_up(state, 3, 3, primaries, 3, masks, 3) == GEVROLEN_CYCLE
        && gevrolen_set_up(state, 3, 2, primaries, 2, masks, 2) == GEVROLEN_ACCEPTED
        && answers(&older, &late, -1, 0, 0) && answers(&late, &heard, -1, 0, 1)
        && gevrolen_commit(state, 2, sold, 1, &committed) == GEVROLEN_ACCEPTED && gevrolen_deliver(state, 2, 0) == GEVROLEN_ACCEPTED
        && gevrolen_schedule(state, 0, &scheduled) == GEVROLEN_ACCEPTED && gevrolen_export(state, file, sizeof file, &length) == GEVROLEN_ACCEPTED
        && gevrolen_read(file, length, &found, places, &base) == GEVROLEN_ACCEPTED && found.start == 3 && found.records == 1
        && places[0] == 1 && places[1] == 2 && places[2] == 0 && places[3] == 3 && base.folded == 0 && base.count == 2 && base.values[0] == 0
        && gevrolen_record_from(file + found.start, found.length, 0, 3, 2, places, &record, &next) == GEVROLEN_ACCEPTED
        && record.site == 2 && next == found.length;
}

/* Site 1 has not heard of the sale then: a collect removes it when site 1 has, and what it left is the base value, in the state and in the file, which has no record. */
static int collected(void)
{
    const struct gevrolen_operation seen[] = {{GEVROLEN_READ, 0, 0}};
    static uint8_t file[GEVROLEN_FILE_BYTES];
    struct gevrolen_committed committed;
    struct gevrolen_scheduled scheduled;
    struct gevrolen_origin origin;
    struct gevrolen_file found;
    struct gevrolen_base base, read;
    uint8_t places[GEVROLEN_SITES];
    uint32_t removed;
    size_t length;
    return gevrolen_collect(state, &removed) == GEVROLEN_ACCEPTED && removed == 0
        && gevrolen_base(state, &base) == GEVROLEN_ACCEPTED && base.folded == 0 && base.count == 2 && base.values[0] == 0
        && gevrolen_epoch(state, 2, 1) == GEVROLEN_ACCEPTED && gevrolen_dummy(state, 2, &committed.stamp) == GEVROLEN_ACCEPTED
        && gevrolen_deliver(state, 2, 0) == GEVROLEN_ACCEPTED && gevrolen_schedule(state, 0, &scheduled) == GEVROLEN_ACCEPTED
        && gevrolen_dummy(state, 0, &committed.stamp) == GEVROLEN_ACCEPTED && gevrolen_deliver(state, 0, 1) == GEVROLEN_ACCEPTED
        && gevrolen_deliver(state, 2, 1) == GEVROLEN_ACCEPTED && gevrolen_schedule(state, 1, &scheduled) == GEVROLEN_ACCEPTED
        && gevrolen_collect(state, &removed) == GEVROLEN_ACCEPTED && removed == 1
        && gevrolen_base(state, &base) == GEVROLEN_ACCEPTED && base.folded == 1 && base.count == 2 && base.values[0] == 9 && base.values[1] == 0
        && gevrolen_export(state, file, sizeof file, &length) == GEVROLEN_ACCEPTED && length == 3 + 8 + 16
        && gevrolen_read(file, length, &found, places, &read) == GEVROLEN_ACCEPTED && found.start == 11 && found.records == 0
        && read.folded == 1 && read.count == 2 && read.values[0] == 9 && read.values[1] == 0
        && gevrolen_commit(state, 1, seen, 1, &committed) == GEVROLEN_ACCEPTED && committed.values[0] == 9
        && gevrolen_origin(state, 0, 0, &origin) == GEVROLEN_ACCEPTED && origin.kind == GEVROLEN_FOLDED && origin.record == 0;
}

/* Another sale: after a round site 1 holds it, the epoch is one above the greatest, and a collect removes the sale and what site 1 committed. */
static int heard(void)
{
    const struct gevrolen_operation sold[] = {{GEVROLEN_WRITE, 0, 8}};
    struct gevrolen_committed committed;
    struct gevrolen_table table;
    uint32_t epoch, removed;
    return gevrolen_commit(state, 2, sold, 1, &committed) == GEVROLEN_ACCEPTED
        && gevrolen_table(state, 1, &table) == GEVROLEN_ACCEPTED && table.values[0] == 9
        && gevrolen_round(state, &epoch) == GEVROLEN_ACCEPTED && epoch == 2
        && gevrolen_table(state, 1, &table) == GEVROLEN_ACCEPTED && table.values[0] == 8
        && gevrolen_collect(state, &removed) == GEVROLEN_ACCEPTED && removed == 2;
}

/* That state saved, and loaded into another; with a changed byte it is refused, and the other is as it was. Bare words, as version 0.7 saved them, are brought over to the same. */
static int saved_and_loaded(void)
{
    static uint8_t saved[GEVROLEN_SAVED_BYTES], brought[GEVROLEN_SAVED_BYTES];
    static uint32_t other[GEVROLEN_WORDS];
    gevrolen_save(state, saved);
    saved[1000] ^= 1;
    if (gevrolen_load(other, saved, sizeof saved) != GEVROLEN_LOAD_DAMAGED || other[0] != 0)
        return 0;
    saved[1000] ^= 1;
    return gevrolen_load(other, saved, sizeof saved) == GEVROLEN_ACCEPTED && memcmp(other, state, sizeof state) == 0
        && gevrolen_upgrade((const uint8_t *)state, sizeof state, brought) == GEVROLEN_ACCEPTED && memcmp(brought, saved, sizeof saved) == 0;
}

int main(void)
{
    const uint32_t primaries[] = {0, 1};
    const uint8_t masks[] = {6, 4};
    const struct gevrolen_operation sold[] = {{GEVROLEN_WRITE, 0, 5}};
    const struct gevrolen_operation moved[] = {{GEVROLEN_READ, 0, 0}, {GEVROLEN_WRITE, 1, 7}};
    const struct gevrolen_operation seen[] = {{GEVROLEN_READ, 0, 0}, {GEVROLEN_READ, 1, 0}};

    if (!gevrolen_fits()) /* the library is of another version than the header */
        return 1;
    refused(gevrolen_set_up(state, 3, 2, primaries, 2, masks, 2));
    printf("\n");
    commit(0, sold, 1);
    deliver(0, 1);
    schedule(1);
    commit(1, moved, 2);
    deliver(1, 2);
    schedule(2);
    deliver(0, 2);
    schedule(2);
    commit(2, seen, 2);
    sites_side_by_side(1, 2);
    return sold_twice() && waits() && parted() && joined_late() && collected() && heard() && saved_and_loaded() ? 0 : 1;
}
