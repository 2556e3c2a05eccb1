/* 100,000 mixed steps on an almost empty network and as many on a full one; or, with a letter as the argument, one kind of call again and again on a full network or its
   history file. What the calls answer is summed. */
#include <stdio.h>
#include <stdlib.h>
#include <string.h>

#include "gevrolen.h"

static uint32_t state[GEVROLEN_WORDS];
static uint32_t saved[GEVROLEN_WORDS];
static uint8_t file[GEVROLEN_FILE_BYTES];
static size_t length;

/* A call that no network here refuses. */
static void done(uint32_t number)
{
    if (number != GEVROLEN_ACCEPTED) {
        fprintf(stderr, "%s\n", gevrolen_explain(number));
        exit(1);
    }
}

static uint32_t commit_at(uint32_t kind, uint32_t site, uint32_t first, size_t count)
{
    struct gevrolen_operation operations[GEVROLEN_OPERATIONS];
    struct gevrolen_committed answer;
    for (size_t k = 0; k < count; k++)
        operations[k] = (struct gevrolen_operation){kind, first + 8 * (uint32_t)k, 1};
    return gevrolen_commit(state, site, operations, count, &answer);
}

static uint64_t schedule_at(uint32_t site)
{
    struct gevrolen_scheduled answer;
    uint64_t number = gevrolen_schedule(state, site, &answer);
    return number ? number : answer.stamp.tuples[answer.stamp.length - 1].count;
}

/* Steps of three bytes: a letter as in a script, and two digits. `c` writes item b at site a, `w` all eight items of site a, `r` reads them; the new epoch of `e` is the
   round's number. Summed are every number and the own count of each timestamp that a schedule took. */
static uint64_t step(const char *text, uint32_t round)
{
    uint32_t a = text[1] - '0', b = text[2] - '0';
    struct gevrolen_stamp stamp;
    switch (text[0]) {
    case 'c': return commit_at(GEVROLEN_WRITE, a, b, 1);
    case 'w': return commit_at(GEVROLEN_WRITE, a, a, GEVROLEN_OPERATIONS);
    case 'r': return commit_at(GEVROLEN_READ, a, a, GEVROLEN_OPERATIONS);
    case 'd': return gevrolen_dummy(state, a, &stamp);
    case 'e': return gevrolen_epoch(state, a, round);
    case 'l': return gevrolen_deliver(state, a, b);
    default: return schedule_at(a);
    }
}

static uint64_t turns(const char *steps, uint32_t count)
{
    uint64_t sum = 0;
    for (uint32_t round = 1; round <= count; round++)
        for (const char *at = steps; *at; at += 3)
            sum += step(at, round);
    return sum;
}

/* Two sites and one item, at most nine records, one message: 1,000 times a set-up and nine turns of eleven steps, of which four are refused: 11, 20, 18, 15. */
static uint64_t almost_empty(void)
{
    static const uint32_t primary = 0;
    static const uint8_t mask = 2;
    uint64_t sum = 0;
    for (int i = 0; i < 1000; i++) {
        done(gevrolen_set_up(state, 2, 1, &primary, 1, &mask, 1));
        sum += turns("c00l01s10d00l01s10e00c10s10l01e10", 9);
    }
    return sum;
}

/* Item k has its primary at site k % 8 and a copy at every site above it. */
static void set_up(void)
{
    uint32_t primaries[GEVROLEN_ITEMS];
    uint8_t masks[GEVROLEN_ITEMS];
    for (uint32_t k = 0; k < GEVROLEN_ITEMS; k++) {
        primaries[k] = k % 8;
        masks[k] = (uint8_t)(0xFE << k % 8);
    }
    done(gevrolen_set_up(state, GEVROLEN_SITES, GEVROLEN_ITEMS, primaries, GEVROLEN_ITEMS, masks, GEVROLEN_ITEMS));
}

/* That network: 256 records of eight operations, the last one's reads, 16 messages on each of the 28 lines, one from each parent arrived at site 7. */
static void fill(void)
{
    set_up();
    turns("w00w10w20w30w40w50w60w70", 16);
    turns("w70", 127);
    turns("r70", 1);
    turns("l07l17l27l37l47l57l67", 1);
}

/* That network, and 10,000 turns of ten steps. Site 7 takes the oldest message of site 6, which sends it a dummy: the line is full again. Six steps are refused: 12, 11,
   13, 15, 17, 20. */
static uint64_t full(void)
{
    fill();
    return turns("c77c10d00e00e70s70d60l67l76s10", 10000);
}

/* Each item goes into the sum with its place, which tells their order. */
static uint64_t waiting(void)
{
    struct gevrolen_report report;
    uint64_t sum = 0;
    done(gevrolen_waiting(state, 7, &report));
    for (uint32_t k = 0; k < report.count; k++)
        sum += (uint64_t)(k + 1) * report.items[k];
    return sum;
}

/* Of a read in the last record, whose item 143 others write. */
static uint64_t origin(void)
{
    struct gevrolen_origin answer;
    done(gevrolen_origin(state, 255, 0, &answer));
    return answer.record;
}

/* 128 commits of eight writes at all eight sites, 14 messages of theirs on a line. */
static void half(void)
{
    turns("w00w10w20w30w40w50w60w70", 14);
    turns("w70", 16);
}

/* Every site hears of all commits: a higher epoch at site 0, then each site takes what there is and sends a dummy. */
static void hear(uint32_t epoch)
{
    struct gevrolen_scheduled answer;
    struct gevrolen_stamp stamp;
    done(gevrolen_epoch(state, 0, epoch));
    for (uint32_t site = 0; site < GEVROLEN_SITES; site++) {
        for (uint32_t parent = 0; parent < site; parent++)
            while (gevrolen_deliver(state, parent, site) == GEVROLEN_ACCEPTED)
                ;
        while (gevrolen_schedule(state, site, &answer) == GEVROLEN_ACCEPTED)
            ;
        done(gevrolen_dummy(state, site, &stamp));
    }
}

/* A full network to collect: 158 records are not later than any site, and of the messages on its full lines most name the others; or all 256, and dummies fill the lines. */
static void season(int all)
{
    set_up();
    half();
    hear(1);
    half();
    if (all)
        hear(2);
    turns("d00d10d20d30d40d50d60", 16);
    memcpy(saved, state, sizeof state);
}

/* A collect of that network, and its copy, which by itself is a kind of its own. */
static uint64_t collected(int collects)
{
    uint32_t removed = 0;
    memcpy(state, saved, sizeof state);
    if (collects)
        done(gevrolen_collect(state, &removed));
    return removed + state[0];
}

/* A network to run a round on: 256 records of eight operations, 15 messages on each of the 28 lines, none arrived. */
static void unheard(void)
{
    set_up();
    turns("w00w10w20w30w40w50w60w70", 15);
    turns("w70", 136);
    memcpy(saved, state, sizeof state);
}

/* A round of that network, behind its copy. */
static uint64_t rounded(void)
{
    uint32_t epoch;
    memcpy(state, saved, sizeof state);
    done(gevrolen_round(state, &epoch));
    return epoch + state[0];
}

static uint64_t checked(void)
{
    struct gevrolen_file answer;
    struct gevrolen_base base;
    uint8_t places[GEVROLEN_SITES];
    done(gevrolen_read(file, length, &answer, places, &base));
    return answer.records;
}

static uint64_t digest(const struct gevrolen_record *one)
{
    uint64_t sum = (uint64_t)one->site + one->count + one->stamp.epoch + one->stamp.tuples[one->stamp.length - 1].count;
    for (uint32_t k = 0; k < one->count; k++)
        sum += (uint64_t)one->operations[k].kind + one->operations[k].item + (uint32_t)one->operations[k].value;
    return sum;
}

/* All records, each from where the one before ended. */
static uint64_t following(void)
{
    struct gevrolen_file answer;
    struct gevrolen_base base;
    struct gevrolen_record one;
    uint8_t places[GEVROLEN_SITES];
    uint64_t sum = 0;
    done(gevrolen_read(file, length, &answer, places, &base));
    for (size_t at = 0; !gevrolen_record_from(file + answer.start, answer.length, at, 8, 64, places, &one, &at);)
        sum += digest(&one);
    return sum;
}

/* All records by their numbers, each with all checks. */
static uint64_t numbered(void)
{
    struct gevrolen_record one;
    uint64_t sum = 0;
    for (size_t k = 0; !gevrolen_record(file, length, k, &one); k++)
        sum += digest(&one);
    return sum;
}

/* One kind of call; `h` is a deliver to a site that is none, which is refused behind the test for a well-shaped state. */
static uint64_t once(char letter)
{
    switch (letter) {
    case 'e': return almost_empty();
    case 'f': return full();
    case 'h': return gevrolen_deliver(state, 8, 8) == GEVROLEN_NO_SUCH_SITE;
    case 'w': return waiting();
    case 'o': return origin();
    case 'c':
    case 'C': return collected(1);
    case 'm': return collected(0);
    case 'g': return rounded();
    case 'x': done(gevrolen_export(state, file, sizeof file, &length)); return length;
    case 'k': return checked();
    case 'r': return following();
    default: return numbered();
    }
}

static int times(char letter)
{
    switch (letter) {
    case 'e': return 20;
    case 'f': return 2;
    case 'h': return 100000;
    case 'R': return 100;
    default: return 10000;
    }
}

int main(int count, char **arguments)
{
    uint64_t sum = 0;
    if (count < 2) {
        printf("%llu\n", (unsigned long long)almost_empty());
        printf("%llu\n", (unsigned long long)full());
        return 0;
    }
    if (arguments[1][0] == 'g')
        unheard();
    else
        season(arguments[1][0] == 'C');
    fill();
    done(gevrolen_export(state, file, sizeof file, &length));
    for (int n = times(arguments[1][0]); n; n--)
        sum += once(arguments[1][0]);
    printf("%llu\n", (unsigned long long)sum);
    return 0;
}
