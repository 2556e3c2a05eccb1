/* Gevrolen: a proved replication engine for groups of small houses, to be linked with libgevrolen.a or libgevrolen.so.

   A house (here: a site) owns some items and keeps copies of others'. It commits on its own, whether its lines are up or not, and sends afterwards; what
   arrives is applied in timestamp order. The engine holds all sites, their tables, the lines between them and a history of the commits. The caller chooses
   each step: nothing happens by itself, nothing is sent anywhere, and no call waits.

   THE STATE is an array of GEVROLEN_WORDS words that the caller owns; the library keeps nothing of its own, no memory and no file. All zeros are a state that was
   never set up. It may be copied as it is, since every call tests it: words that are no state get 6. It is too large for a small stack; a static or an allocated array is
   better. gevrolen_save gives its words with their version, gevrolen_load takes them back, and gevrolen_upgrade brings over what an earlier version saved.

   VERSIONS. A library of another version may have states of another size, and then writes past the end of this header's. The shared library's name changes with that
   (libgevrolen.so.0.8), so that a program finds none but its own; a program that links the static library asks gevrolen_fits first.

   ANSWERS. A call's result is its number: 0 where it was accepted, else the cause for which it was refused, one of the constants below. Causes are tested in the order of
   their numbers; items and operations are taken in list order, each with its causes.
   A refused call leaves every word of the state and every byte of a buffer as it was. What else a call answers it writes to the struct that it is given, all of it on
   each call; where the call is refused, zeros. What comes in is never a fault of the program: whatever the words, numbers, lists, lines or files, a call ends and answers.

   PLACES. An item's copies may be at any sites but its primary, as long as the lines form no cycle. Set-up puts the sites in order: again and again the lowest-numbered one
   whose parents all have their place, the first at place 0. A timestamp's tuples stand in that order, and timestamps are compared by places, not by numbers. A table of
   places is eight bytes, byte k the place of site k; a number that is no site is its own place. Where every copy is at a higher-numbered site than its primary, the places
   are the numbers. A history has the places of its network.

   THE BASE. The history holds 256 commits. A collect makes room: it folds those that are not later than any site's timestamp into a base value for each item, which is what
   they left, and removes their records. The commits that are kept go on from the base values; their records are numbered anew, from 0. A history has the base of its
   network.

   POINTERS. None may be NULL, not even that of an empty list, and what a call writes to (state, answer, buffer) may not overlap what else it is given. All are the
   caller's, and the library keeps none. A pointer to words is aligned as uint32_t. A pair of a pointer and a length is as many elements as the length says.

   THREADS. Calls on different states may run at the same time; calls on one state must not, unless all of them only look (their state is const). A lock around each call
   keeps the state whole; a look and the commit that rests on it stay together only where the lock is held around both. */
#ifndef GEVROLEN_H
#define GEVROLEN_H

#include <stddef.h>
#include <stdint.h>
#include <stdio.h>
#include <string.h>

#ifdef __cplusplus
extern "C" {
#endif

/* A refusal that nobody looks at is the fault that costs most: the compiler warns of it. */
#ifdef __GNUC__
#define GEVROLEN_LOOK __attribute__((warn_unused_result))
#else
#define GEVROLEN_LOOK
#endif

/* ---- version */

#define GEVROLEN_VERSION 800 /* 0.8.0: two digits each for the last two parts. The middle one rises with the layout of a state or a signature */

/* ---- sizes */

#define GEVROLEN_WORDS 28116        /* the words of a state */
#define GEVROLEN_SITES 8            /* most sites, numbered from 0 */
#define GEVROLEN_ITEMS 64           /* most items, numbered from 0 */
#define GEVROLEN_OPERATIONS 8       /* most operations of a commit */
#define GEVROLEN_MESSAGES 16        /* most messages that a line holds */
#define GEVROLEN_RECORDS 256        /* most commits that the history holds */
#define GEVROLEN_ANSWER 512         /* the bytes of the buffer for a script line's answer */
#define GEVROLEN_ANSWER_ROOM 294    /* gevrolen_run stops where fewer bytes than this are left for answers */
#define GEVROLEN_FILE_BYTES 35096   /* the longest history file: a buffer of this size is never refused by 25 */
#define GEVROLEN_SAVED_BYTES 112484 /* a saved state: 16 bytes, the words, and a sum */
#define GEVROLEN_SENTENCE 160       /* the bytes of the buffer for the sentence on a load */

/* ---- kinds of operations */

#define GEVROLEN_READ 0  /* gives the latest value written to the item before it in the commit, else the value from before the commit */
#define GEVROLEN_WRITE 1 /* sets the item's value */

/* ---- kinds of origins; 0, as where a call is refused, is none of them */

#define GEVROLEN_START 1  /* the start value, which is 0 */
#define GEVROLEN_COMMIT 2 /* a commit's write */
#define GEVROLEN_FOLDED 3 /* the base value: the write may be that of a commit which a collect removed */

/* ---- numbers, and what to do about each; gevrolen_explain gives the same in words */

#define GEVROLEN_ACCEPTED 0            /* it was done */
#define GEVROLEN_WRONG_SITES 1         /* sites not 1 to 8: set up fewer, or a group of their own */
#define GEVROLEN_WRONG_ITEMS 2         /* items not 1 to 64, or a list of another length: give a primary and a mask for each item */
#define GEVROLEN_NO_SUCH_PRIMARY 3     /* an item's primary is no site: correct it */
#define GEVROLEN_WRONG_MASK 4          /* an item's mask names a missing site, or the primary itself: clear that bit */
#define GEVROLEN_CYCLE 5               /* the lines form a cycle: leave out a copy or move a primary, so that no site hears of itself */
#define GEVROLEN_NO_STATE 6            /* the words are no state: set up first, or load the saved state again; somebody else has written to it. Of a collect also: a message names a commit to be folded */
#define GEVROLEN_NO_SUCH_SITE 7        /* no site has that number: correct it */
#define GEVROLEN_WRONG_OPERATIONS 8    /* operations not 1 to 8, or separate lists of different lengths: split the commit, or mend the lists */
#define GEVROLEN_UNKNOWN_OPERATION 9   /* an operation's kind is not 0 or 1, or no item has its number: correct it */
#define GEVROLEN_NO_COPY 10            /* a read of an item that is not held at this site: read it where it is held */
#define GEVROLEN_NOT_PRIMARY 11        /* a write of an item that another site owns: commit it there */
#define GEVROLEN_HISTORY_FULL 12       /* the history holds 256 commits: export it, run a round, then collect */
#define GEVROLEN_LINE_FULL 13          /* a line to a child, in a round any line, holds 16 messages: deliver and schedule at the child, then try again */
#define GEVROLEN_COUNT_FULL 14         /* the site's own count, in a round any site's, is 4,294,967,295: export the history, then set up again */
#define GEVROLEN_HAS_PARENTS 15        /* an epoch at a site with parents: raise it at the sites without; it comes with their messages */
#define GEVROLEN_EPOCH_NOT_ABOVE 16    /* the new epoch is not above the present: take a higher one. Of a round: the greatest epoch is 4,294,967,295; export the history, then set up again */
#define GEVROLEN_NO_SUCH_LINE 17       /* the placement gives no line from the one site to the other: correct them */
#define GEVROLEN_NOTHING_ON_THE_WAY 18 /* every message on the line has arrived: nothing to do */
#define GEVROLEN_NO_PARENTS 19         /* a schedule at a site without parents: it never hears, nothing to do */
#define GEVROLEN_PARENT_SILENT 20      /* some parent has nothing arrived: deliver from it; where it has sent nothing, let it send a dummy */
#define GEVROLEN_NO_FILE 21            /* under 16 bytes, or no mark: the bytes do not end with a history file, or it is cut off at its end */
#define GEVROLEN_WRONG_DISTANCE 22     /* the trailer's distance is under 16 or above the length: the file is cut off or damaged */
#define GEVROLEN_INVALID_FILE 23       /* the part is no valid file: it is damaged, take another copy */
#define GEVROLEN_NO_SUCH_RECORD 24     /* the file has no record of that number: the records are at their end */
#define GEVROLEN_BUFFER_TOO_SHORT 25   /* the file does not fit the buffer: lend one of GEVROLEN_FILE_BYTES */
#define GEVROLEN_NO_SUCH_READ 26       /* no such commit or operation in the history, or the operation is no read: correct the numbers */

/* ---- why bytes are not loaded; these are answers of gevrolen_load and gevrolen_upgrade alone */

#define GEVROLEN_LOAD_NOT_SAVED 1     /* no saved state: bring older words over by gevrolen_upgrade */
#define GEVROLEN_LOAD_DAMAGED 2       /* damaged, or cut off: take the one before it */
#define GEVROLEN_LOAD_OTHER_VERSION 3 /* saved by a version that this one cannot bring over */
#define GEVROLEN_LOAD_NO_VERSION 4    /* of an upgrade: no state of this version or one before it */

/* ---- what calls take and answer */

/* One tuple of a timestamp. */
struct gevrolen_tuple {
    uint32_t site;
    uint32_t count;
};

/* A timestamp: an epoch and the first `length` of eight tuples, the places of their sites rising; the rest are 0. */
struct gevrolen_stamp {
    uint32_t epoch;
    uint32_t length;
    struct gevrolen_tuple tuples[GEVROLEN_SITES];
};

/* An operation: its kind, the item, and the value, which a read ignores. */
struct gevrolen_operation {
    uint32_t kind;
    uint32_t item;
    int32_t value;
};

/* Of a commit: its timestamp, and the values of its reads in order, the first `count`; the rest are 0. */
struct gevrolen_committed {
    struct gevrolen_stamp stamp;
    uint32_t count;
    int32_t values[GEVROLEN_OPERATIONS];
};

/* Of a schedule: the parent whose message was taken, and the message's timestamp. */
struct gevrolen_scheduled {
    uint32_t parent;
    struct gevrolen_stamp stamp;
};

/* Of a waiting report: the items, the first `count`, each once, that with the earliest waiting write first; the rest are 0. */
struct gevrolen_report {
    uint32_t count;
    uint32_t items[GEVROLEN_ITEMS];
};

/* A site's table: a value for each of `count` items, by number, 0 for one that the site does not hold; the rest are 0. */
struct gevrolen_table {
    uint32_t count;
    int32_t values[GEVROLEN_ITEMS];
};

/* A line: how many messages it holds, on the way and arrived together, and how many of them have arrived. */
struct gevrolen_line {
    uint32_t held;
    uint32_t arrived;
};

/* What the commits that collects have removed since set-up left: 1 where there are such commits, else 0; and a value for each of `count` items, by number; the rest are 0. */
struct gevrolen_base {
    uint32_t folded;
    uint32_t count;
    int32_t values[GEVROLEN_ITEMS];
};

/* Where the value of a read came from: the kind of origin, and the record number of the commit, 0 for the other kinds. */
struct gevrolen_origin {
    uint32_t kind;
    uint32_t record;
};

/* A history file: where its records stand in the buffer, how many bytes they take, and how many records, sites and items it has. */
struct gevrolen_file {
    size_t start;
    size_t length;
    size_t records;
    size_t sites;
    size_t items;
};

/* A record of a history: the site, its timestamp, and the operations, the first `count`, a read with the value that it gave; the rest are 0. */
struct gevrolen_record {
    uint32_t site;
    uint32_t count;
    struct gevrolen_stamp stamp;
    struct gevrolen_operation operations[GEVROLEN_OPERATIONS];
};

/* Where two timestamps part: 1 and 0 where their epochs differ; else 0, and how many leading tuples are the same in both, site and count, up to the first that differ. */
struct gevrolen_compared {
    uint32_t epochs_differ;
    uint32_t shared;
};

/* How far many lines have come: the bytes of the text that are answered, and the bytes of the answers. */
struct gevrolen_progress {
    size_t used;
    size_t filled;
};

/* ---- which library this is */

/* The library's version, and the words of its states. */
GEVROLEN_LOOK uint32_t gevrolen_version(void);
GEVROLEN_LOOK size_t gevrolen_words(void);

/* Whether the library is of this header's version but for mended faults: 1 or 0. Where it is not, make no other call. */
GEVROLEN_LOOK static inline int gevrolen_fits(void)
{
    return gevrolen_version() / 100 == GEVROLEN_VERSION / 100 && gevrolen_words() == GEVROLEN_WORDS;
}

/* ---- set-up and steps: each changes the state where it is accepted */

/* Starts a group anew, whatever the words were: for each item its primary site and its mask of copies, in which the bit of weight 2 to the power k names site k.
   A copy may be at any site but the primary. 1 to 5: the items are taken in turn for 3 and 4, and where all pass, 5 says that the lines form a cycle. Both lists have as
   many elements as there are items; other lengths are refused by 2. Lines and history are empty then, every value and base value 0, and no record counts as removed. */
GEVROLEN_LOOK uint32_t gevrolen_set_up(
    uint32_t state[GEVROLEN_WORDS],
    uint32_t sites,
    uint32_t items,
    const uint32_t *primaries, size_t primary_count,
    const uint8_t *masks, size_t mask_count);

/* A commit of 1 to 8 operations at a site, in list order: a read that follows a write of the same item gives the value written, the latest where there are more; every
   other read gives the value from before the commit. 6 to 14. */
GEVROLEN_LOOK uint32_t gevrolen_commit(
    uint32_t state[GEVROLEN_WORDS],
    uint32_t site,
    const struct gevrolen_operation *operations, size_t count,
    struct gevrolen_committed *answer);

/* The same with kinds, items and values as separate lists, which are refused by 8 where their lengths differ. */
GEVROLEN_LOOK uint32_t gevrolen_commit_lists(
    uint32_t state[GEVROLEN_WORDS],
    uint32_t site,
    const uint8_t *kinds, size_t kind_count,
    const uint32_t *items, size_t item_count,
    const int32_t *values, size_t value_count,
    struct gevrolen_committed *answer);

/* A commit without operations: it raises the site's count and goes to every child. 6, 7, 13, 14. */
GEVROLEN_LOOK uint32_t gevrolen_dummy(uint32_t state[GEVROLEN_WORDS], uint32_t site, struct gevrolen_stamp *stamp);

/* A higher epoch for a site without parents. 6, 7, 15, 16. */
GEVROLEN_LOOK uint32_t gevrolen_epoch(uint32_t state[GEVROLEN_WORDS], uint32_t site, uint32_t number);

/* The oldest message on the way from parent to child arrives. 6, 7, 17, 18. */
GEVROLEN_LOOK uint32_t gevrolen_deliver(uint32_t state[GEVROLEN_WORDS], uint32_t parent, uint32_t child);

/* The site takes the earliest of the oldest arrived messages of its parents and applies it. 6, 7, 19, 20. */
GEVROLEN_LOOK uint32_t gevrolen_schedule(uint32_t state[GEVROLEN_WORDS], uint32_t site, struct gevrolen_scheduled *answer);

/* Folds every commit that is not later than the earliest of all sites' timestamps into the base values, by rising timestamp, equal ones in the order made, and removes its
   record; and how many it removed, which may be none. Their room is free then. The records kept are numbered from 0, in the order made. 6, also where a message on a line
   names a commit to be folded, to which no steps from a set-up lead. */
GEVROLEN_LOOK uint32_t gevrolen_collect(uint32_t state[GEVROLEN_WORDS], uint32_t *removed);

/* A round, in which every site hears: every site without parents gets an epoch one above the greatest at any site; then, in the order of places, all lines into a site are
   delivered, it schedules until refused, and it sends a dummy; and the new epoch. In a state that calls led to from a set-up every commit made before it is applied at all its
   copies then, and a gevrolen_collect straight after it removes all of them. 6; 13 where a line holds 16 messages, 14 where a site's own count is at its largest, 16 where the
   greatest epoch is 4,294,967,295. */
GEVROLEN_LOOK uint32_t gevrolen_round(uint32_t state[GEVROLEN_WORDS], uint32_t *epoch);

/* ---- calls that only look */

/* The items that messages on the lines into a site write, arrived or not, and that it has a copy of: by the timestamp of the earliest of the messages that write the item,
   those of equal timestamps by number. 6, 7. */
GEVROLEN_LOOK uint32_t gevrolen_waiting(const uint32_t state[GEVROLEN_WORDS], uint32_t site, struct gevrolen_report *answer);

/* A site's table. 6, 7. */
GEVROLEN_LOOK uint32_t gevrolen_table(const uint32_t state[GEVROLEN_WORDS], uint32_t site, struct gevrolen_table *answer);

/* A site's timestamp. 6, 7. */
GEVROLEN_LOOK uint32_t gevrolen_stamp(const uint32_t state[GEVROLEN_WORDS], uint32_t site, struct gevrolen_stamp *answer);

/* The line from parent to child. 6, 7, 17. */
GEVROLEN_LOOK uint32_t gevrolen_line(const uint32_t state[GEVROLEN_WORDS], uint32_t parent, uint32_t child, struct gevrolen_line *answer);

/* Where the value of a read in the history came from: its own commit where it follows a write of the item there; else the last commit before that in timestamp order that
   writes the item, equal timestamps in the order made. Where the history has none it is the base value if a collect has removed a record since set-up, else the start
   value. The read is named by its commit's record number and the number of the operation in it, both from 0. 6, 26. */
GEVROLEN_LOOK uint32_t gevrolen_origin(const uint32_t state[GEVROLEN_WORDS], uint32_t record, uint32_t operation, struct gevrolen_origin *answer);

/* The places of the sites, by which the state's timestamps are compared. 6. */
GEVROLEN_LOOK uint32_t gevrolen_places(const uint32_t state[GEVROLEN_WORDS], uint8_t places[GEVROLEN_SITES]);

/* The base values, and whether a collect has removed a record since set-up; where none has, they are 0. 6. */
GEVROLEN_LOOK uint32_t gevrolen_base(const uint32_t state[GEVROLEN_WORDS], struct gevrolen_base *answer);

/* Two timestamps by a table of places: -1 where the first is earlier, 0 where they are equal, 1 where it is later; and where they part. The table is that of the network
   (gevrolen_places) or of the file (gevrolen_read) from which the timestamps come; by another they may compare otherwise. Whatever structs and table hold is compared: tuples
   behind `length` are none, a `length` above eight is all eight, a number above seven is its own place, and of two sites at one place, as no order of sites has them, the
   higher-numbered is earlier. */
GEVROLEN_LOOK int32_t gevrolen_compare(
    const struct gevrolen_stamp *first,
    const struct gevrolen_stamp *second,
    const uint8_t places[GEVROLEN_SITES],
    struct gevrolen_compared *answer);

/* ---- the history file */

/* The history as a file at the front of a buffer, whose rest stays as it was; and the file's length. 6, 25. */
GEVROLEN_LOOK uint32_t gevrolen_export(const uint32_t state[GEVROLEN_WORDS], uint8_t *buffer, size_t room, size_t *length);

/* Checks the file that ends a buffer; and the places of the network's sites, and its base. 21, 22, 23. */
GEVROLEN_LOOK uint32_t gevrolen_read(
    const uint8_t *buffer, size_t length,
    struct gevrolen_file *answer,
    uint8_t places[GEVROLEN_SITES],
    struct gevrolen_base *base);

/* The record of a number, from 0, of the file that ends a buffer; the whole file is checked each time. 21, 22, 23, 24. */
GEVROLEN_LOOK uint32_t gevrolen_record(const uint8_t *buffer, size_t length, size_t number, struct gevrolen_record *answer);

/* The record that starts at a byte of the part that gevrolen_read found (buffer + start, length), in a group of that many sites and items and those places; and the byte
   where the next one starts. It begins at byte 0; 24 says that the part is at its end, 23 that no valid record starts there. By places that are not an order of a group of
   so many sites, a tuple may name a site outside the group; those that gevrolen_read answers for an accepted file are one, of its sites. */
GEVROLEN_LOOK uint32_t gevrolen_record_from(
    const uint8_t *part, size_t length,
    size_t from,
    uint32_t sites,
    uint32_t items,
    const uint8_t places[GEVROLEN_SITES],
    struct gevrolen_record *answer,
    size_t *next);

/* ---- scripts */

/* One line of a script, without its newline: the length of its answer, which stands at the front of the buffer, without newline. A line that is no call is answered `?`. */
GEVROLEN_LOOK size_t gevrolen_script(uint32_t state[GEVROLEN_WORDS], const uint8_t *text, size_t length, uint8_t answer[GEVROLEN_ANSWER]);

/* All lines of a text that end in a newline, one after another: each answer with a newline behind it, from the front of the buffer on. It stops before a line where fewer than
   GEVROLEN_ANSWER_ROOM bytes are left: go on with the text from `used` on. What stands behind the last newline is not used. */
void gevrolen_run(
    uint32_t state[GEVROLEN_WORDS],
    const uint8_t *text, size_t length,
    uint8_t *answers, size_t room,
    struct gevrolen_progress *progress);

/* ---- in words */

/* The cause behind a number and what to do about it, in a sentence; NULL for a number that no call answers. */
static inline const char *gevrolen_explain(uint32_t number)
{
    static const char *const sentences[] = {
        "It was accepted.",
        "The sites are not 1 to 8: set up fewer, or another group for the rest.",
        "The items are not 1 to 64, or a list has another length: give a primary and a mask for each item.",
        "An item's primary is no site: correct it.",
        "An item's mask names a missing site or the primary itself: clear that bit.",
        "The lines form a cycle: leave out a copy or move a primary, so that no site hears of itself.",
        "The state is not well shaped, or was never set up: set it up, or load a saved one.",
        "There is no such site: correct its number.",
        "The operations are not 1 to 8, or their lists differ in length: split the commit, or mend the lists.",
        "An operation has an unknown kind or item: correct it.",
        "A read of an item that the site neither owns nor copies: read it where it is held.",
        "A write of an item that another site owns: commit it there.",
        "The history holds 256 commits: export it, run a round, then collect.",
        "A line that would get a message holds 16: deliver and schedule at the child, then try again.",
        "The site's own count, in a round any site's, is 4,294,967,295: export the history, then set up again.",
        "The site has parents: raise the epoch at the sites without; it comes with their messages.",
        "The new epoch is not above the present: take a higher one; where a round finds none above 4,294,967,295, export the history, then set up again.",
        "There is no such line: correct the two sites.",
        "Nothing is on the way: every message on the line has arrived.",
        "The site has no parents: it never schedules.",
        "A parent has nothing arrived: deliver from it, and where it has sent nothing let it send a dummy.",
        "The bytes are under 16 or lack the mark: they do not end with a history file, or it is cut off at its end.",
        "The distance is under 16 or above the length: the file is cut off or damaged.",
        "The part is no valid file: it is damaged, take another copy.",
        "There is no such record: the file has fewer.",
        "The buffer is too short for the file: lend a longer one.",
        "There is no such commit or operation in the history, or it is no read: correct the numbers.",
    };
    return number < sizeof sentences / sizeof sentences[0] ? sentences[number] : NULL;
}

/* ---- saved states: the mark, the version, the number of words, the words, and the CRC-32 of all that; a number has four bytes, the lowest first. The other bindings have the same */

#define GEVROLEN_SAVED_MARK "GEVSTATE"
#define GEVROLEN_SAVED_LEAD 16

/* The CRC-32. */
static inline uint32_t gevrolen_saved_sum(const uint8_t *bytes, size_t length)
{
    static const uint32_t of_four_bits[] = {
        0x00000000, 0x1DB71064, 0x3B6E20C8, 0x26D930AC, 0x76DC4190, 0x6B6B51F4, 0x4DB26158, 0x5005713C,
        0xEDB88320, 0xF00F9344, 0xD6D6A3E8, 0xCB61B38C, 0x9B64C2B0, 0x86D3D2D4, 0xA00AE278, 0xBDBDF21C,
    };
    uint32_t sum = 0xFFFFFFFF;
    for (size_t k = 0; k < length; k++) {
        sum ^= bytes[k];
        sum = sum >> 4 ^ of_four_bits[sum & 15];
        sum = sum >> 4 ^ of_four_bits[sum & 15];
    }
    return ~sum;
}

/* Lays mark, version, number and sum around the words that stand in place. */
static inline void gevrolen_saved_close(uint8_t saved[GEVROLEN_SAVED_BYTES])
{
    const uint32_t lead[] = {GEVROLEN_VERSION, GEVROLEN_WORDS};
    memcpy(saved, GEVROLEN_SAVED_MARK, 8);
    memcpy(saved + 8, lead, sizeof lead);
    const uint32_t sum = gevrolen_saved_sum(saved, GEVROLEN_SAVED_BYTES - 4);
    memcpy(saved + GEVROLEN_SAVED_BYTES - 4, &sum, 4);
}

static inline int gevrolen_saved_marked(const uint8_t *saved, size_t length)
{
    return length >= 8 && memcmp(saved, GEVROLEN_SAVED_MARK, 8) == 0;
}

/* Why bytes are no saved state of this version: mark, length and sum, and then the version are looked at. 0 where they are one. */
GEVROLEN_LOOK static inline uint32_t gevrolen_saved_cause(const uint8_t *saved, size_t length)
{
    uint32_t lead[2], sum;
    if (length < GEVROLEN_SAVED_LEAD + 4 || !gevrolen_saved_marked(saved, length))
        return GEVROLEN_LOAD_NOT_SAVED;
    memcpy(lead, saved + 8, sizeof lead);
    memcpy(&sum, saved + length - 4, 4);
    if (length != GEVROLEN_SAVED_LEAD + 4 * (size_t)lead[1] + 4 || sum != gevrolen_saved_sum(saved, length - 4))
        return GEVROLEN_LOAD_DAMAGED;
    return lead[0] / 100 == GEVROLEN_VERSION / 100 && lead[1] == GEVROLEN_WORDS ? GEVROLEN_ACCEPTED : GEVROLEN_LOAD_OTHER_VERSION;
}

/* A state with its version and a sum, to be written to a file. */
static inline void gevrolen_save(const uint32_t state[GEVROLEN_WORDS], uint8_t saved[GEVROLEN_SAVED_BYTES])
{
    memcpy(saved + GEVROLEN_SAVED_LEAD, state, 4 * GEVROLEN_WORDS);
    gevrolen_saved_close(saved);
}

/* The state that gevrolen_save saved, here or by another binding. 1 to 3 of the causes for a load: no word of the state has changed then. */
GEVROLEN_LOOK static inline uint32_t gevrolen_load(uint32_t state[GEVROLEN_WORDS], const uint8_t *saved, size_t length)
{
    const uint32_t cause = gevrolen_saved_cause(saved, length);
    if (cause == GEVROLEN_ACCEPTED)
        memcpy(state, saved + GEVROLEN_SAVED_LEAD, 4 * GEVROLEN_WORDS);
    return cause;
}

/* A state that this version or one before it saved, as this version saves it: what gevrolen_save gave, the bare words of version 0.7, or those from before a state had a
   base, which gets zeros. 1 to 4 of the causes for a load: no byte of the answer has changed then. */
GEVROLEN_LOOK static inline uint32_t gevrolen_upgrade(const uint8_t *old, size_t length, uint8_t saved[GEVROLEN_SAVED_BYTES])
{
    /* who changes what the words mean adds the step from the version before here, and in the other bindings */
    const int marked = gevrolen_saved_marked(old, length);
    const uint32_t cause = marked ? gevrolen_saved_cause(old, length)
        : length == 4 * GEVROLEN_WORDS || length == 4 * (GEVROLEN_WORDS - 1 - GEVROLEN_ITEMS) ? GEVROLEN_ACCEPTED : GEVROLEN_LOAD_NO_VERSION;
    if (cause != GEVROLEN_ACCEPTED)
        return cause;
    const size_t held = marked ? 4 * GEVROLEN_WORDS : length;
    memcpy(saved + GEVROLEN_SAVED_LEAD, old + (marked ? GEVROLEN_SAVED_LEAD : 0), held);
    memset(saved + GEVROLEN_SAVED_LEAD + held, 0, 4 * GEVROLEN_WORDS - held);
    gevrolen_saved_close(saved);
    return GEVROLEN_ACCEPTED;
}

/* The cause for which bytes were not loaded, in a sentence that names both versions where they differ. */
static inline const char *gevrolen_explain_load(uint32_t cause, const uint8_t *saved, size_t length, char text[GEVROLEN_SENTENCE])
{
    const unsigned here = GEVROLEN_VERSION;
    uint32_t there = 0;
    if (length >= GEVROLEN_SAVED_LEAD)
        memcpy(&there, saved + 8, 4);
    switch (cause) {
    case GEVROLEN_ACCEPTED: return "It was accepted.";
    case GEVROLEN_LOAD_NOT_SAVED: return "The bytes are no saved state: take those that save gave, or bring older ones over by upgrade.";
    case GEVROLEN_LOAD_DAMAGED: return "The saved state is damaged or cut off: take the one before it.";
    case GEVROLEN_LOAD_OTHER_VERSION:
        snprintf(text, GEVROLEN_SENTENCE, "The state was saved by version %u.%u.%u, and this is version %u.%u.%u, which cannot bring it over: take the library of that version.",
            (unsigned)there / 10000, (unsigned)there / 100 % 100, (unsigned)there % 100, here / 10000, here / 100 % 100, here % 100);
        return text;
    case GEVROLEN_LOAD_NO_VERSION:
        snprintf(text, GEVROLEN_SENTENCE, "The bytes are no state of version %u.%u.%u or one before it: they are damaged, or of a later version.",
            here / 10000, here / 100 % 100, here % 100);
        return text;
    default: return NULL;
    }
}

#ifdef __cplusplus
}
#endif

#endif
