/* The X2 user plane of LTE dual connectivity (3GPP TS 36.425) for C and C++: X2-U frames read and written, and the secondary's loss
 * keeper (SeNB). Every function of the archive is proved, and none asks more of its arguments than C does.
 *
 *     #include "x2u.h"
 *
 *     int main(void)
 *     {
 *         static x2u_keeper k = X2U_KEEPER_INIT;              // a closed end, until it is opened
 *         uint8_t frame[X2U_MOST_OCTETS];
 *         x2u_fields said;
 *         if (x2u_open(&k, 12, 0, 0) < 0) return 1;           // L, the first X2-U number, the first PDCP number
 *         if (x2u_arrive(&k, 1, 1) < 0) return 1;             // number 1 came with PDCP number 1, and number 0 didn't come
 *         uint32_t mark = 1;                                  // the highest number accepted as the host's gap timer starts
 *         if (x2u_expire(&k, mark) != 1) return 1;            // the timer ran out: 1 number before the mark is lost
 *         if (x2u_confirm(&k, 1) < 0) return 1;               // the handset has number 1
 *         if (x2u_anything(&k) != 1) return 1;                // there is something to say: a number is lost
 *         int64_t length = x2u_status(&k, 65536, 4096, 0, frame, sizeof frame);
 *         if (length < 0) return 1;                           // minus a refusal; else so many octets go to the master
 *         if (x2u_read(frame, (size_t)length, &said) != 1) return 1;
 *         return said.highest == 1 && said.ranges == 1 ? 0 : 1;
 *     }
 *
 *     gcc -Iinclude main.c "$(scripts/archive.sh)" && ./a.out
 *
 * Answers: from 0 on the call's own; below 0 minus the number of a refusal, and then nothing lent has changed.
 * Memory: what a pointer leads to is the caller's, as many elements as said, aligned as C asks, and no two that one call gets overlap. A
 * pointer whose length is 0 may be null. Nothing else is asked: octets of any content and length, and a keeper and a cursor of any content,
 * get an answer.
 * Threads: nothing is kept between calls, so calls on different memory may run at the same time; two on one keeper may not.
 * Not here yet: the master's end (MeNB), and GTP-U around a frame. Sending and timers are the host's. examples/secondary.c has more calls,
 * and CHANGELOG.md says what changed from version to version. */
#ifndef X2U_H
#define X2U_H

#include <stddef.h>
#include <stdint.h>

#define X2U_VERSION 30000 /* 3.0.0, see CHANGELOG.md */

#if SIZE_MAX != 0xffffffffffffffff
#error "x2u.h: size_t is to be 64 bits wide: there is no archive for x32 and for 32-bit processors"
#endif

#ifdef __cplusplus
extern "C" {
#endif

/* ---- refusals: the answer is minus one of these */
enum {
    X2U_LENGTH = 1,       /* length below 6, above 1,018, or not 4k - 2 */
    X2U_RESERVED = 2,     /* type 4 to 15 */
    X2U_FIXED_PART = 3,   /* the frame ends before the last fixed field */
    X2U_HIGHEST = 4,      /* highest PDCP number above its type's maximum */
    X2U_COUNT = 5,        /* count 0 or above 162 */
    X2U_LIST = 6,         /* the frame ends inside the list */
    X2U_PDCP_LENGTH = 7,  /* L is not 12, 15 or 18 */
    X2U_CLOSED = 9,       /* this end is closed, or was never opened */
    X2U_NUMBER = 10,      /* an X2-U number is M or more, or a PDCP number 2^L or more */
    X2U_LATE = 11,        /* forward from base to the number is more than M/2 */
    X2U_AGAIN = 12,       /* the number already has a record */
    X2U_SPAN = 13,        /* floor to base and base to the arrival are M/2 or more */
    X2U_RUNS = 14,        /* more than 256 runs would be listed */
    X2U_RECORDS = 15,     /* 512 records are held */
    X2U_NO_RECORD = 16,   /* no record of that number, or not before base, or already confirmed */
    X2U_NO_GAP = 17,      /* no open number before the mark */
    X2U_OPPOSITE = 18,    /* forward from base to the number is exactly M/2 */
    X2U_MARK = 19,        /* a mark less than M/2 forward from base and beyond the highest accepted, or so placed when nothing at or past
                           * base is accepted */
    X2U_ROOM = 20,        /* buffer shorter than the frame */
    X2U_FINAL_RUNS = 22   /* Final asked while listed runs exceed 162 */
};

/* ---- frames */

enum {
    X2U_MOST_OCTETS = 1018, /* no frame is longer */
    X2U_MOST_RANGES = 162   /* no status carries more ranges */
};

/* What a frame says. Types 0 and 3 are data, which has a number; types 1 and 2 are a status, which has all the others. What a frame hasn't
 * is 0. */
typedef struct x2u_fields {
    uint32_t number;  /* the X2-U number */
    uint32_t highest; /* the highest PDCP number delivered in sequence */
    uint32_t desired; /* the desired buffer size */
    uint32_t minimum; /* the minimum desired buffer size */
    uint32_t final;   /* Final: 0 or 1 */
    uint32_t ranges;  /* how many ranges of lost numbers */
} x2u_fields;

/* Lost numbers, from start to end. Where the numbers roll over, end is below start. */
typedef struct x2u_range {
    uint32_t start;
    uint32_t end;
} x2u_range;

/* A place between the ranges of a frame. It may be copied. */
typedef struct x2u_cursor {
    uint32_t opaque[3];
} x2u_cursor;

/* The type of a frame, 0 to 3, and what it says. */
int64_t x2u_read(const uint8_t *frame, size_t length, x2u_fields *fields);

/* The same with all ranges of a status in one call: range i is starts[i] to ends[i]. The places behind the last stay as they were. */
int64_t x2u_read_all(const uint8_t *frame, size_t length, x2u_fields *fields, uint32_t starts[X2U_MOST_RANGES],
                     uint32_t ends[X2U_MOST_RANGES]);

/* How many ranges a frame has, which for data is none; the cursor stands before the first. */
int64_t x2u_first_range(const uint8_t *frame, size_t length, x2u_cursor *cursor);

/* 1, with the range and the cursor behind it; or 0 where none is left, and then neither changes. */
int64_t x2u_next_range(const uint8_t *frame, size_t length, x2u_cursor *cursor, x2u_range *range);

/* Writes a data frame at the front of a buffer: how many octets it has. `longer` is 0 for the short form (L 12 or 15), else the long one
 * (L 18). The octets behind it stay as they were. */
int64_t x2u_write_data(uint32_t longer, uint32_t number, uint8_t *buffer, size_t room);

/* The same of a status by its parts: range i is starts[i] to ends[i], as many as there are of both. Use x2u_write_status. */
int64_t x2u_write_status_parts(uint32_t longer, uint32_t final, uint32_t highest, uint32_t desired, uint32_t minimum,
                               const uint32_t *starts, size_t start_count, const uint32_t *ends, size_t end_count, uint8_t *buffer,
                               size_t room);

/* Writes a status: how many octets it has. Of starts and ends as many are read as status->ranges says; status->number isn't looked at,
 * and any final but 0 is Final. */
static inline int64_t x2u_write_status(uint32_t longer, const x2u_fields *status, const uint32_t *starts, const uint32_t *ends,
                                       uint8_t *buffer, size_t room)
{
    return x2u_write_status_parts(longer, status->final, status->highest, status->desired, status->minimum, starts, status->ranges, ends,
                                  status->ranges, buffer, room);
}

/* ---- the keeper as one block, in any memory of the caller's */

enum {
    X2U_MOST_RECORDS = 512, /* records that are held: number, PDCP number and mark each */
    X2U_MOST_RUNS = 256,    /* runs that are listed: start and end each */
    X2U_WORDS = 6           /* words beside them */
};

/* where the parts start in a block, and how many words it has */
enum {
    X2U_AT_NUMBERS = 0,
    X2U_AT_PDCPS = X2U_AT_NUMBERS + X2U_MOST_RECORDS,
    X2U_AT_MARKS = X2U_AT_PDCPS + X2U_MOST_RECORDS,
    X2U_AT_STARTS = X2U_AT_MARKS + X2U_MOST_RECORDS,
    X2U_AT_ENDS = X2U_AT_STARTS + X2U_MOST_RUNS,
    X2U_AT_WORDS = X2U_AT_ENDS + X2U_MOST_RUNS,
    X2U_KEEPER = X2U_AT_WORDS + X2U_WORDS
};

/* 8,216 octets. It may be copied as a whole, and the copy is an end of its own. */
typedef struct x2u_keeper {
    uint32_t opaque[X2U_KEEPER];
} x2u_keeper;

/* A block that was never opened: every call on it but x2u_open answers -X2U_CLOSED and changes nothing, and a refused open leaves it so.
 * Zeroed memory is such a block, by this initializer, as a static or from calloc. One word of a block says by one value that it is open,
 * and with any other value there it is closed; memory of unknown content may hold that value, as it does where an open keeper was. Clear
 * it before it is used as a block: memset(k, 0, sizeof *k). */
#define X2U_KEEPER_INIT {{0}}

/* Opens the end, whatever the block held: L, the first X2-U number and the first PDCP number. 0. */
static inline int64_t x2u_open(x2u_keeper *k, uint32_t length, uint32_t number, uint32_t pdcp);

/* A packet arrived: how many numbers became lost. A stray copy gets -X2U_LATE, -X2U_OPPOSITE or -X2U_AGAIN. */
static inline int64_t x2u_arrive(x2u_keeper *k, uint32_t number, uint32_t pdcp);

/* The host's gap timer ran out: how many numbers became lost. `mark` is the highest number accepted when that timer started, and each open
 * number before it is lost. The mark itself is spared, open or not, and so is every number after it. Refused in this order: -X2U_CLOSED;
 * -X2U_NUMBER for a mark of M or more; -X2U_MARK for one beyond the highest accepted, or at or past base where nothing there is accepted;
 * -X2U_NO_GAP where no open number is before it, as for a mark behind base; -X2U_RUNS.
 * Take a mark when the timer starts, and drop it when the timer stops: one that was kept while half a circle of numbers went by looks ahead
 * of base again. It gets -X2U_MARK then, until the highest accepted has come round to it, and from there on good packets are given up by it. */
static inline int64_t x2u_expire(x2u_keeper *k, uint32_t mark);

/* A packet was delivered to the handset. 0. */
static inline int64_t x2u_confirm(x2u_keeper *k, uint32_t number);

/* Writes a status frame: how many octets it has, at most X2U_MOST_OCTETS. Any `final` but 0 asks for Final, which closes the end. Where
 * something else than calls changed an open block it may also answer -X2U_HIGHEST or -X2U_NUMBER; else it never does. */
static inline int64_t x2u_status(x2u_keeper *k, uint32_t desired, uint32_t minimum, uint32_t final, uint8_t *buffer, size_t room);

/* Would a status now carry a range or let go of a record? 1 for yes, 0 for no, or -X2U_CLOSED, which is true in an if: write
 * `x2u_anything(&k) > 0`. It changes nothing, and takes the same few instructions whatever the block holds. After 0 a status without Final would have
 * no range, repeat the last highest and leave the end as it is; after 1 two may be needed to say all.
 * It doesn't know the sizes: build a status on 0 too where they have changed, and at the start, since the master has no room before the first.
 * Said is what stands in a frame that was built, sent or not: one that didn't go out isn't said again. */
static inline int64_t x2u_anything(const x2u_keeper *k);

/* ---- the keeper's parts as arrays: the functions that the inline ones call, for a host that lays them in memory itself */

int64_t x2u_keeper_open(uint32_t numbers[X2U_MOST_RECORDS], uint32_t pdcps[X2U_MOST_RECORDS], uint32_t marks[X2U_MOST_RECORDS],
                        uint32_t starts[X2U_MOST_RUNS], uint32_t ends[X2U_MOST_RUNS], uint32_t words[X2U_WORDS],
                        uint32_t length, uint32_t number, uint32_t pdcp);
int64_t x2u_keeper_arrive(uint32_t numbers[X2U_MOST_RECORDS], uint32_t pdcps[X2U_MOST_RECORDS], uint32_t marks[X2U_MOST_RECORDS],
                          uint32_t starts[X2U_MOST_RUNS], uint32_t ends[X2U_MOST_RUNS], uint32_t words[X2U_WORDS],
                          uint32_t number, uint32_t pdcp);
int64_t x2u_keeper_expire(uint32_t numbers[X2U_MOST_RECORDS], uint32_t pdcps[X2U_MOST_RECORDS], uint32_t marks[X2U_MOST_RECORDS],
                          uint32_t starts[X2U_MOST_RUNS], uint32_t ends[X2U_MOST_RUNS], uint32_t words[X2U_WORDS],
                          uint32_t mark);
int64_t x2u_keeper_confirm(uint32_t numbers[X2U_MOST_RECORDS], uint32_t pdcps[X2U_MOST_RECORDS], uint32_t marks[X2U_MOST_RECORDS],
                           uint32_t starts[X2U_MOST_RUNS], uint32_t ends[X2U_MOST_RUNS], uint32_t words[X2U_WORDS],
                           uint32_t number);
int64_t x2u_keeper_status(uint32_t numbers[X2U_MOST_RECORDS], uint32_t pdcps[X2U_MOST_RECORDS], uint32_t marks[X2U_MOST_RECORDS],
                          uint32_t starts[X2U_MOST_RUNS], uint32_t ends[X2U_MOST_RUNS], uint32_t words[X2U_WORDS],
                          uint32_t desired, uint32_t minimum, uint32_t final, uint8_t *buffer, size_t room);
int64_t x2u_keeper_anything(const uint32_t numbers[X2U_MOST_RECORDS], const uint32_t pdcps[X2U_MOST_RECORDS],
                            const uint32_t marks[X2U_MOST_RECORDS], const uint32_t starts[X2U_MOST_RUNS],
                            const uint32_t ends[X2U_MOST_RUNS], const uint32_t words[X2U_WORDS]);

/* the parts of a block, as these functions take them */
#define X2U_PARTS(k) \
    (k)->opaque + X2U_AT_NUMBERS, (k)->opaque + X2U_AT_PDCPS, (k)->opaque + X2U_AT_MARKS, (k)->opaque + X2U_AT_STARTS, \
        (k)->opaque + X2U_AT_ENDS, (k)->opaque + X2U_AT_WORDS

static inline int64_t x2u_open(x2u_keeper *k, uint32_t length, uint32_t number, uint32_t pdcp)
{
    return x2u_keeper_open(X2U_PARTS(k), length, number, pdcp);
}

static inline int64_t x2u_arrive(x2u_keeper *k, uint32_t number, uint32_t pdcp)
{
    return x2u_keeper_arrive(X2U_PARTS(k), number, pdcp);
}

static inline int64_t x2u_expire(x2u_keeper *k, uint32_t mark)
{
    return x2u_keeper_expire(X2U_PARTS(k), mark);
}

static inline int64_t x2u_confirm(x2u_keeper *k, uint32_t number)
{
    return x2u_keeper_confirm(X2U_PARTS(k), number);
}

static inline int64_t x2u_status(x2u_keeper *k, uint32_t desired, uint32_t minimum, uint32_t final, uint8_t *buffer, size_t room)
{
    return x2u_keeper_status(X2U_PARTS(k), desired, minimum, final, buffer, room);
}

static inline int64_t x2u_anything(const x2u_keeper *k)
{
    return x2u_keeper_anything(X2U_PARTS(k));
}

/* The structs are laid as arrays of numbers, which the functions take. Where one were not, a length here would be -1, and not compile. */
extern char x2u_fields_are_6_words[sizeof(x2u_fields) == 6 * sizeof(uint32_t) ? 1 : -1];
extern char x2u_range_is_2_words[sizeof(x2u_range) == 2 * sizeof(uint32_t) ? 1 : -1];
extern char x2u_cursor_is_3_words[sizeof(x2u_cursor) == 3 * sizeof(uint32_t) ? 1 : -1];
extern char x2u_keeper_has_no_gaps[sizeof(x2u_keeper) == X2U_KEEPER * sizeof(uint32_t) ? 1 : -1];

#ifdef __cplusplus
}
#endif

#endif
