/* What no caller should hand over: octets, cursors, flags and keepers of garbage, and buffers of every length. Each call has to
 * answer, and answer what a call may; a refusal has to leave what was lent as it was; an answer may change only what it says. Every
 * array ends where memory that can't be touched begins, so a read or a write past an end stops the program.
 *
 *     hostile [SEED]      the last line is the seed; the exit status is 0 if nothing was wrong */
#define _DEFAULT_SOURCE
#include <stdio.h>
#include <stdlib.h>
#include <string.h>
#include <sys/mman.h>
#include <unistd.h>

#include "x2u.h"

static uint64_t seed = 20250101;
static uint64_t state;

static uint32_t random_word(void)
{
    state ^= state << 13;
    state ^= state >> 7;
    state ^= state << 17;
    return (uint32_t)(state >> 16);
}

/* Often a small number, or one near a limit of the protocol. */
static uint32_t odd_word(void)
{
    static const uint32_t edges[] = {0, 1, 12, 15, 18, 162, 163, 255, 256, 511, 512, 4095, 32767, 32768, 65534, 65535, 65536,
                                     262143, 8388607, 8388608, 16777215, 16777216, 0x7fffffff, 0x80000000, 0xffffffff};
    uint32_t r = random_word();
    switch (r % 4) {
    case 0: return edges[random_word() % (sizeof edges / sizeof *edges)];
    case 1: return random_word() % 600;
    case 2: return random_word() % 65536;
    default: return random_word();
    }
}

/* `size` octets that end where memory can't be touched. */
static void *guarded(size_t size)
{
    size_t page = (size_t)sysconf(_SC_PAGESIZE), pages = (size + page - 1) / page;
    uint8_t *p = mmap(NULL, (pages + 2) * page, PROT_READ | PROT_WRITE, MAP_PRIVATE | MAP_ANONYMOUS, -1, 0);
    if (p == MAP_FAILED) {
        perror("mmap");
        exit(2);
    }
    mprotect(p, page, PROT_NONE);
    mprotect(p + (pages + 1) * page, page, PROT_NONE);
    return p + (pages + 1) * page - size;
}

/* What stands in front of a lent struct. */
static const uint32_t fence[4] = {0xfe9ce001, 0xfe9ce002, 0xfe9ce003, 0xfe9ce004};

/* The same for a struct, with words in front of it that no call may change. */
static void *fenced(size_t size)
{
    uint8_t *p = guarded(size);
    memcpy(p - sizeof fence, fence, sizeof fence);
    return p;
}

static int holds(const void *p)
{
    return memcmp((const uint8_t *)p - sizeof fence, fence, sizeof fence) == 0;
}

/* Words of any content. */
static void fill(void *p, size_t size, uint32_t word(void))
{
    for (size_t at = 0; at < size; at += sizeof(uint32_t)) {
        uint32_t w = word();
        memcpy((uint8_t *)p + at, &w, sizeof w);
    }
}

static int wrong;

/* Counts what a part of the test tried, and says the first thing that was wrong in it. */
struct part {
    const char *name;
    unsigned long tried;
    unsigned long wrong;
};

static void must(struct part *p, int right, const char *what)
{
    p->tried++;
    if (right) return;
    if (p->wrong++ == 0) printf("      %s: %s\n", p->name, what);
}

static void end(struct part *p)
{
    printf("%s  %s: %lu checks, %lu wrong\n", p->wrong ? "FAIL" : "PASS", p->name, p->tried, p->wrong);
    fflush(stdout);
    if (p->wrong) wrong = 1;
}

/* Whether an answer below 0 is one of these refusals; the list ends in 0. */
static int among(int64_t answer, const int *refusals)
{
    for (; *refusals; refusals++)
        if (answer == -*refusals) return 1;
    return 0;
}

static const int of_read[] = {1, 2, 3, 4, 5, 6, 0};
static const int of_data[] = {10, 20, 0};
static const int of_write[] = {4, 5, 10, 20, 0};
static const int of_open[] = {7, 10, 0};
static const int of_arrive[] = {9, 10, 18, 11, 12, 13, 14, 15, 0};
static const int of_expire[] = {9, 10, 19, 17, 14, 0};
static const int of_confirm[] = {9, 10, 16, 0};
static const int of_anything[] = {9, 0};
/* 4 and 10 only in states that no calls reach: a highest or a run of garbage */
static const int of_status[] = {9, 22, 20, 4, 10, 0};

/* Walks a frame's ranges from a cursor of any content. */
static void walk(struct part *p, const uint8_t *frame, size_t length, x2u_cursor *cursor, x2u_range *range)
{
    unsigned steps = 0;
    for (;;) {
        x2u_cursor was = *cursor;
        x2u_range had = *range;
        int64_t r = x2u_next_range(frame, length, cursor, range);
        must(p, r == 0 || r == 1, "a step answers 0 or 1");
        must(p, holds(cursor) && holds(range), "a step writes a cursor and a range alone");
        if (r != 1) {
            must(p, memcmp(&was, cursor, sizeof was) == 0 && memcmp(&had, range, sizeof had) == 0, "no range leaves all as it was");
            return;
        }
        must(p, cursor->opaque[1] <= length && cursor->opaque[1] > was.opaque[1] && cursor->opaque[2] == was.opaque[2] - 1,
             "a step goes on within the frame");
        must(p, range->start < 16777216 && range->end < 16777216, "a range has numbers of 24 bits at most");
        if (++steps > X2U_MOST_OCTETS) {
            must(p, 0, "a walk ends");
            return;
        }
    }
}

/* Reads octets that may be a frame with all their ranges at once, which is to be what the walk gives. */
static void look_at_all(struct part *p, const uint8_t *frame, size_t length)
{
    static x2u_fields *fields;
    static uint32_t *starts, *ends;
    x2u_fields plain;
    x2u_cursor cursor;
    x2u_range range;
    if (!fields) {
        fields = fenced(sizeof *fields);
        starts = guarded(X2U_MOST_RANGES * 4);
        ends = guarded(X2U_MOST_RANGES * 4);
    }
    fill(fields, sizeof *fields, random_word);
    plain = *fields;
    for (uint32_t i = 0; i < X2U_MOST_RANGES; i++) starts[i] = ends[i] = 0xA5000000u + i;
    int64_t kind = x2u_read(frame, length, &plain);
    must(p, x2u_read_all(frame, length, fields, starts, ends) == kind && memcmp(&plain, fields, sizeof plain) == 0, "read and read all agree");
    must(p, holds(fields), "read all writes fields and ranges alone");
    uint32_t count = kind == 1 || kind == 2 ? fields->ranges : 0;
    if (count > 0) x2u_first_range(frame, length, &cursor);
    int same = 1;
    for (uint32_t i = 0; i < count; i++)
        same &= x2u_next_range(frame, length, &cursor, &range) == 1 && starts[i] == range.start && ends[i] == range.end;
    must(p, same, "read all gives the ranges that the walk gives");
    for (uint32_t i = count; i < X2U_MOST_RANGES; i++) same &= starts[i] == 0xA5000000u + i && ends[i] == 0xA5000000u + i;
    must(p, same, "read all leaves the places behind the ranges");
}

/* A number of an octet and of those behind it. */
static uint32_t number_at(const uint8_t *octets, int width)
{
    uint32_t n = 0;
    for (int i = 0; i < width; i++) n = n * 256 + octets[i];
    return n;
}

/* Each field by its name is what stands in the frame's octets, and those that it hasn't are 0. */
static void named(struct part *p, const uint8_t *frame, int64_t kind, const x2u_fields *f)
{
    int width = kind >= 2 ? 3 : 2;
    if (kind == 0 || kind == 3) {
        must(p, f->number == number_at(frame + 1, width), "the number of data");
        must(p, !f->highest && !f->desired && !f->minimum && !f->final && !f->ranges, "data has nothing else");
    } else {
        must(p, f->highest == number_at(frame + 1, width), "the highest of a status");
        must(p, f->desired == number_at(frame + 1 + width, 4) && f->minimum == number_at(frame + 5 + width, 4), "its sizes");
        must(p, f->final == (frame[0] >> 1 & 1u), "its Final");
        must(p, f->ranges == (frame[0] & 1 ? frame[9 + width] : 0), "its count of ranges");
        must(p, f->number == 0, "a status has no number");
    }
}

/* Reads octets that may be a frame, and walks them. */
static void look(struct part *p, const uint8_t *frame, size_t length, x2u_fields *fields, x2u_cursor *cursor, x2u_range *range)
{
    fill(fields, sizeof *fields, random_word);
    fill(cursor, sizeof *cursor, odd_word);
    x2u_fields had = *fields;
    x2u_cursor was = *cursor;
    int64_t kind = x2u_read(frame, length, fields), count = x2u_first_range(frame, length, cursor);
    must(p, kind <= 3 && (kind >= 0 || among(kind, of_read)), "read answers a type or a refusal");
    must(p, holds(fields) && holds(cursor), "read writes the fields alone, and first range the cursor");
    if (kind < 0) {
        must(p, count == kind, "read and first range refuse alike");
        must(p, memcmp(&had, fields, sizeof had) == 0 && memcmp(&was, cursor, sizeof was) == 0, "a refusal leaves all as it was");
    } else {
        named(p, frame, kind, fields);
        must(p, count == (int64_t)fields->ranges && count <= X2U_MOST_RANGES && cursor->opaque[2] == fields->ranges, "the count of ranges");
        walk(p, frame, length, cursor, range);
    }
    look_at_all(p, frame, length);
    fill(cursor, sizeof *cursor, odd_word);
    walk(p, frame, length, cursor, range);
}

/* Octets of every length up to 1,100, random and with a plausible front. */
static void frames(void)
{
    struct part p = {"octets of every length, any cursor", 0, 0};
    x2u_fields *fields = fenced(sizeof *fields);
    x2u_cursor *cursor = fenced(sizeof *cursor);
    x2u_range *range = fenced(sizeof *range);
    uint8_t *most = guarded(1100);
    for (size_t length = 0; length <= 1100; length++) {
        uint8_t *frame = most + 1100 - length;
        for (int turn = 0; turn < 8; turn++) {
            for (size_t i = 0; i < length; i++) frame[i] = (uint8_t)random_word();
            if (length > 13 && turn > 1) {
                frame[0] = (uint8_t)((1 + turn % 2) * 16 + random_word() % 16);
                frame[1] &= 1;
                frame[11 + turn % 2] = (uint8_t)(random_word() % 170);
            }
            look(&p, frame, length, fields, cursor, range);
        }
    }
    look(&p, NULL, 0, fields, cursor, range);
    end(&p);
}

enum { most_room = 1100 };

/* Numbers for a list: of the short form, or of any kind. */
static void numbers(uint32_t *list, size_t count, int any)
{
    for (size_t i = 0; i < count; i++) list[i] = any ? odd_word() : random_word() % 65536;
}

/* What a writer left of a buffer: a frame's octets, or all that was there. */
static void left(struct part *p, int64_t r, const uint8_t *buffer, const uint8_t *was, size_t room)
{
    must(p, r < 0 || memcmp(buffer + r, was + r, room - (size_t)r) == 0, "octets behind a frame stay");
    must(p, r > 0 || memcmp(buffer, was, room) == 0, "a refusal leaves the buffer");
}

/* A status of any fields, with lists of unequal and of null length: by its parts, by its fields, and read again. */
static void status_into(struct part *p, uint32_t form, uint8_t *buffer, size_t room)
{
    static uint32_t *starts, *ends;
    static x2u_fields *said;
    uint8_t was[most_room], one[most_room];
    if (!said) starts = guarded(300 * 4), ends = guarded(300 * 4), said = fenced(sizeof *said);
    size_t n = random_word() % 170, m = random_word() % 170;
    uint32_t *from = n ? starts + 300 - n : NULL, *to = m ? ends + 300 - m : NULL;
    numbers(from, n, room % 8 == 0);
    numbers(to, m, room % 8 == 0);
    x2u_fields s = {odd_word(), odd_word() % 40000, odd_word(), odd_word(), odd_word(), (uint32_t)(n < m ? n : m)};
    memcpy(was, buffer, room);
    int64_t r = x2u_write_status_parts(form, s.final, s.highest, s.desired, s.minimum, from, n, to, m, buffer, room);
    must(p, (r >= 14 && r <= X2U_MOST_OCTETS && r % 4 == 2) || among(r, of_write), "a status has a frame's length, or is refused");
    left(p, r, buffer, was, room);
    must(p, x2u_write_status(form, &s, from, to, one, room) == r, "a status by its fields has the same answer");
    if (r < 0) return;
    must(p, memcmp(one, buffer, (size_t)r) == 0, "and the same octets");
    must(p, x2u_read(buffer, (size_t)r, said) == (form ? 2 : 1) && holds(said), "what was written is a status of its form");
    must(p, said->highest == s.highest && said->desired == s.desired && said->minimum == s.minimum, "with the numbers that were given");
    must(p, said->final == (s.final != 0) && said->ranges == s.ranges && said->number == 0, "and Final, ranges and no number");
}

/* Buffers of every length, flags of any number. */
static void buffers(void)
{
    struct part p = {"buffers of every length, any flag", 0, 0};
    uint8_t *all = guarded(most_room), was[most_room], one[most_room];
    for (size_t room = 0; room <= most_room; room++) {
        uint8_t *buffer = all + most_room - room;
        for (size_t i = 0; i < room; i++) buffer[i] = was[i] = (uint8_t)random_word();
        uint32_t form = odd_word();
        int64_t r = x2u_write_data(form, odd_word(), buffer, room);
        must(&p, r == 6 || among(r, of_data), "a data frame has 6 octets, or is refused");
        left(&p, r, buffer, was, room);
        status_into(&p, form, buffer, room);
        if (room < 6) continue;
        must(&p, x2u_write_data(form ? 1 : 0, 7, one, sizeof one) == 6 && x2u_write_data(form, 7, buffer, room) == 6, "a data frame");
        must(&p, memcmp(one, buffer, 6) == 0, "any flag that isn't 0 is yes");
    }
    must(&p, x2u_write_data(0, 1, NULL, 0) == -X2U_ROOM, "no buffer is too short for data");
    must(&p, x2u_write_status_parts(1, 2, 1, 2, 3, NULL, 0, NULL, 0, NULL, 0) == -X2U_ROOM, "no buffer is too short for a status");
    end(&p);
}

/* Where some words of a keeper stand in a block. */
enum {
    AT_LENGTH = X2U_AT_WORDS,
    AT_BASE,
    AT_REPORTED,
    AT_OPEN,
    AT_RUNS,
    AT_RECORDS
};

/* The one value there that says open. */
enum { OPEN = 0x6f70656e };

/* A call's answer on a keeper, that it is 9 exactly where the keeper wasn't open, and that a refusal changed nothing. */
static void judge(struct part *p, const x2u_keeper *k, const x2u_keeper *was, int64_t r, int64_t most, const int *refusals, const char *what)
{
    must(p, r <= most && (r >= 0 || among(r, refusals)), what);
    must(p, r >= 0 || memcmp(k, was, sizeof *k) == 0, "a refusal leaves the keeper");
    if (among(-X2U_CLOSED, refusals)) must(p, (r == -X2U_CLOSED) == (was->opaque[AT_OPEN] != OPEN), "9 exactly where one word doesn't say open");
}

/* One call of each kind on a keeper of any content. */
static void calls(struct part *p, x2u_keeper *k, uint8_t *all, size_t most)
{
    static x2u_keeper was;
    uint8_t before[X2U_MOST_OCTETS + 8];
    for (int turn = 0; turn < 4; turn++) {
        was = *k;
        judge(p, k, &was, x2u_arrive(k, turn ? odd_word() : k->opaque[AT_BASE], odd_word()), 16777216, of_arrive, "an arrival answers");
        was = *k;
        judge(p, k, &was, x2u_confirm(k, turn % 2 ? odd_word() : k->opaque[X2U_AT_NUMBERS + random_word() % X2U_MOST_RECORDS]), 0, of_confirm, "a confirm answers");
        was = *k;
        judge(p, k, &was, x2u_expire(k, turn % 2 ? odd_word() : k->opaque[X2U_AT_NUMBERS + (k->opaque[AT_RECORDS] - 1) % X2U_MOST_RECORDS]), 16777216, of_expire, "an expiry answers");
        was = *k;
        int64_t asked = x2u_anything(k);
        judge(p, k, &was, asked, 1, of_anything, "whether there is anything to say is answered");
        must(p, memcmp(k, &was, sizeof was) == 0, "and asking changes nothing");
        size_t room = random_word() % 3 ? most : random_word() % (most + 1);
        uint8_t *buffer = all + most - room;
        for (size_t i = 0; i < room; i++) buffer[i] = before[i] = (uint8_t)random_word();
        int64_t r = x2u_status(k, odd_word(), odd_word(), random_word() % 3 ? 0 : odd_word(), room ? buffer : NULL, room);
        judge(p, k, &was, r, X2U_MOST_OCTETS, of_status, "a status answers");
        must(p, r > 0 ? memcmp(buffer + r, before + r, room - (size_t)r) == 0 : memcmp(buffer, before, room) == 0, "only a frame's octets change");
        if (r > 0) {
            x2u_fields fields;
            int64_t kind = x2u_read(buffer, (size_t)r, &fields);
            must(p, kind == 1 || kind == 2, "what a keeper wrote is read as a status");
            uint32_t held = was.opaque[AT_RECORDS] < X2U_MOST_RECORDS ? was.opaque[AT_RECORDS] : X2U_MOST_RECORDS;
            must(p, asked == (fields.ranges > 0 || k->opaque[AT_RECORDS] < held), "it had to say what was answered");
        }
    }
}

/* A block that no open succeeded on: 9 from every call but open, in zeros and in garbage, and it stays as it is, through refused opens too. */
static void unopened(void)
{
    struct part p = {"blocks never opened", 0, 0};
    static const uint32_t near[] = {0, 1, OPEN - 1, OPEN + 1, 0x6e65706f, 0xffffffff};
    enum { most = X2U_MOST_OCTETS + 8 };
    x2u_keeper *k = fenced(sizeof *k);
    static const x2u_keeper zeros = X2U_KEEPER_INIT;
    static x2u_keeper was;
    uint8_t *all = guarded(most);
    for (int round = 0; round < 1200; round++) {
        *k = zeros;
        if (round % 3) fill(k, sizeof *k, round % 3 == 1 ? random_word : odd_word);
        if (round % 3 && round % 2) k->opaque[AT_OPEN] = near[random_word() % (sizeof near / sizeof *near)];
        if (k->opaque[AT_OPEN] == OPEN) k->opaque[AT_OPEN]++;
        was = *k;
        calls(&p, k, all, most);
        must(&p, x2u_open(k, 13, 0, 0) == -X2U_PDCP_LENGTH && x2u_open(k, 12, 65536, 0) == -X2U_NUMBER, "a refused open");
        must(&p, x2u_open(k, 15, 0, 32768) == -X2U_NUMBER && x2u_arrive(k, 0, 0) == -X2U_CLOSED, "leaves it closed");
        must(&p, memcmp(k, &was, sizeof was) == 0 && holds(k), "and as it was");
        must(&p, x2u_open(k, 12, 0, 0) == 0 && x2u_arrive(k, 0, 0) == 0 && holds(k), "an open opens it");
        must(&p, x2u_status(k, 0, 0, 1, all, most) == 14 && x2u_arrive(k, 1, 1) == -X2U_CLOSED, "and Final closes it");
    }
    end(&p);
}

/* Keepers of garbage: all words random, some said to be open; or plausible words over arrays of garbage; or an opened one with a word
 * spoilt. */
static void keepers(void)
{
    struct part p = {"keepers of garbage", 0, 0};
    enum { most = X2U_MOST_OCTETS + 8 };
    x2u_keeper *k = guarded(sizeof *k);
    static x2u_keeper was;
    uint8_t *all = guarded(most);
    for (int round = 0; round < 6000; round++) {
        fill(k, sizeof *k, round % 3 ? odd_word : random_word);
        if (round % 3 == 0 && round % 2) k->opaque[AT_OPEN] = OPEN;
        if (round % 3 == 1) {
            k->opaque[AT_LENGTH] = round % 2 ? 12 : 18;
            k->opaque[AT_OPEN] = OPEN;
            k->opaque[AT_RUNS] %= 300;
            k->opaque[AT_RECORDS] %= 600;
        }
        if (round % 3 == 2) {
            was = *k;
            judge(&p, k, &was, x2u_open(k, odd_word(), odd_word(), odd_word()), 0, of_open, "an open answers");
            x2u_open(k, 12, odd_word() % 65536, odd_word() % 4096);
            for (uint32_t n = 0; n < 20; n++) x2u_arrive(k, (k->opaque[AT_BASE] + 2 * n) % 65536, n);
            k->opaque[random_word() % 3 ? X2U_AT_WORDS + random_word() % X2U_WORDS : random_word() % X2U_AT_WORDS] = odd_word();
        }
        calls(&p, k, all, most);
    }
    end(&p);
}

/* A status: how many runs it carries, from the n-th of every second number on, and its highest. */
static void carries(struct part *p, x2u_keeper *k, uint32_t first, uint32_t n, uint32_t runs, uint32_t highest)
{
    uint8_t *frame = guarded(X2U_MOST_OCTETS);
    x2u_fields fields;
    x2u_cursor cursor;
    x2u_range range;
    int64_t length = x2u_status(k, 1, 2, 0, frame, X2U_MOST_OCTETS);
    must(p, length > 0 && x2u_read(frame, (size_t)length, &fields) == 1 && fields.highest == highest, "the highest of a status");
    must(p, x2u_first_range(frame, (size_t)length, &cursor) == runs, "the runs of a status");
    for (uint32_t i = n; i < n + runs; i++) {
        uint32_t lost = (first + 2 * i) % 65536;
        must(p, x2u_next_range(frame, (size_t)length, &cursor, &range) == 1 && range.start == lost && range.end == lost, "a run");
    }
}

/* Both stores filled to the last place: parts of a block that overlapped would spoil each other. The first and the last record, and
 * the first run, are looked at once all the others are written. */
static void full(void)
{
    struct part p = {"full stores", 0, 0};
    enum { first = 65300, f = 2000 };
    x2u_keeper *k = guarded(sizeof *k);
    fill(k, sizeof *k, random_word);
    must(&p, x2u_open(k, 12, first, f) == 0, "open");
    for (uint32_t n = 1; n <= 511; n += 2) must(&p, x2u_arrive(k, (first + n) % 65536, f + n) == (n > 256), "every second number");
    must(&p, x2u_expire(k, 65536) == -X2U_NUMBER && x2u_expire(k, (first + 512) % 65536) == -X2U_MARK, "a mark that never came");
    must(&p, x2u_expire(k, (first + 255) % 65536) == -X2U_NO_GAP && x2u_expire(k, (first + 256) % 65536) == -X2U_NO_GAP, "a mark behind base, and base");
    must(&p, x2u_expire(k, (first + 258) % 65536) == 1, "an open mark is spared");
    must(&p, x2u_expire(k, (first + 511) % 65536) == 127, "the rest is lost");
    must(&p, x2u_arrive(k, (first + 513) % 65536, f + 513) == 0 && x2u_expire(k, (first + 513) % 65536) == -X2U_RUNS, "256 runs are listed");
    for (uint32_t n = 512; n <= 767; n++) must(&p, x2u_arrive(k, (first + n) % 65536, f + n) == (n == 513 ? -X2U_LATE : 0), "then each number");
    must(&p, x2u_arrive(k, (first + 768) % 65536, f + 768) == -X2U_RECORDS, "512 records are held");
    must(&p, x2u_arrive(k, (first + 768 + 32768) % 65536, 4096) == -X2U_NUMBER, "opposite base, past the PDCP circle");
    must(&p, x2u_arrive(k, (first + 768 + 32768) % 65536, f) == -X2U_OPPOSITE, "opposite base");
    must(&p, x2u_arrive(k, (first + 768 + 32769) % 65536, f) == -X2U_LATE, "behind base");
    must(&p, x2u_confirm(k, (first + 767) % 65536) == 0 && x2u_confirm(k, (first + 1) % 65536) == 0, "confirm the last and the first");
    carries(&p, k, first, 0, X2U_MOST_RANGES, f + 1);
    must(&p, x2u_anything(k) == 1, "94 runs were left out");
    for (uint32_t n = 766; n >= 3; n -= n >= 512 ? 1 : 2) must(&p, x2u_confirm(k, (first + n) % 65536) == 0, "confirm the others");
    carries(&p, k, first, X2U_MOST_RANGES, X2U_MOST_RUNS - X2U_MOST_RANGES, f + 767);
    must(&p, x2u_anything(k) == 0, "all is said");
    end(&p);
}

int main(int count, char **words)
{
    if (count > 1) seed = strtoull(words[1], NULL, 10);
    state = seed ? seed : 1;
    frames();
    buffers();
    unopened();
    keepers();
    full();
    printf("seed %llu\n", (unsigned long long)seed);
    return wrong;
}
