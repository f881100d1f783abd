/* The secondary's end from C: document 01's bench sheet as requests One and Six left it, a block that was never opened, a host's gap timer, and
 * a host that asks before it builds a status, played through x2u.h.
 * Each line says what was done and what came of it; the exit status is 0 if every outcome is the one wanted.
 *
 *     gcc -Iinclude examples/secondary.c "$(scripts/archive.sh)" -o secondary && ./secondary */
#include <stdio.h>
#include <string.h>

#include "x2u.h"

static int wrong;

/* An answer, and the one wanted. */
static void outcome(const char *what, int64_t got, int64_t wanted)
{
    if (got == wanted) {
        printf("PASS  %s: %lld\n", what, (long long)got);
    } else {
        printf("FAIL  %s: %lld, wanted %lld\n", what, (long long)got, (long long)wanted);
        wrong = 1;
    }
}

/* Octets, and those wanted, in hexadecimal. */
static void octets(const char *what, const uint8_t *frame, int64_t length, const char *wanted)
{
    char text[2 * X2U_MOST_OCTETS + 1] = "";
    for (int64_t i = 0; i < length; i++) sprintf(text + 2 * i, "%02x", frame[i]);
    if (strcmp(text, wanted) == 0) {
        printf("PASS  %s: %s\n", what, text);
    } else {
        printf("FAIL  %s: %s, wanted %s\n", what, text, wanted);
        wrong = 1;
    }
}

/* Frames written, each type. */
static void writing(void)
{
    static const x2u_fields one = {.highest = 120, .desired = 65536, .minimum = 4096, .ranges = 1};
    static const x2u_fields none = {.highest = 262143, .final = 1};
    uint8_t buffer[X2U_MOST_OCTETS];
    uint32_t start = 7, end = 9;
    octets("write type 0, 4660", buffer, x2u_write_data(0, 4660, buffer, sizeof buffer), "001234000000");
    octets("write type 3, 43981", buffer, x2u_write_data(1, 43981, buffer, sizeof buffer), "3000abcd0000");
    octets("write type 1, range 7 to 9", buffer, x2u_write_status(0, &one, &start, &end, buffer, sizeof buffer),
           "110078000100000000100001000700090000");
    octets("write type 2, Final, no list", buffer, x2u_write_status(1, &none, NULL, NULL, buffer, sizeof buffer),
           "2203ffff00000000000000000000");
}

/* Frames refused. */
static void reading(void)
{
    static const uint8_t reserved[6] = {0x40, 1, 2, 3, 4, 5}, status[18] = {0x11}, one[14] = {[0] = 0x11, [11] = 1};
    static const uint8_t brief[10] = {0x10}, data[6] = {0x00, 0x12, 0x34};
    x2u_fields fields;
    outcome("read type 0", x2u_read(data, sizeof data, &fields), 0);
    outcome("  its number", fields.number, 4660);
    outcome("read no octets", x2u_read(NULL, 0, &fields), -X2U_LENGTH);
    outcome("read 8 octets", x2u_read(status, 8, &fields), -X2U_LENGTH);
    outcome("read 40 and five more octets", x2u_read(reserved, sizeof reserved, &fields), -X2U_RESERVED);
    outcome("read type 1, length 10", x2u_read(brief, sizeof brief, &fields), -X2U_FIXED_PART);
    outcome("read type 1, length 14, count 1", x2u_read(one, sizeof one, &fields), -X2U_LIST);
    outcome("read type 1, length 18, count 0", x2u_read(status, sizeof status, &fields), -X2U_COUNT);
}

/* A block that was never opened is a closed end, and a refused open leaves it one. */
static void unopened(void)
{
    x2u_keeper k = X2U_KEEPER_INIT;
    uint8_t frame[X2U_MOST_OCTETS];
    outcome("arrival before any open", x2u_arrive(&k, 0, 0), -X2U_CLOSED);
    outcome("expiry before any open", x2u_expire(&k, 0), -X2U_CLOSED);
    outcome("confirm before any open", x2u_confirm(&k, 0), -X2U_CLOSED);
    outcome("anything to say before any open", x2u_anything(&k), -X2U_CLOSED);
    outcome("open L 13", x2u_open(&k, 13, 0, 0), -X2U_PDCP_LENGTH);
    outcome("status after a refused open", x2u_status(&k, 0, 0, 0, frame, sizeof frame), -X2U_CLOSED);
    outcome("open L 12", x2u_open(&k, 12, 0, 0), 0);
    outcome("arrival then: lost", x2u_arrive(&k, 0, 0), 0);
}

/* What an arrival far above base gives up. */
static void window(void)
{
    x2u_keeper k = X2U_KEEPER_INIT;
    outcome("open, short, first 0", x2u_open(&k, 12, 0, 0), 0);
    outcome("arrival of 255: lost", x2u_arrive(&k, 255, 0), 0);
    x2u_open(&k, 12, 0, 0);
    outcome("instead 256: lost", x2u_arrive(&k, 256, 0), 1);
    outcome("then 32768", x2u_arrive(&k, 32768, 1), -X2U_SPAN);
    x2u_open(&k, 12, 0, 0);
    outcome("instead 32767: lost", x2u_arrive(&k, 32767, 0), 32512);
    x2u_open(&k, 12, 0, 0);
    outcome("instead 32768, opposite base", x2u_arrive(&k, 32768, 0), -X2U_OPPOSITE);
    outcome("instead 32769, behind base", x2u_arrive(&k, 32769, 0), -X2U_LATE);
}

/* A host's gap timer. When it starts the host remembers the highest number accepted, and hands it over when the timer runs out: gaps that
 * opened since then are left alone. */
static void gap_timer(void)
{
    x2u_keeper k = X2U_KEEPER_INIT;
    uint32_t mark;
    outcome("open L 15, first 0, f 0", x2u_open(&k, 15, 0, 0), 0);
    outcome("arrival of 0: lost", x2u_arrive(&k, 0, 0), 0);
    outcome("arrival of 2: lost", x2u_arrive(&k, 2, 2), 0);
    mark = 2; /* 1 is missing: the timer starts, and 2 is the highest accepted */
    outcome("arrival of 5 while the timer runs: lost", x2u_arrive(&k, 5, 5), 0);
    outcome("expiry, mark 2: lost, 1 alone", x2u_expire(&k, mark), 1);
    mark = 5; /* 3 and 4 are missing: the timer starts again, and 5 is the highest accepted */
    outcome("arrival of 4 while the timer runs: lost", x2u_arrive(&k, 4, 4), 0);
    outcome("expiry, mark 5: lost, 3 alone", x2u_expire(&k, mark), 1);
    outcome("expiry, mark 5 again, which lies behind base now", x2u_expire(&k, mark), -X2U_NO_GAP);
    outcome("expiry, mark 6, which didn't come", x2u_expire(&k, 6), -X2U_MARK);
    outcome("expiry, mark 65536", x2u_expire(&k, 65536), -X2U_NUMBER);
}

/* A host that asks before it builds: a status goes out only where there is something to say, or where the host has another size to tell. */
static void asking(void)
{
    x2u_keeper k = X2U_KEEPER_INIT;
    uint8_t frame[X2U_MOST_OCTETS];
    outcome("open L 18, first 0, f 0", x2u_open(&k, 18, 0, 0), 0);
    outcome("anything to say: nothing came", x2u_anything(&k), 0);
    outcome("arrival of 0: lost", x2u_arrive(&k, 0, 0), 0);
    outcome("arrival of 1: lost", x2u_arrive(&k, 1, 1), 0);
    outcome("confirm 1", x2u_confirm(&k, 1), 0);
    outcome("anything to say: 0 isn't confirmed, so 1 isn't delivered in sequence", x2u_anything(&k), 0);
    outcome("confirm 0", x2u_confirm(&k, 0), 0);
    outcome("anything to say: 0 and 1 are", x2u_anything(&k), 1);
    octets("status", frame, x2u_status(&k, 0, 0, 0, frame, sizeof frame), "2000000100000000000000000000");
    outcome("anything to say: that was all", x2u_anything(&k), 0);
    outcome("arrival of 3: lost", x2u_arrive(&k, 3, 3), 0);
    outcome("anything to say: 2 is missing, and not given up", x2u_anything(&k), 0);
    outcome("expiry, mark 3: lost", x2u_expire(&k, 3), 1);
    outcome("anything to say: 2 is lost", x2u_anything(&k), 1);
    octets("status with Final", frame, x2u_status(&k, 0, 0, 1, frame, sizeof frame), "23000001000000000000000001000002000002000000");
    outcome("anything to say at the closed end", x2u_anything(&k), -X2U_CLOSED);
}

/* A status with one range, as it is read: its highest and its range. */
static void one_range(const char *what, const uint8_t *frame, int64_t length, uint32_t highest, uint32_t start, uint32_t end)
{
    x2u_fields fields = {0};
    x2u_cursor cursor = {{0}};
    x2u_range range = {0};
    printf("      %s\n", what);
    outcome("  its type", x2u_read(frame, (size_t)length, &fields), 1);
    outcome("  its highest", fields.highest, highest);
    outcome("  its desired size", fields.desired, 65536);
    outcome("  its minimum size", fields.minimum, 4096);
    outcome("  Final", fields.final, 0);
    outcome("  its ranges", fields.ranges, 1);
    outcome("  and by the cursor", x2u_first_range(frame, (size_t)length, &cursor), 1);
    outcome("  there is a first", x2u_next_range(frame, (size_t)length, &cursor, &range), 1);
    outcome("  its start", range.start, start);
    outcome("  its end", range.end, end);
    outcome("  there is another", x2u_next_range(frame, (size_t)length, &cursor, &range), 0);
}

/* L 12, first 65534, f 4095: a loss at the rollover. */
static void rollover(void)
{
    x2u_keeper k = X2U_KEEPER_INIT, both;
    uint8_t frame[X2U_MOST_OCTETS];
    int64_t length;
    outcome("open L 12, first 65534, f 4095", x2u_open(&k, 12, 65534, 4095), 0);
    outcome("arrival of 65534, PDCP 4095: lost", x2u_arrive(&k, 65534, 4095), 0);
    outcome("arrival of 0, PDCP 1: lost", x2u_arrive(&k, 0, 1), 0);
    outcome("expiry, mark 0: lost", x2u_expire(&k, 0), 1);
    outcome("confirm 0", x2u_confirm(&k, 0), 0);
    both = k;
    length = x2u_status(&k, 65536, 4096, 0, frame, sizeof frame);
    octets("status", frame, length, "110ffe000100000000100001ffffffff0000");
    one_range("that status", frame, length, 4094, 65535, 65535);

    outcome("instead confirm 65534 too", x2u_confirm(&both, 65534), 0);
    length = x2u_status(&both, 65536, 4096, 0, frame, sizeof frame);
    one_range("its status", frame, length, 1, 65535, 65535);
}

/* Every second number is lost, 163 in all, and the frame carries 162 of them. */
static void held_back(void)
{
    x2u_keeper k = X2U_KEEPER_INIT;
    uint8_t frame[X2U_MOST_OCTETS];
    x2u_fields fields = {0};
    x2u_cursor cursor = {{0}};
    x2u_range range = {0};
    int64_t lost = 0, length, count = 0, apart = 0;
    outcome("open L 12, first 0, f 0", x2u_open(&k, 12, 0, 0), 0);
    for (uint32_t n = 1; n <= 325; n += 2) lost += x2u_arrive(&k, n, n);
    lost += x2u_expire(&k, 325);
    outcome("arrivals of 1, 3, .. 325, expiry, mark 325: lost", lost, 163);
    for (uint32_t n = 1; n <= 325; n += 2) count += x2u_confirm(&k, n);
    outcome("confirm all of them", count, 0);
    outcome("status with Final", x2u_status(&k, 0, 0, 1, frame, sizeof frame), -X2U_FINAL_RUNS);
    outcome("status into 661 octets", x2u_status(&k, 0, 0, 0, frame, 661), -X2U_ROOM);
    length = x2u_status(&k, 0, 0, 0, frame, sizeof frame);
    outcome("status: octets", length, 662);
    outcome("its type", x2u_read(frame, (size_t)length, &fields), 1);
    outcome("its highest, held back before 324", fields.highest, 323);
    outcome("its ranges", x2u_first_range(frame, (size_t)length, &cursor), 162);
    for (count = 0; x2u_next_range(frame, (size_t)length, &cursor, &range) == 1; count++)
        apart += range.start == 2 * count && range.end == 2 * count;
    outcome("ranges walked", count, 162);
    outcome("of these 0 to 0, 2 to 2, .. 322 to 322", apart, 162);

    length = x2u_status(&k, 65536, 4096, 0, frame, sizeof frame);
    one_range("the next status", frame, length, 325, 324, 324);
    length = x2u_status(&k, 65536, 4096, 1, frame, sizeof frame);
    octets("the last status", frame, length, "1201450001000000001000000000");
    outcome("arrival at the closed end", x2u_arrive(&k, 326, 326), -X2U_CLOSED);
}

int main(void)
{
    writing();
    reading();
    unopened();
    window();
    gap_timer();
    asking();
    rollover();
    held_back();
    puts(wrong ? "An outcome is not the one wanted." : "Every outcome is the one wanted.");
    return wrong;
}
