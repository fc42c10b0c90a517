/* What include/desk.h says of lent pointers, limits and refusals, tried: it is C, and C++ too. tests/examples builds and runs it. The last line is
 * `N checks, 0 failed`. */
#include <inttypes.h>
#include <string.h>
#include "desk.h"
#include "../examples/common.h"

#define UNWRITTEN UINT64_C(0xdeadbeefdeadbeef)
#define OLD 0x5a

static unsigned checks, failed;
static uint64_t out[8]; /* the numbers lent for a reply */

static void check(int good, const char *what) {
    checks++;
    if (!good) {
        failed++;
        printf("FAILED: %s\n", what);
    }
}

/* Returned and written numbers are those wanted, and no other number is written. */
static void judge(const char *call, uint64_t returned, const uint64_t *want, size_t wanted) {
    int good = returned == want[0];
    for (size_t i = 0; i < 8; i++)
        good = good && out[i] == (i + 1 < wanted ? want[i + 1] : UNWRITTEN);
    check(good, call);
    if (!good) {
        printf("    returned %" PRIu64 ", wrote", returned);
        for (size_t i = 0; i + 1 < wanted; i++)
            printf(" %" PRIu64, out[i]);
        printf("\n");
    }
}

/* ASK(call, what it returns, then what it writes) */
#define ASK(call, ...)                                            \
    do {                                                          \
        static const uint64_t want[] = {__VA_ARGS__};             \
        for (size_t i = 0; i < 8; i++)                            \
            out[i] = UNWRITTEN;                                   \
        judge(#call, (call), want, sizeof want / sizeof want[0]); \
    } while (0)

static uint64_t table[DESK_TABLE_WORDS], again[DESK_TABLE_WORDS], list[DESK_LIST_WORDS];
static uint32_t serials[DESK_STATIONS], serials_again[DESK_STATIONS];
static uint8_t file[DESK_FILE_BYTES], page[DESK_PAGE_BYTES];

/* Is all of it as FILL left it? */
static int untouched(const void *buffer, size_t bytes) {
    const uint8_t *at = (const uint8_t *)buffer;
    for (size_t i = 0; i < bytes; i++)
        if (at[i] != OLD)
            return 0;
    return 1;
}

#define FILL(buffer) memset(buffer, OLD, sizeof buffer)
#define UNTOUCHED(buffer) check(untouched(buffer, sizeof buffer), "a refusal leaves " #buffer)

static const uint8_t no_stations[9] = {'R', 'L', 'M', 1, 0, 0, 0, 0, 0};

/* NULL with the count 0, for every slice of every question. With n = 0 a table without words is a good one. */
static void nothing_lent(void) {
    static const uint64_t none[4] = {0}, one[4] = {0};
    static const uint32_t serial[1] = {7};
    static const uint8_t one_station[13] = {'R', 'L', 'M', 1, 0, 1, 0, 0, 0, 7, 0, 0, 0};

    ASK(desk_first_row(NULL, 0, NULL, 0, out), 0, 0);
    ASK(desk_first_row(NULL, 0, none, 4, out), 0, 0);
    ASK(desk_first_row(none, 4, NULL, 0, out), 0, 0);

    ASK(desk_routes(0, NULL, 0, 0, 1, out, out + 1), DESK_REFUSED_STATION, 0, 0);
    ASK(desk_routes(2, NULL, 0, 0, 1, out, out + 1), DESK_REFUSED_TABLE_LENGTH, 0, 0);

    ASK(desk_holding(0, NULL, 0, 1, none, 4, out, out + 1, out + 2, out + 3, out + 4), DESK_ANSWERED, DESK_FEW, 0, 0, 0, 0);
    ASK(desk_holding(0, NULL, 0, 1, NULL, 0, out, out + 1, out + 2, out + 3, out + 4), DESK_REFUSED_SET, 0, 0, 0, 0, 0);
    ASK(desk_holding(1, one, 4, 1, NULL, 0, out, out + 1, out + 2, out + 3, out + 4), DESK_REFUSED_SET, 0, 0, 0, 0, 0);
    ASK(desk_verdict(0, NULL, 0, 1, none, 4, out), DESK_ANSWERED, DESK_FEW);
    ASK(desk_verdict(0, NULL, 0, 1, NULL, 0, out), DESK_REFUSED_SET, 0);
    ASK(desk_verdict(1, one, 4, 1, NULL, 0, out), DESK_REFUSED_SET, 0);

    ASK(desk_list(0, NULL, 0, 1, NULL, 0, out), DESK_ANSWERED, 0);
    ASK(desk_list(0, NULL, 0, 1, list, 4, out), DESK_ANSWERED, 0);
    ASK(desk_list(1, one, 4, 1, NULL, 0, out), DESK_ANSWERED, 0); /* R is 0 */
    ASK(desk_list(2, table, 8, 1, NULL, 0, out), DESK_REFUSED_LIST_ROOM, 0);

    ASK(desk_station_standing(0, NULL, 0, 0, out), DESK_REFUSED_STATION, 0);
    ASK(desk_station_standing(1, NULL, 0, 0, out), DESK_REFUSED_TABLE_LENGTH, 0);
    ASK(desk_pair_standing(0, NULL, 0, 0, 1, out), DESK_REFUSED_STATION, 0);
    ASK(desk_pair_standing(2, NULL, 0, 0, 1, out), DESK_REFUSED_TABLE_LENGTH, 0);

    ASK(desk_read(NULL, 0, NULL, 0, NULL, 0, out, out + 1, out + 2), DESK_REFUSED_MARK, 0, 0, 0);
    ASK(desk_read(no_stations, 9, NULL, 0, NULL, 0, out, out + 1, out + 2), DESK_ANSWERED, 1, 0, 0);
    ASK(desk_read(one_station, 13, NULL, 0, again, 4, out, out + 1, out + 2), DESK_REFUSED_ROOM, 0, 0, 0);
    ASK(desk_read(one_station, 13, serials_again, 1, NULL, 0, out, out + 1, out + 2), DESK_REFUSED_ROOM, 0, 0, 0);

    ASK(desk_write(0, NULL, 0, NULL, 0, NULL, 0, out), DESK_REFUSED_ROOM, 0);
    ASK(desk_write(0, NULL, 0, NULL, 0, file, 9, out), DESK_ANSWERED, 9);
    check(memcmp(file, no_stations, 9) == 0, "the survey of no stations");
    ASK(desk_write(1, NULL, 0, one, 4, file, 13, out), DESK_REFUSED_SERIAL, 0);
    ASK(desk_write(1, serial, 1, NULL, 0, file, 13, out), DESK_REFUSED_TABLE_LENGTH, 0);
    ASK(desk_write(1, serial, 1, one, 4, NULL, 0, out), DESK_REFUSED_ROOM, 0);

    ASK(desk_night_list(NULL, 0, NULL, 0, out), DESK_REFUSED_ROOM, 0);
    ASK(desk_night_list(no_stations, 9, NULL, 0, out), DESK_REFUSED_ROOM, 0);
    ASK(desk_night_list(NULL, 0, page, sizeof page, out), DESK_ANSWERED, 10);
    check(memcmp(page, "refused 8\n", 10) == 0, "the page of no bytes");
}

/* Each limit is the last that is taken. */
static void limits(void) {
    static const uint64_t none[4] = {0};
    const size_t n = DESK_STATIONS;

    memset(table, 0, sizeof table);
    for (size_t a = 0; a < n; a += 2)
        add_link(table, a, a + 1); /* 128 pairs: as many groups as any mesh has at any level */
    ASK(desk_list(n, table, DESK_TABLE_WORDS, DESK_LEVEL_LEAST, list, DESK_LIST_WORDS, out), DESK_ANSWERED, DESK_LIST_WORDS / 4);
    FILL(list);
    ASK(desk_list(n, table, DESK_TABLE_WORDS, DESK_LEVEL_LEAST, list, DESK_LIST_WORDS - 1, out), DESK_REFUSED_LIST_ROOM, 0);
    ASK(desk_list(n + 1, table, DESK_TABLE_WORDS, DESK_LEVEL_LEAST, list, DESK_LIST_WORDS, out), DESK_REFUSED_STATIONS, 0);
    ASK(desk_list(n, table, DESK_TABLE_WORDS - 1, DESK_LEVEL_LEAST, list, DESK_LIST_WORDS, out), DESK_REFUSED_TABLE_LENGTH, 0);
    UNTOUCHED(list);
    ASK(desk_verdict(n, table, DESK_TABLE_WORDS, DESK_LEVEL_LEAST - 1, none, 4, out), DESK_REFUSED_LEVEL, 0);
    ASK(desk_verdict(n, table, DESK_TABLE_WORDS, DESK_LEVEL_LEAST, none, 4, out), DESK_ANSWERED, DESK_FEW);
    ASK(desk_verdict(n, table, DESK_TABLE_WORDS, DESK_LEVEL_MOST, none, 4, out), DESK_ANSWERED, DESK_FEW);
    ASK(desk_verdict(n, table, DESK_TABLE_WORDS, DESK_LEVEL_MOST + 1, none, 4, out), DESK_REFUSED_LEVEL, 0);

    memset(table, 0, sizeof table);
    for (size_t a = 0; a < n; a++)
        serials[a] = (uint32_t)(1000 + a);
    for (size_t links = 0, step = 1; links < DESK_LINKS; step++)
        for (size_t a = 0; a < n && links < DESK_LINKS; a++, links++)
            add_link(table, a, (a + step) % n);
    ASK(desk_write(n, serials, n, table, DESK_TABLE_WORDS, file, DESK_FILE_BYTES, out), DESK_ANSWERED, DESK_FILE_BYTES);
    ASK(desk_read(file, DESK_FILE_BYTES, serials_again, n, again, DESK_TABLE_WORDS, out, out + 1, out + 2),
        DESK_ANSWERED, 1, DESK_STATIONS, DESK_LINKS);
    check(memcmp(table, again, sizeof table) == 0 && memcmp(serials, serials_again, sizeof serials) == 0, "read as it was written");
    ASK(desk_night_list(file, DESK_FILE_BYTES - 1, page, DESK_PAGE_BYTES, out), DESK_ANSWERED, 11);
    check(memcmp(page, "refused 11\n", 11) == 0, "the page of a survey that is cut short");

    file[DESK_FILE_BYTES - 1] = 0xff; /* the last record, and the last test of the reader */
    FILL(again);
    FILL(serials_again);
    ASK(desk_read(file, DESK_FILE_BYTES, serials_again, n, again, DESK_TABLE_WORDS, out, out + 1, out + 2), DESK_REFUSED_LINK, 0, 0, 0);
    UNTOUCHED(again);
    UNTOUCHED(serials_again);

    FILL(file);
    ASK(desk_write(n, serials, n, table, DESK_TABLE_WORDS, file, DESK_FILE_BYTES - 1, out), DESK_REFUSED_ROOM, 0);
    add_link(table, 0, n / 2);
    ASK(desk_write(n, serials, n, table, DESK_TABLE_WORDS, file, DESK_FILE_BYTES, out), DESK_REFUSED_COUNT, 0);
    UNTOUCHED(file);

    FILL(page);
    ASK(desk_night_list(no_stations, 9, page, DESK_PAGE_BYTES - 1, out), DESK_REFUSED_ROOM, 0);
    UNTOUCHED(page);
}

/* What is lent for reading may overlap what else is. */
static void overlaps(void) {
    memset(table, 0, sizeof table);
    add_link(table, 0, 1);
    add_link(table, 0, 2);
    add_link(table, 1, 2);
    ASK(desk_verdict(3, table, 12, 1, table, 4, out), DESK_ANSWERED, DESK_HOLDS); /* of the row of station 0: stations 1 and 2 */
    ASK(desk_first_row(table + 4, 4, table + 4, 4, out), 0, 4);
    ASK(desk_first_row(table, 4, table + 4, 4, out), 1, 4);
}

int main(void) {
    nothing_lent();
    limits();
    overlaps();
    printf("%u checks, %u failed\n", checks, failed);
    return failed != 0;
}
