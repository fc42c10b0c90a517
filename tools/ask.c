/* One question about a survey file to the library, by serial numbers. tools/ask builds and calls it, and its help says how: the words are FILE
 * QUESTION NUMBERS.., as many whole numbers as the question takes.
 *
 * Exit status: 0 answered; 1 refused, with the line `refused N`; 2 a file that can't be read, or a station that the survey lacks or that is named
 * twice.
 */
#include <errno.h>
#include <inttypes.h>
#include <stdio.h>
#include <stdlib.h>
#include <string.h>
#include "desk.h"

enum {
    MOST_STATIONS = 256,
    MOST_BYTES = 33801, /* of a survey */
    MOST_GROUPS = 128,  /* at a level */
    HOLDS = 0,          /* the verdicts; the third is WEAK */
    FEW = 1
};

static uint8_t file[MOST_BYTES + 1]; /* a byte more, so that a longer file is refused */
static uint32_t serials[MOST_STATIONS];
static uint64_t table[4 * MOST_STATIONS], list[4 * MOST_GROUPS];
static uint64_t n;

static int refused(uint64_t number) {
    printf("refused %" PRIu64 "\n", number);
    return 1;
}

static void print_serials(const uint64_t set[4]) {
    for (size_t j = 0; j < n; j++)
        if (set[j / 64] >> (j % 64) & 1)
            printf(" %" PRIu32, serials[j]);
    printf("\n");
}

/* Looks up the stations of these serial numbers, and joins them to a set. Returns 0 where one is not there or is there twice, and says which. */
static int stations(int count, char **words, size_t at[2], uint64_t set[4]) {
    int good = 1;
    for (int i = 0; i < count; i++) {
        uint64_t serial = strtoull(words[i], NULL, 10); /* a number that is too large for it is none of a station either */
        size_t j = 0;
        while (j < n && serials[j] != serial)
            j++;
        if (j == n) {
            fprintf(stderr, "tools/ask: the survey has no station %s\n", words[i]);
            good = 0;
        } else {
            if (set[j / 64] >> (j % 64) & 1 && at == NULL) { /* for a pair it is the library's to refuse */
                fprintf(stderr, "tools/ask: station %s is named twice\n", words[i]);
                good = 0;
            }
            set[j / 64] |= UINT64_C(1) << (j % 64);
            if (at != NULL)
                at[i] = j;
        }
    }
    return good;
}

static int holding(uint64_t level, int count, char **words) {
    uint64_t set[4] = {0}, weak[4], verdict;
    if (!stations(count, words, NULL, set))
        return 2;
    uint64_t number = desk_holding(n, table, 4 * n, level, set, 4, &verdict, &weak[0], &weak[1], &weak[2], &weak[3]);
    if (number != 0)
        return refused(number);
    if (verdict == HOLDS || verdict == FEW) {
        printf(verdict == HOLDS ? "HOLDS\n" : "FEW\n");
    } else {
        printf("WEAK");
        print_serials(weak);
    }
    return 0;
}

static int routes(char **words) {
    size_t at[2];
    uint64_t set[4] = {0}, joined, count;
    if (!stations(2, words, at, set))
        return 2;
    uint64_t number = desk_routes(n, table, 4 * n, at[0], at[1], &joined, &count);
    if (number != 0)
        return refused(number);
    if (joined == 1)
        printf("joined\n");
    else
        printf("%" PRIu64 "\n", count);
    return 0;
}

static int standing(int count, char **words) {
    size_t at[2];
    uint64_t set[4] = {0}, level;
    if (!stations(count, words, at, set))
        return 2;
    uint64_t number = count == 1 ? desk_station_standing(n, table, 4 * n, at[0], &level)
                                 : desk_pair_standing(n, table, 4 * n, at[0], at[1], &level);
    if (number != 0)
        return refused(number);
    printf("%" PRIu64 "\n", level);
    return 0;
}

static int groups(uint64_t level) {
    uint64_t count;
    uint64_t number = desk_list(n, table, 4 * n, level, list, 4 * MOST_GROUPS, &count);
    if (number != 0)
        return refused(number);
    for (uint64_t i = 0; i < count; i++) {
        printf("%" PRIu64 " %" PRIu64, level, i + 1);
        print_serials(list + 4 * i);
    }
    return 0;
}

int main(int count, char **words) {
    if (count < 4)
        return 2;
    FILE *in = strcmp(words[1], "-") == 0 ? stdin : fopen(words[1], "rb");
    size_t bytes = in == NULL ? 0 : fread(file, 1, sizeof file, in);
    if (in == NULL || ferror(in)) {
        fprintf(stderr, "tools/ask: %s: %s\n", words[1], strerror(errno));
        return 2;
    }
    uint64_t version, links;
    uint64_t number = desk_read(file, bytes, serials, MOST_STATIONS, table, 4 * MOST_STATIONS, &version, &n, &links);
    if (number != 0)
        return refused(number);
    if (strcmp(words[2], "holding") == 0)
        return holding(strtoull(words[3], NULL, 10), count - 4, words + 4);
    if (strcmp(words[2], "list") == 0)
        return groups(strtoull(words[3], NULL, 10));
    if (strcmp(words[2], "routes") == 0 && count == 5)
        return routes(words + 3);
    if (strcmp(words[2], "standing") == 0 && count <= 5)
        return standing(count - 3, words + 3);
    return 2;
}
