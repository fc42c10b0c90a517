/* From a survey file to its groups from C: read the file, list its groups at level 3, ask about each where it stands in the list, and write the
 * survey back.
 *
 *     cc -I include examples/survey.c target/staticlib/libdesk.a -o survey && ./survey samples/morning.rlm
 *
 * It prints, for two masts that carry the outfall (samples/README.md):
 *
 *     version 1, 20 stations, 48 links
 *     group 1 of 2: 1001 1002 1003 1004 1005 1006 1007 1008 1009 1010 1011 1012 2001 2002
 *       at level 3: HOLDS
 *     group 2 of 2: 2001 2002 3001 3002 3003 3004 3005 3006
 *       at level 3: HOLDS
 *     all stations together
 *       at level 3: WEAK, the loss of 2001 2002 parts them
 *     written back: the same 281 bytes
 */
#include <inttypes.h>
#include <string.h>
#include "desk.h"
#include "common.h"

static uint8_t file[DESK_FILE_BYTES + 1], again[DESK_FILE_BYTES];
static uint32_t serials[DESK_STATIONS];
static uint64_t table[DESK_TABLE_WORDS], list[DESK_LIST_WORDS];

static void print_serials(const uint64_t set[4]) {
    for (unsigned j = 0; j < DESK_STATIONS; j++)
        if (set[j / 64] >> (j % 64) & 1)
            printf(" %" PRIu32, serials[j]);
}

static void ask(size_t n, size_t k, const uint64_t set[4]) {
    uint64_t verdict, weak[4];
    uint64_t refused = desk_holding(n, table, 4 * n, k, set, 4, &verdict, &weak[0], &weak[1], &weak[2], &weak[3]);
    printf("  at level %zu: ", k);
    if (refused != DESK_ANSWERED) {
        printf("refused %" PRIu64 "\n", refused);
    } else if (verdict != DESK_WEAK) {
        printf("%s\n", verdict_name(verdict));
    } else {
        printf("WEAK, the loss of");
        print_serials(weak);
        printf(" parts them\n");
    }
}

int main(int count, char **words) {
    size_t bytes;
    if (!take_file(count, words, file, &bytes))
        return 2;

    uint64_t version, n, links, groups, length;
    uint64_t refused = desk_read(file, bytes, serials, DESK_STATIONS, table, DESK_TABLE_WORDS, &version, &n, &links);
    if (refused != DESK_ANSWERED) {
        printf("refused %" PRIu64 "\n", refused);
        return 1;
    }
    printf("version %" PRIu64 ", %" PRIu64 " stations, %" PRIu64 " links\n", version, n, links);

    refused = desk_list(n, table, 4 * n, 3, list, DESK_LIST_WORDS, &groups); /* not refused: table, level and room are good */
    for (size_t i = 0; refused == DESK_ANSWERED && i < groups; i++) {
        printf("group %zu of %" PRIu64 ":", i + 1, groups);
        print_serials(list + 4 * i);
        printf("\n");
        ask(n, 3, list + 4 * i);
    }

    uint64_t all[4] = {0};
    for (size_t j = 0; j < n; j++)
        all[j / 64] |= UINT64_C(1) << (j % 64);
    printf("all stations together\n");
    ask(n, 3, all);

    refused = desk_write(n, serials, n, table, 4 * n, again, sizeof again, &length);
    int same = refused == DESK_ANSWERED && length == bytes && memcmp(file, again, bytes) == 0;
    printf("written back: %s %" PRIu64 " bytes\n", same ? "the same" : "other", length);
    return same ? 0 : 1;
}
