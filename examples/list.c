/* The list question from C: all groups at a level, and each asked about where it stands in the list.
 *
 *     cc -I include examples/list.c target/staticlib/libdesk.a -o list && ./list
 *
 * It prints, for five stations, two triangles that share station 2:
 *
 *     level 1, groups: 1
 *       row 0, stations 0 1 2 3 4: HOLDS, and at level 2 WEAK
 *     level 2, groups: 2
 *       row 0, stations 0 1 2: HOLDS, and at level 3 FEW
 *       row 1, stations 2 3 4: HOLDS, and at level 3 FEW
 *     level 3, groups: 0
 */
#include <inttypes.h>
#include "desk.h"
#include "common.h"

/* The verdict on row i of a list, which is lent as it lies there: four words from list + 4 * i. */
static const char *asked(size_t n, const uint64_t *table, size_t k, const uint64_t *list, size_t i) {
    uint64_t verdict;
    uint64_t refused = desk_verdict(n, table, 4 * n, k, list + 4 * i, 4, &verdict);
    return refused == DESK_ANSWERED ? verdict_name(verdict) : "refused";
}

int main(void) {
    uint64_t five[4 * 5] = {0};
    uint64_t list[DESK_LIST_WORDS]; /* room at every level, whatever n is */

    link_five(five);
    for (size_t k = 1; k <= 3; k++) {
        uint64_t groups;
        uint64_t refused = desk_list(5, five, 4 * 5, k, list, DESK_LIST_WORDS, &groups);
        if (refused != DESK_ANSWERED) {
            printf("refused %" PRIu64 "\n", refused);
            return 1;
        }
        printf("level %zu, groups: %" PRIu64 "\n", k, groups);
        for (size_t i = 0; i < groups; i++) {
            printf("  row %zu, stations", i);
            print_stations(list + 4 * i);
            printf(": %s, and at level %zu %s\n", asked(5, five, k, list, i), k + 1, asked(5, five, k + 1, list, i));
        }
    }
    return 0;
}
