/* The holding question from C: does a set of stations hold at a level, and if not, which loss parts it?
 *
 *     cc -I include examples/holding.c target/staticlib/libdesk.a -o holding && ./holding
 *
 * It prints, for five stations, two triangles that share station 2:
 *
 *     stations 0 1 2 3 4 at level 1: HOLDS
 *     stations 0 1 2 3 4 at level 2: WEAK, the loss of 2 parts it
 *     stations 0 1 2 at level 2: HOLDS
 *     stations 0 1 2 at level 3: FEW
 *     stations 0 1 2 3 4 at level 17: refused 1
 *     stations 0 3 at level 1: WEAK, and nothing need be lost
 */
#include <inttypes.h>
#include "desk.h"
#include "common.h"

static void ask(size_t n, const uint64_t *table, size_t k, const uint64_t set[4]) {
    uint64_t verdict, weak[4];
    uint64_t refused = desk_holding(n, table, 4 * n, k, set, 4, &verdict, &weak[0], &weak[1], &weak[2], &weak[3]);
    printf("stations");
    print_stations(set);
    printf(" at level %zu: ", k);
    if (refused != DESK_ANSWERED) /* first: a refusal writes 0 in verdict, as DESK_HOLDS is */
        printf("refused %" PRIu64 "\n", refused);
    else if (verdict != DESK_WEAK)
        printf("%s\n", verdict_name(verdict));
    else if ((weak[0] | weak[1] | weak[2] | weak[3]) == 0)
        printf("WEAK, and nothing need be lost\n");
    else {
        printf("WEAK, the loss of");
        print_stations(weak);
        printf(" parts it\n");
    }
}

int main(void) {
    static const uint64_t all[4] = {0x1f}, triangle[4] = {0x07}, apart[4] = {0x09};
    uint64_t five[4 * 5] = {0};

    link_five(five);
    ask(5, five, 1, all);
    ask(5, five, 2, all);
    ask(5, five, 2, triangle);
    ask(5, five, 3, triangle);
    ask(5, five, DESK_LEVEL_MOST + 1, all);
    ask(5, five, 1, apart);
    return 0;
}
