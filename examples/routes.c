/* The routes question from C: how many separate routes lead between two stations?
 *
 *     cc -I include examples/routes.c target/staticlib/libdesk.a -o routes && ./routes
 *
 * It prints, for five stations, two triangles that share station 2:
 *
 *     from 0 to 1: joined
 *     from 0 to 3: 1 route
 *     from 0 to 5: no such pair
 *
 * and, for a ring of six:
 *
 *     from 0 to 3: 2 routes
 */
#include <inttypes.h>
#include "desk.h"
#include "common.h"

static void ask(size_t n, const uint64_t *table, size_t a, size_t b) {
    uint64_t joined, count;
    uint64_t refused = desk_routes(n, table, 4 * n, a, b, &joined, &count);
    printf("from %zu to %zu: ", a, b);
    if (refused == DESK_REFUSED_STATION)
        printf("no such pair\n");
    else if (refused != DESK_ANSWERED)
        printf("refused %" PRIu64 "\n", refused);
    else if (joined == 1)
        printf("joined\n");
    else
        printf("%" PRIu64 " route%s\n", count, count == 1 ? "" : "s");
}

int main(void) {
    uint64_t five[4 * 5] = {0}, ring[4 * 6] = {0};

    link_five(five);
    ask(5, five, 0, 1);
    ask(5, five, 0, 3);
    ask(5, five, 0, 5); /* there is no station 5 */

    for (size_t a = 0; a < 6; a++)
        add_link(ring, a, (a + 1) % 6);
    ask(6, ring, 0, 3);
    return 0;
}
