/* The night list from C: the page of a survey file, as the program night-list prints it.
 *
 *     cc -I include examples/night.c target/staticlib/libdesk.a -o night && ./night samples/five.rlm
 *
 * It prints:
 *
 *     RLM 1 stations 5 links 6
 *     1 1 101 102 103 104 105
 *     2 1 101 102 103
 *     2 2 103 104 105
 *     end 2
 *
 * A survey that is refused has a page too: its one line `refused N`.
 */
#include <inttypes.h>
#include "desk.h"
#include "common.h"

static uint8_t file[DESK_FILE_BYTES + 1], page[DESK_PAGE_BYTES];

int main(int count, char **words) {
    size_t bytes;
    if (!take_file(count, words, file, &bytes))
        return 2;

    uint64_t length;
    uint64_t refused = desk_night_list(file, bytes, page, sizeof page, &length);
    if (refused != DESK_ANSWERED) { /* DESK_REFUSED_ROOM, for a shorter buffer than this */
        printf("the page has no room: refused %" PRIu64 "\n", refused);
        return 1;
    }
    return fwrite(page, 1, length, stdout) == length ? 0 : 1;
}
