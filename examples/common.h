/* What the examples in C share: a mesh of five stations, how to make a table and read a set, and how to take in a file. */
#ifndef COMMON_H
#define COMMON_H

#include <stdio.h>
#include "desk.h"

/* Station j of a set is bit j mod 64 of word j / 64. A link stands in both rows. */
static inline void add_link(uint64_t *table, size_t a, size_t b) {
    table[4 * a + b / 64] |= UINT64_C(1) << (b % 64);
    table[4 * b + a / 64] |= UINT64_C(1) << (a % 64);
}

/* Five stations: two triangles, 0 1 2 and 2 3 4, that share station 2. The table's words are 0 beforehand. */
static inline void link_five(uint64_t table[4 * 5]) {
    static const size_t links[][2] = {{0, 1}, {0, 2}, {1, 2}, {2, 3}, {2, 4}, {3, 4}};
    for (size_t i = 0; i < sizeof links / sizeof links[0]; i++)
        add_link(table, links[i][0], links[i][1]);
}

/* Prints the stations of a set, rising. */
static inline void print_stations(const uint64_t set[4]) {
    for (unsigned j = 0; j < DESK_STATIONS; j++)
        if (set[j / 64] >> (j % 64) & 1)
            printf(" %u", j);
}

static inline const char *verdict_name(uint64_t verdict) {
    return verdict == DESK_HOLDS ? "HOLDS" : verdict == DESK_FEW ? "FEW" : "WEAK";
}

/* Takes in the file that the program's one word names, and returns 0 where there is none. The room is a byte more than a survey file can have: a
 * longer one is refused and not cut. */
static inline int take_file(int count, char **words, uint8_t file[DESK_FILE_BYTES + 1], size_t *bytes) {
    FILE *in = count == 2 ? fopen(words[1], "rb") : NULL;
    if (in == NULL) {
        fprintf(stderr, "use: %s FILE\n", words[0]);
        return 0;
    }
    *bytes = fread(file, 1, DESK_FILE_BYTES + 1, in);
    fclose(in);
    return 1;
}

#endif
