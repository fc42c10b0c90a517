/* The questions of the desk, for C and C++ callers (rust/desk.rs has them for Rust). docs/RULES.md has the rules that the replies follow,
 * docs/CARD.md the refusals, examples/README.md worked examples.
 *
 * THE CALLS. Every question takes every input, replies, and ends. Each but desk_first_row, which has no refusal, returns 0 where it is answered, and
 * otherwise the number of the refusal: the first that applies, in the question's order. A refusal leaves every lent buffer as it was. The numbers
 * lent for the reply are always written, on a refusal with 0: so look at the returned number first.
 *
 * A SET of stations is four words: the stations 0 to 63 in the first, the lowest bit for the lowest, and so on up to 255. A TABLE of n stations, at
 * most 256, is such a set for each, its row: those that it is linked to. So it has 4n words. A station is not in its own row, is in the row of each
 * that is in its own, and no row has a bit from n up.
 *
 * WHAT IS LENT. A slice is a pointer and a count of elements. Its length and content may be anything: they are tested here. Where it lies is the
 * caller's to see to:
 *   - The pointer leads to that many elements of its type, in one object, aligned as the type is.
 *   - With the count 0 it may be NULL: nothing is read or written through it. (The logic of the proofs asks nothing of where an empty slice lies, and
 *     the module that rt compiles marks no pointer as nonnull, dereferenceable or aligned. The kit's guides have no sentence on NULL from C.
 *     tests/interface.c tries it for every slice of every question.)
 *   - A pointer without a count, as `uint64_t *groups`, leads to one number, and is never NULL.
 *   - A pointer to const is lent for reading: what it leads to is not written. It may overlap what else is lent for reading, as a set that is a row
 *     of the table.
 *   - A pointer that is not to const is lent for writing: until the call returns, what it leads to is the question's alone. It overlaps nothing else
 *     that the same call is lent, reply numbers too, and no other thread reads or writes it. It may hold anything beforehand. Only what the words
 *     below say is written.
 *
 * THREADS. The library has no data of its own that is written, takes no memory, keeps nothing, and calls nothing but C's memcpy, memset and the like.
 * Calls in several threads at once meet only in what they are lent: they may share what is lent for reading, while nothing writes it. The proofs
 * speak of one call by itself.
 *
 * STACK. The questions need stack: some kilobytes, and desk_night_list about 17. bench/RESULTS.md has the figures; they are measured (with
 * the kit before this one), not proved.
 *
 * TO BUILD. `tools/proved library` proves and writes target/staticlib/libdesk.a, for programs on x86-64 Linux:
 *
 *     cc -I include program.c target/staticlib/libdesk.a -o program
 *
 * On Arm too the library is one for x86-64: the program is compiled for x86-64 and run with an emulator. examples/README.md has the recipe.
 */
#ifndef DESK_H
#define DESK_H

#include <stddef.h>
#include <stdint.h>

#ifdef __cplusplus
extern "C" {
#endif

/* Changes whenever a function below is added or taken away, or its type changes (include/desk.versions, tests/header). */
#define DESK_VERSION 1

/* The limits. */
#define DESK_STATIONS 256      /* the most stations */
#define DESK_LEVEL_LEAST 1     /* the levels of outage */
#define DESK_LEVEL_MOST 16
#define DESK_LINKS 8192        /* the most links of a survey file */
#define DESK_TABLE_WORDS 1024  /* a table of 256 stations */
#define DESK_LIST_WORDS 512    /* a list for every n and level: 128 rows of four words */
#define DESK_FILE_BYTES 33801  /* the longest survey file: 256 stations and 8,192 links */
#define DESK_PAGE_BYTES 262144 /* the buffer of a night list: every page fits in it */

/* What a question returns: the refusal card. */
enum desk_refusal {
    DESK_ANSWERED = 0,
    DESK_REFUSED_LEVEL = 1,        /* the level is 0 or above 16 */
    DESK_REFUSED_STATIONS = 2,     /* more than 256 stations */
    DESK_REFUSED_TABLE_LENGTH = 3, /* the table is not 4n words */
    DESK_REFUSED_TABLE = 4,        /* a station linked to itself, a link in one row only, or a bit from n up */
    DESK_REFUSED_LIST_ROOM = 5,    /* the list has fewer than 4R words */
    DESK_REFUSED_SET = 6,          /* the set has not four words, or has a bit from n up */
    DESK_REFUSED_STATION = 7,      /* a station's number is n or more, or the two of a pair are one */
    DESK_REFUSED_MARK = 8,         /* fewer than 9 bytes, or not the mark RLM */
    DESK_REFUSED_VERSION = 9,      /* the version is not 1 */
    DESK_REFUSED_COUNT = 10,       /* more than 256 stations in a file, or more than 8,192 links */
    DESK_REFUSED_LENGTH = 11,      /* not 9 + 4n + 4m bytes */
    DESK_REFUSED_SERIAL = 12,      /* a serial is 0 or not above the one before, or (writer) there are not n */
    DESK_REFUSED_LINK = 13,        /* a link is not a < b < n, or not behind the one before */
    DESK_REFUSED_ROOM = 14,        /* what is to be written has no room in its buffer */
    DESK_REFUSED_ROWS = 15         /* on the card, and never given */
};

/* The verdicts of the holding question. */
enum desk_holding_verdict {
    DESK_HOLDS = 0, /* more than k stations, and the loss of any fewer than k of them leaves the others in touch through each other */
    DESK_FEW = 1,   /* k stations or fewer */
    DESK_WEAK = 2   /* more than k stations, and the loss of some fewer than k of them parts the others */
};

/* The order question: which of two rows of four words comes first, rows of a table or a list or sets of the caller's own: the one that has the
 * smallest station in which they differ. It returns 0 where x does, also where the rows are equal, and 1 where y does. The reply is the first *words
 * words of that row: *words is 4, or 0 where x or y has not four words (a part of x with no word). No refusal. */
uint64_t desk_first_row(const uint64_t *x, size_t x_words, const uint64_t *y, size_t y_words, uint64_t *words);

/* The routes question: how many separate routes there are between stations a and b at most, which is how many other stations must be lost at least
 * to part the two. For a linked pair *joined is 1 and *count is 0.
 * Refused in the order 2 STATIONS, 3 TABLE LENGTH, 4 TABLE, 7 STATION. */
uint64_t desk_routes(size_t n, const uint64_t *table, size_t table_words, size_t a, size_t b,
                     uint64_t *joined, uint64_t *count);

/* The holding question: does a set hold at level k? It may lie anywhere, as row i of a list where it stands: list + 4 * i, 4. *verdict is DESK_HOLDS
 * or DESK_FEW, and *w0 to *w3 are 0, or it is DESK_WEAK, and they are the weak set: the smallest loss that parts the set, the first in order among
 * equals.
 * Refused in the order 2 STATIONS, 3 TABLE LENGTH, 4 TABLE, 1 LEVEL, 6 SET. */
uint64_t desk_holding(size_t n, const uint64_t *table, size_t table_words, size_t k, const uint64_t *set, size_t set_words,
                      uint64_t *verdict, uint64_t *w0, uint64_t *w1, uint64_t *w2, uint64_t *w3);

/* The verdict of the holding question alone, without the weak set: one search. Refused as that is. */
uint64_t desk_verdict(size_t n, const uint64_t *table, size_t table_words, size_t k, const uint64_t *set, size_t set_words,
                      uint64_t *verdict);

/* The list question: all groups at level k, each once, in order, and nothing else, four words a group from the start of the list; *groups is how
 * many. The list needs 4R words, with R = (n - k + 1) / 2, rounded down, for n above k, and R = 0 otherwise; DESK_LIST_WORDS are enough for every n
 * and k. The words of the R rows behind the groups become 0, and words behind those stay.
 * Refused in the order 2 STATIONS, 3 TABLE LENGTH, 4 TABLE, 1 LEVEL, 5 LIST ROOM. */
uint64_t desk_list(size_t n, const uint64_t *table, size_t table_words, size_t k, uint64_t *list, size_t list_words, uint64_t *groups);

/* The standing of a station: the highest level from 1 to 16 with a group that has it; 0 where there is none.
 * Refused in the order 2 STATIONS, 3 TABLE LENGTH, 4 TABLE, 7 STATION. */
uint64_t desk_station_standing(size_t n, const uint64_t *table, size_t table_words, size_t a, uint64_t *standing);

/* The standing of a pair: the smaller of the two stations' standings. Refused as that of a station. */
uint64_t desk_pair_standing(size_t n, const uint64_t *table, size_t table_words, size_t a, size_t b, uint64_t *standing);

/* The reader of survey files: the first n serials and 4n words of the table become those of the file, and what is behind them stays; *version, *n and
 * *links are the file's.
 * Refused in the order 8 MARK, 9 VERSION, 10 COUNT, 11 LENGTH, 14 ROOM, 12 SERIAL, 13 LINK. */
uint64_t desk_read(const uint8_t *bytes, size_t count, uint32_t *serials, size_t serial_count, uint64_t *table, size_t table_words,
                   uint64_t *version, uint64_t *n, uint64_t *links);

/* The writer of survey files, version 1: the first *length bytes become the file of these n serials and this table, and what is behind them stays. What
 * was read and is written has the same bytes, and what was written and is read the same serials and table.
 * Refused in the order 2 STATIONS, 3 TABLE LENGTH, 4 TABLE, 12 SERIAL, 10 COUNT, 14 ROOM. */
uint64_t desk_write(size_t n, const uint32_t *serials, size_t serial_count, const uint64_t *table, size_t table_words,
                    uint8_t *bytes, size_t count, uint64_t *length);

/* The night list: the page that the program of that name prints for the survey, as bytes from the start of the buffer; *length is how many, and bytes
 * past these stay. The page of a refused survey is its line `refused N`.
 * Refused, by 14 ROOM, only where the buffer has fewer than DESK_PAGE_BYTES bytes, even where the page at hand is shorter. */
uint64_t desk_night_list(const uint8_t *bytes, size_t count, uint8_t *page, size_t page_bytes, uint64_t *length);

#ifdef __cplusplus
}
#endif

#endif
