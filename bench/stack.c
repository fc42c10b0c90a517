/* The painted stack: each question is called on a stack of its own that is filled with a pattern beforehand, and
   the bytes below the call that no longer have it are counted. Reads the meshes of the routes part from standard
   input and prints the most that any question touched, less what an empty call touches, its return address kept.
   To add a question: a case in `call`, a line in `main`. */

#include "../include/desk.h"

#include <stdio.h>
#include <string.h>
#include <ucontext.h>

#define STACK 65536
#define PATTERN 0xa5

enum { EMPTY, ROUTES, HOLDING, LIST, STANDING, WRITE, READ, NIGHT };

static unsigned char stack[STACK] __attribute__((aligned(64)));
static uint64_t table[1024], list[1024], set[4], out[8], length;
static uint32_t serials[256];
static uint8_t file[33801], page[DESK_PAGE_BYTES];
static size_t n, a, b, k;
static int question;
static ucontext_t caller, called;

__attribute__((noinline)) static uint64_t empty(void) {
    __asm__ volatile("");
    return 0;
}

static void call(void) {
    switch (question) {
    case EMPTY: out[0] = empty(); break;
#ifdef WITH_ROUTES
    case ROUTES: out[0] = desk_routes(n, table, 4 * n, a, b, out + 1, out + 2); break;
#endif
#ifdef WITH_HOLDING
    case HOLDING: out[0] = desk_holding(n, table, 4 * n, k, set, 4, out + 1, out + 2, out + 3, out + 4, out + 5); break;
#endif
#ifdef WITH_LIST
    case LIST: out[0] = desk_list(n, table, 4 * n, k, list, 1024, out + 1); break;
#endif
#ifdef WITH_STANDINGS
    case STANDING: out[0] = desk_station_standing(n, table, 4 * n, a, out + 1); break;
#endif
#ifdef WITH_FILES
    case WRITE: out[0] = desk_write(n, serials, n, table, 4 * n, file, sizeof file, &length); break;
    case READ: out[0] = desk_read(file, length, serials, 256, table, 1024, out + 1, out + 2, out + 3); break;
#endif
#ifdef WITH_NIGHT
    case NIGHT: out[0] = desk_night_list(file, length, page, sizeof page, out + 1); break;
#endif
    }
}

/* The bytes from the lowest one touched to the top of the stack. */
static long touched(int asked) {
    question = asked;
    memset(stack, PATTERN, STACK);
    getcontext(&called);
    called.uc_stack.ss_sp = stack;
    called.uc_stack.ss_size = STACK;
    called.uc_link = &caller;
    makecontext(&called, call, 0);
    swapcontext(&caller, &called);
    long at = 0;
    while (at < STACK && stack[at] == PATTERN) at++;
    if (at < 64) fprintf(stderr, "the painted stack is too small\n");
    return STACK - at;
}

static void see(int asked, long *most) {
    long bytes = touched(asked);
    if (bytes > *most) *most = bytes;
}

int main(void) {
    long meshes = 0, asked = 0, routes = 0, holding = 0, lists = 0, standing = 0, writing = 0, reading = 0, night = 0;
    int stations, links, pairs;
    char name[200];
    long base = touched(EMPTY) - (long)sizeof(void *);
    while (scanf(" mesh %d %d %d %199s", &stations, &links, &pairs, name) == 4) {
        meshes++;
        n = (size_t)stations;
        memset(table, 0, sizeof table);
        memset(set, 0, sizeof set);
        for (size_t i = 0; i < n; i++) set[i / 64] |= (uint64_t)1 << (i % 64);
        for (int i = 0; i < links + pairs; i++) {
            if (scanf("%zu %zu", &a, &b) != 2) return 2;
            if (i < links) {
                table[4 * a + b / 64] |= (uint64_t)1 << (b % 64);
                table[4 * b + a / 64] |= (uint64_t)1 << (a % 64);
                continue;
            }
#ifdef WITH_ROUTES
            see(ROUTES, &routes);
            asked++;
#endif
        }
        for (k = 1; k <= 16; k++) {
#ifdef WITH_HOLDING
            see(HOLDING, &holding);
            asked++;
#endif
#ifdef WITH_LIST
            see(LIST, &lists);
            asked++;
#endif
        }
#ifdef WITH_STANDINGS
        see(STANDING, &standing);
        asked++;
#endif
#ifdef WITH_FILES
        for (size_t i = 0; i < n; i++) serials[i] = (uint32_t)(1000 + i);
        see(WRITE, &writing);
        see(READ, &reading);
        asked += 2;
#ifdef WITH_NIGHT
        see(NIGHT, &night); /* of the file that was just written */
        asked++;
#endif
#endif
    }
    printf("| Question | Bytes of stack below the call, at most |\n|---|---|\n");
    if (routes) printf("| routes | %ld |\n", routes - base);
    if (holding) printf("| holding, levels 1 to 16 | %ld |\n", holding - base);
    if (lists) printf("| list, levels 1 to 16 | %ld |\n", lists - base);
    if (standing) printf("| standing of a station | %ld |\n", standing - base);
    if (reading) printf("| reading a survey | %ld |\n", reading - base);
    if (writing) printf("| writing a survey | %ld |\n", writing - base);
    if (night) printf("| night list | %ld |\n", night - base);
    printf("\n%ld questions on %ld meshes.\n", asked, meshes);
    return 0;
}
