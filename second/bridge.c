/* Questions in on standard input, replies and lent buffers out on standard output (see piped.rs).
   For x86-64 with libdesk.a linked in; no header is needed. Define WITH_ROUTES and so on for what the library has. */

typedef unsigned long u64; /* 64 bits on x86-64 Linux, as size_t */
typedef unsigned int u32;
typedef unsigned char u8;

long read(int from, void *into, u64 count);
long write(int to, const void *from, u64 count);
void _exit(int code);

u64 desk_routes(u64 n, const u64 *table, u64 table_words, u64 a, u64 b, u64 *joined, u64 *count);
u64 desk_holding(u64 n, const u64 *table, u64 table_words, u64 k, const u64 *set, u64 set_words,
                 u64 *verdict, u64 *w0, u64 *w1, u64 *w2, u64 *w3);
u64 desk_verdict(u64 n, const u64 *table, u64 table_words, u64 k, const u64 *set, u64 set_words, u64 *verdict);
u64 desk_list(u64 n, const u64 *table, u64 table_words, u64 k, u64 *list, u64 list_words, u64 *groups);
u64 desk_station_standing(u64 n, const u64 *table, u64 table_words, u64 a, u64 *standing);
u64 desk_pair_standing(u64 n, const u64 *table, u64 table_words, u64 a, u64 b, u64 *standing);
u64 desk_read(const u8 *bytes, u64 count, u32 *serials, u64 serial_count, u64 *table, u64 table_words,
              u64 *version, u64 *n, u64 *links);
u64 desk_write(u64 n, const u32 *serials, u64 serial_count, const u64 *table, u64 table_words,
               u8 *bytes, u64 count, u64 *length);
u64 desk_first_row(const u64 *x, u64 x_words, const u64 *y, u64 y_words, u64 *words);
u64 desk_night_list(const u8 *bytes, u64 count, u8 *page, u64 page_bytes, u64 *length);

enum { WORDS = 1 << 16, BYTES = 1 << 18, PAGE = 1 << 19 };

static u64 table[WORDS], list[WORDS], set[WORDS], ask[8], out[8];
static u32 serials[WORDS];
static u8 bytes[BYTES], page[PAGE], in_buffer[1 << 17], out_buffer[1 << 17];
static u64 in_at, in_end, out_end;

static void send(void) {
    for (u64 at = 0; at < out_end;) {
        long sent = write(1, out_buffer + at, out_end - at);
        if (sent <= 0) _exit(3);
        at += (u64)sent;
    }
    out_end = 0;
}

/* Fills from standard input; its end between two questions ends the program. */
static void take(void *into, u64 count, u64 room) {
    u8 *to = into;
    if (count > room) _exit(4);
    while (count > 0) {
        if (in_at == in_end) {
            long got = read(0, in_buffer, sizeof in_buffer);
            if (got <= 0) _exit(got < 0 ? 3 : 0);
            in_at = 0;
            in_end = (u64)got;
        }
        *to++ = in_buffer[in_at++];
        count--;
    }
}

static void give(const void *from, u64 count) {
    const u8 *at = from;
    while (count > 0) {
        if (out_end == sizeof out_buffer) send();
        out_buffer[out_end++] = *at++;
        count--;
    }
}

static void take_words(u64 *into, u64 count) {
    if (count > WORDS) _exit(4);
    take(into, 8 * count, 8 * WORDS);
}

int main(void) {
    for (;;) {
        for (int i = 0; i < 8; i++) out[i] = 0xdeadbeefdeadbeefUL;
        take(ask, 8, 8);
        switch (ask[0]) {
#ifdef WITH_ROUTES
        case 1: /* n, table words, a, b */
            take(ask + 1, 32, 32);
            take_words(table, ask[2]);
            out[0] = desk_routes(ask[1], table, ask[2], ask[3], ask[4], out + 1, out + 2);
            give(out, 24);
            break;
#endif
#ifdef WITH_HOLDING
        case 2: /* n, table words, k, set words */
            take(ask + 1, 32, 32);
            take_words(table, ask[2]);
            take_words(set, ask[4]);
            out[0] = desk_holding(ask[1], table, ask[2], ask[3], set, ask[4], out + 1, out + 2, out + 3, out + 4, out + 5);
            out[6] = desk_verdict(ask[1], table, ask[2], ask[3], set, ask[4], out + 7);
            give(out, 64);
            break;
#endif
#ifdef WITH_LIST
        case 3: /* n, table words, k, words lent, words with the guard */
            take(ask + 1, 40, 40);
            take_words(table, ask[2]);
            take_words(list, ask[5]);
            out[0] = desk_list(ask[1], table, ask[2], ask[3], list, ask[4], out + 1);
            give(out, 16);
            give(list, 8 * ask[5]);
            break;
#endif
#ifdef WITH_STANDINGS
        case 4: /* n, table words, a */
            take(ask + 1, 24, 24);
            take_words(table, ask[2]);
            out[0] = desk_station_standing(ask[1], table, ask[2], ask[3], out + 1);
            give(out, 16);
            break;
        case 5: /* n, table words, a, b */
            take(ask + 1, 32, 32);
            take_words(table, ask[2]);
            out[0] = desk_pair_standing(ask[1], table, ask[2], ask[3], ask[4], out + 1);
            give(out, 16);
            break;
#endif
#ifdef WITH_FILES
        case 6: /* bytes, serials lent, with the guard, table words lent, with the guard */
            take(ask + 1, 40, 40);
            take(bytes, ask[1], BYTES);
            if (ask[3] > WORDS) _exit(4);
            take(serials, 4 * ask[3], sizeof serials);
            take_words(table, ask[5]);
            out[0] = desk_read(bytes, ask[1], serials, ask[2], table, ask[4], out + 1, out + 2, out + 3);
            give(out, 32);
            give(serials, 4 * ask[3]);
            give(table, 8 * ask[5]);
            break;
        case 7: /* n, serials, table words, bytes lent, with the guard */
            take(ask + 1, 40, 40);
            if (ask[2] > WORDS) _exit(4);
            take(serials, 4 * ask[2], sizeof serials);
            take_words(table, ask[3]);
            take(bytes, ask[5], BYTES);
            out[0] = desk_write(ask[1], serials, ask[2], table, ask[3], bytes, ask[4], out + 1);
            give(out, 16);
            give(bytes, ask[5]);
            break;
#endif
#ifdef WITH_ORDER
        case 8: /* words of the one row, of the other */
            take(ask + 1, 16, 16);
            take_words(set, ask[1]);
            take_words(list, ask[2]);
            out[0] = desk_first_row(set, ask[1], list, ask[2], out + 1);
            give(out, 16);
            break;
#endif
#ifdef WITH_NIGHT
        case 9: /* bytes, bytes of the page lent, with the guard, what each of these is beforehand */
            take(ask + 1, 32, 32);
            take(bytes, ask[1], BYTES);
            if (ask[3] > PAGE) _exit(4);
            for (u64 i = 0; i < ask[3]; i++) page[i] = (u8)ask[4];
            out[0] = desk_night_list(bytes, ask[1], page, ask[2], out + 1);
            u64 end = out[1] < ask[3] ? out[1] : ask[3];
            out[2] = 0;
            for (u64 i = end; i < ask[3]; i++) out[2] += page[i] != (u8)ask[4];
            give(out, 24);
            give(page, end);
            break;
#endif
        default:
            _exit(5);
        }
        send();
    }
}
