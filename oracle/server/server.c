/* Our side of the comparison: reads batches of cases from standard input, makes each call of the C interface, and
   writes back all that the call left. Built for x86-64 without any header, since the kit has none.

   A batch is its length in bytes (4 bytes, lowest first) and then its cases. A case is the call's number, how many
   numbers, slices of bytes, slices of words and lists it has (a byte each), the numbers (8 bytes each), the lengths of
   the slices and of the lists (4 bytes each), what each list holds (a byte), the bytes of the slices and the words (8
   bytes each) of the others. The answer to a case is the returned number and the words of `out` (8 bytes each), then
   every cell of every lent list.

   Call 0 has nothing lent, and its one word of `out` says which calls the archive has: bit n for call n. */

typedef unsigned char u8;
typedef unsigned long u64;

extern long read(int from, void *to, u64 count);
extern long write(int to, const void *from, u64 count);
extern void *realloc(void *old, u64 count);
extern void *memcpy(void *to, const void *from, u64 count);
extern void _exit(int status);

/* A call that the archive does not have yet is a null pointer. */
#define CALL extern __attribute__((weak))
CALL u64 phs_read_varint(const u8 *bytes, u64 len, u64 offset, u64 *out);
CALL u64 phs_body_length(u64 kind, u64 *out);
CALL u64 phs_decode_serial_type(u64 kind, const u8 *bytes, u64 len, u64 offset, u64 *out);
CALL u64 phs_read_entry(u64 state, u64 kind, u64 start, u64 length, const u8 *bytes, u64 len, u64 *out);
CALL u64 phs_view_entry(u64 state, u64 kind, u64 start, u64 length, const u8 *bytes, u64 len, u64 *out);
CALL u64 phs_is_compatible(u8 hint, u64 kind, u64 *out);
CALL u64 phs_try_parse_record(const u8 *region, u64 len, const u8 *hints, u64 hints_len, u64 base, u64 offset,
                                u64 *rows, u64 rows_len, u64 *cols, u64 cols_len, u64 *out);
CALL u64 phs_scan_region(const u8 *region, u64 len, const u8 *hints, u64 hints_len, u64 base, u64 start,
                           u64 *rows, u64 rows_len, u64 *cols, u64 cols_len, u64 *out);
CALL u64 phs_from_create_sql(const u8 *statement, u64 len, u8 *hints, u64 hints_len, u64 *out);
CALL u64 phs_boyer_moore_search(const u8 *haystack, u64 len, const u8 *pattern, u64 pattern_len, u64 *places,
                                  u64 places_len, u64 *out);
CALL u64 phs_get_page_data(const u8 *db, u64 len, u64 page_size, u64 page, u64 *out);
CALL u64 phs_collect_leaf_pages(const u8 *db, u64 len, u64 page_size, u64 root, u8 *flags, u64 flags_len, u64 *stack,
                                  u64 stack_len, u64 *leaves, u64 leaves_len, u64 *out);
CALL u64 phs_recover_freeblocks(const u8 *db, u64 len, u64 page_size, const u64 *roots, u64 roots_len,
                                  const u64 *counts, u64 counts_len, const u8 *hints, u64 hints_len, u8 *flags,
                                  u64 flags_len, u64 *stack, u64 stack_len, u64 *rows, u64 rows_len, u64 *cols,
                                  u64 cols_len, u64 *out);
CALL u64 phs_recover_page_freeblocks(const u8 *db, u64 len, u64 page_size, u64 page, const u8 *hints, u64 hints_len,
                                       u64 *rows, u64 rows_len, u64 *cols, u64 cols_len, u64 *out);
CALL u64 phs_recover_slice_freeblocks(const u8 *page, u64 len, u64 head, u64 base, const u8 *hints, u64 hints_len,
                                        u64 *rows, u64 rows_len, u64 *cols, u64 cols_len, u64 *out);
CALL u64 phs_scan_page_gaps(u64 rebuilding, const u8 *db, u64 len, u64 page_size, const u64 *roots, u64 roots_len,
                              const u64 *counts, u64 counts_len, const u8 *hints, u64 hints_len, u8 *flags,
                              u64 flags_len, u64 *stack, u64 stack_len, u64 *rows, u64 rows_len, u64 *cols,
                              u64 cols_len, u64 *out);
CALL u64 phs_scan_page_gap(u64 rebuilding, const u8 *db, u64 len, u64 page_size, u64 page, const u8 *hints,
                             u64 hints_len, u64 *rows, u64 rows_len, u64 *cols, u64 cols_len, u64 *out);
CALL u64 phs_scan_single_page_gap(u64 rebuilding, const u8 *page, u64 len, u64 head, u64 base, const u8 *hints,
                                    u64 hints_len, u64 *rows, u64 rows_len, u64 *cols, u64 cols_len, u64 *out);
CALL u64 phs_parse_cells_from_freeblock(u64 rebuilding, const u8 *data, u64 len, u64 base, const u8 *hints,
                                          u64 hints_len, u64 *rows, u64 rows_len, u64 *cols, u64 cols_len, u64 *out);
CALL u64 phs_carve_freeblock(const u8 *data, u64 len, u64 base, u64 columns, u64 *rows, u64 rows_len, u64 *cols,
                               u64 cols_len, u64 *out);
CALL u64 phs_learn_signatures(const u8 *bytes, u64 len, u64 width, const u64 *entries, u64 entries_len, u64 *types,
                                u64 types_len, u64 *out);
CALL u64 phs_carve_unallocated(const u8 *region, u64 len, const u64 *types, u64 types_len, u64 base, u64 *rows,
                                 u64 rows_len, u64 *cols, u64 cols_len, u64 *out);
CALL u64 phs_column_hints(const u8 *statement, u64 len, u8 *hints, u64 hints_len, u64 *out);

enum { MOST = 4, GUARD = 4 };

/* What a lent list holds. */
enum { WORDS = 0, BYTES = 1, FLAGS = 2 };

static const u64 PATTERN = 0x5EED000000000000;
static const u64 GUARDED = 0xFEEDFACEFEEDFACE;

struct buffer {
    u8 *bytes;
    u64 room, used;
};

/* One case, and what is lent for it. */
struct frame {
    u64 number[MOST];
    const u8 *slice[MOST];
    u64 length[MOST];
    const u64 *wide[MOST];
    u64 wides[MOST];
    u64 *words[MOST];
    u8 *cells[MOST];
    u64 lent[MOST];
};

static struct buffer input, output, wide[MOST], lists[MOST];

static void fail(const char *why, u64 length) {
    write(2, why, length);
    _exit(3);
}

static void make_room(struct buffer *b, u64 room) {
    if (room <= b->room) return;
    b->room = room + room / 2 + 4096;
    b->bytes = realloc(b->bytes, b->room);
    if (!b->bytes) fail("server: no memory\n", 18);
}

static void put(const void *from, u64 count) {
    make_room(&output, output.used + count);
    memcpy(output.bytes + output.used, from, count);
    output.used += count;
}

/* 0 at the end of the input, if that comes before the first byte. */
static int read_all(u8 *to, u64 count) {
    u64 have = 0;
    while (have < count) {
        long n = read(0, to + have, count - have);
        if (n <= 0 && have == 0) return 0;
        if (n <= 0) fail("server: a batch is cut off\n", 27);
        have += (u64)n;
    }
    return 1;
}

static void write_all(const u8 *from, u64 count) {
    u64 done = 0;
    while (done < count) {
        long n = write(1, from + done, count - done);
        if (n <= 0) _exit(4);
        done += (u64)n;
    }
}

static u64 number_at(const u8 *at, int bytes) {
    u64 v = 0;
    for (int i = bytes - 1; i >= 0; i--) v = v << 8 | at[i];
    return v;
}

/* Words with a guard before and behind them; every cell says that it was not touched. */
static u64 *lend_words(struct buffer *b, u64 count) {
    make_room(b, 8 * (count + 2 * GUARD));
    u64 *w = (u64 *)b->bytes;
    for (u64 i = 0; i < GUARD; i++) w[i] = w[GUARD + count + i] = GUARDED;
    for (u64 i = 0; i < count; i++) w[GUARD + i] = PATTERN + i;
    return w + GUARD;
}

static void check_words(const u64 *w, u64 count) {
    for (u64 i = 1; i <= GUARD; i++)
        if (w[-(long)i] != GUARDED || w[count + i - 1] != GUARDED) fail("server: a call wrote outside of a list\n", 39);
}

static u8 *lend_bytes(struct buffer *b, u64 count, int kind) {
    make_room(b, count + 2 * GUARD);
    for (u64 i = 0; i < GUARD; i++) b->bytes[i] = b->bytes[GUARD + count + i] = 0xEE;
    for (u64 i = 0; i < count; i++) b->bytes[GUARD + i] = (u8)(kind == FLAGS ? 1 + i % 3 : 200 + i % 50);
    return b->bytes + GUARD;
}

static void check_bytes(const u8 *c, u64 count) {
    for (u64 i = 1; i <= GUARD; i++)
        if (c[-(long)i] != 0xEE || c[count + i - 1] != 0xEE) fail("server: a call wrote outside of a list\n", 39);
}

static u64 calls_there(void) {
    u64 there = 0;
    there |= (u64)(phs_read_varint != 0) << 1;
    there |= (u64)(phs_body_length != 0) << 2;
    there |= (u64)(phs_decode_serial_type != 0) << 3;
    there |= (u64)(phs_read_entry != 0) << 4;
    there |= (u64)(phs_view_entry != 0) << 5;
    there |= (u64)(phs_is_compatible != 0) << 6;
    there |= (u64)(phs_try_parse_record != 0) << 7;
    there |= (u64)(phs_scan_region != 0) << 8;
    there |= (u64)(phs_from_create_sql != 0) << 9;
    there |= (u64)(phs_boyer_moore_search != 0) << 10;
    there |= (u64)(phs_get_page_data != 0) << 11;
    there |= (u64)(phs_collect_leaf_pages != 0) << 12;
    there |= (u64)(phs_recover_freeblocks != 0) << 13;
    there |= (u64)(phs_recover_page_freeblocks != 0) << 14;
    there |= (u64)(phs_recover_slice_freeblocks != 0) << 15;
    there |= (u64)(phs_scan_page_gaps != 0) << 16;
    there |= (u64)(phs_scan_page_gap != 0) << 17;
    there |= (u64)(phs_scan_single_page_gap != 0) << 18;
    there |= (u64)(phs_parse_cells_from_freeblock != 0) << 19;
    there |= (u64)(phs_carve_freeblock != 0) << 20;
    there |= (u64)(phs_learn_signatures != 0) << 21;
    there |= (u64)(phs_carve_unallocated != 0) << 22;
    there |= (u64)(phs_column_hints != 0) << 23;
    return there;
}

/* Makes the call, and says how many words `out` has. */
static u64 make_call(int call, const struct frame *f, u64 *out, u64 *words) {
    const u64 *n = f->number;
    const u8 *a = f->slice[0], *b = f->slice[1];
    u64 la = f->length[0], lb = f->length[1];
    u64 *const *w = f->words;
    const u64 *l = f->lent;
    switch (call) {
    case 0: *words = 1; out[0] = calls_there(); return 0;
    case 1: *words = 4; return phs_read_varint(a, la, n[0], out);
    case 2: *words = 2; return phs_body_length(n[0], out);
    case 3: *words = 4; return phs_decode_serial_type(n[0], a, la, n[1], out);
    case 4: *words = 4; return phs_read_entry(n[0], n[1], n[2], n[3], a, la, out);
    case 5: *words = 2; return phs_view_entry(n[0], n[1], n[2], n[3], a, la, out);
    case 6: *words = 1; return phs_is_compatible((u8)n[0], n[1], out);
    case 7:
        *words = 3;
        return phs_try_parse_record(a, la, b, lb, n[0], n[1], w[0], l[0], w[1], l[1], out);
    case 8:
        *words = 3;
        return phs_scan_region(a, la, b, lb, n[0], n[1], w[0], l[0], w[1], l[1], out);
    case 9: *words = 1; return phs_from_create_sql(a, la, f->cells[0], l[0], out);
    case 10: *words = 1; return phs_boyer_moore_search(a, la, b, lb, w[0], l[0], out);
    case 11: *words = 3; return phs_get_page_data(a, la, n[0], n[1], out);
    case 12:
        *words = 1;
        return phs_collect_leaf_pages(a, la, n[0], n[1], f->cells[0], l[0], w[1], l[1], w[2], l[2], out);
    case 13:
        *words = 1;
        return phs_recover_freeblocks(a, la, n[0], f->wide[0], f->wides[0], f->wide[1], f->wides[1], b, lb, f->cells[0],
                                      l[0], w[1], l[1], w[2], l[2], w[3], l[3], out);
    case 14:
        *words = 1;
        return phs_recover_page_freeblocks(a, la, n[0], n[1], b, lb, w[0], l[0], w[1], l[1], out);
    case 15:
        *words = 1;
        return phs_recover_slice_freeblocks(a, la, n[0], n[1], b, lb, w[0], l[0], w[1], l[1], out);
    case 16:
        *words = 1;
        return phs_scan_page_gaps(n[0], a, la, n[1], f->wide[0], f->wides[0], f->wide[1], f->wides[1], b, lb,
                                  f->cells[0], l[0], w[1], l[1], w[2], l[2], w[3], l[3], out);
    case 17: *words = 1; return phs_scan_page_gap(n[0], a, la, n[1], n[2], b, lb, w[0], l[0], w[1], l[1], out);
    case 18: *words = 1; return phs_scan_single_page_gap(n[0], a, la, n[1], n[2], b, lb, w[0], l[0], w[1], l[1], out);
    case 19: *words = 1; return phs_parse_cells_from_freeblock(n[0], a, la, n[1], b, lb, w[0], l[0], w[1], l[1], out);
    case 20: *words = 1; return phs_carve_freeblock(a, la, n[0], n[1], w[0], l[0], w[1], l[1], out);
    case 21: *words = 1; return phs_learn_signatures(a, la, n[0], f->wide[0], f->wides[0], w[0], l[0], out);
    case 22:
        *words = 1;
        return phs_carve_unallocated(a, la, f->wide[0], f->wides[0], n[0], w[0], l[0], w[1], l[1], out);
    case 23: *words = 1; return phs_column_hints(a, la, f->cells[0], l[0], out);
    }
    fail("server: no such call\n", 21);
    return 0;
}

/* Reads one case at `at`, with what is lent for it; returns where the next one stands. */
static const u8 *read_case(const u8 *at, struct frame *f, const u8 **kinds) {
    int numbers = at[1], slices = at[2], wides = at[3], lent = at[4];
    if (numbers > MOST || slices > MOST || wides > MOST || lent > MOST) fail("server: a malformed case\n", 25);
    at += 5;
    for (int i = 0; i < numbers; i++, at += 8) f->number[i] = number_at(at, 8);
    for (int i = 0; i < slices; i++, at += 4) f->length[i] = number_at(at, 4);
    for (int i = 0; i < wides; i++, at += 4) f->wides[i] = number_at(at, 4);
    for (int i = 0; i < lent; i++, at += 4) f->lent[i] = number_at(at, 4);
    *kinds = at;
    for (int i = 0; i < lent; i++, at++) {
        if (*at == WORDS)
            f->words[i] = lend_words(&lists[i], f->lent[i]);
        else
            f->cells[i] = lend_bytes(&lists[i], f->lent[i], *at);
    }
    for (int i = 0; i < slices; at += f->length[i++]) f->slice[i] = at;
    for (int i = 0; i < wides; at += 8 * f->wides[i++]) {
        make_room(&wide[i], 8 * f->wides[i] + 1);
        memcpy(wide[i].bytes, at, 8 * f->wides[i]);
        f->wide[i] = (const u64 *)wide[i].bytes;
    }
    return at;
}

/* Answers the case at `at`, and returns where the next one stands. */
static const u8 *answer(const u8 *at) {
    struct frame f;
    const u8 *kinds;
    int call = at[0], lent = at[4];
    at = read_case(at, &f, &kinds);
    static struct buffer outs;
    u64 words = 0, *out = lend_words(&outs, 4);
    u64 number = make_call(call, &f, out, &words);
    for (u64 i = words; i < 4; i++)
        if (out[i] != PATTERN + i) fail("server: a call wrote behind out\n", 32);
    check_words(out, 4);
    put(&number, 8);
    put(out, 8 * words);
    for (int i = 0; i < lent; i++) {
        if (kinds[i] == WORDS) {
            check_words(f.words[i], f.lent[i]);
            put(f.words[i], 8 * f.lent[i]);
        } else {
            check_bytes(f.cells[i], f.lent[i]);
            put(f.cells[i], f.lent[i]);
        }
    }
    return at;
}

int main(void) {
    u8 head[4];
    while (read_all(head, 4)) {
        u64 length = number_at(head, 4);
        make_room(&input, length + 1);
        if (length && !read_all(input.bytes, length)) fail("server: a batch is cut off\n", 27);
        output.used = 0;
        const u8 *at = input.bytes, *end = input.bytes + length;
        while (at < end) at = answer(at);
        write_all(output.bytes, output.used);
    }
    return 0;
}
