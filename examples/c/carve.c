/*
 * carve [-a] [-g] [-w] FILE HINTS [PAGE]: prints the deleted rows of a table that are left in the free space of FILE's pages.
 * It goes page by page and holds one page, so a file may be of any size. HINTS has a letter for each column, N for an INTEGER
 * PRIMARY KEY, which a record stores as NULL; or it is the table's CREATE TABLE statement. PAGE is the page size where the file's
 * header does not name it. From the repository's top:
 *
 *     tools/archive
 *     cc -Wall -Wextra -std=c99 -O2 -Iinclude -o carve examples/c/carve.c target/staticlib/libphsarodil.a
 *     ./carve tablet.db TRIT
 *     cp tablet.db copy.db
 *     ./carve tablet.db "$(sqlite3 copy.db "SELECT sql FROM sqlite_schema WHERE name = 'readings'")"
 *
 * HINTS that hold a '(' are read as a statement, and the letters that come of it are said on standard error. Their number is to be that
 * of the columns: commas in brackets, quotes and comments make hints too many. Only a key whose name has INTEGER PRIMARY KEY right behind
 * it gets N; where it is 'id INTEGER NOT NULL PRIMARY KEY' or 'PRIMARY KEY(id)', give the letters. A copy is asked for the statement,
 * since sqlite3 writes the log of a tablet that it opens into it. What its .schema prints has the table's indexes and triggers, too,
 * and hints may come of these.
 *
 * SQLite overwrites the first four bytes of a freed cell. What is left of it in a freed block is found as a guess, a row whose header's
 * length is made up; in the gap that is so where the length is gone. -g brings guesses; without it there are whole records of the gap
 * and whole cells of freed blocks.
 *
 * In a small table the fourth byte is the type of the first column. A key has no body, so the hints behind it bring the row back, and
 * -g looks with these, too. Any other first column takes the length of its body with it: hints from the second column on would read
 * every value from the wrong place, and are not used.
 *
 * A row is printed if its confidence is at least 0.85, it is not all NULL, and it stands where a cell can: behind its length and
 * its row id, or behind the link that overwrote these. Such links are left in freed blocks, also in joined ones, and in the gap of
 * a page from whose end rows were deleted. -a prints the rest, of which most are none. A padded row has a number in its header that
 * takes more bytes than it needs: SQLite writes none so. -w scans whole pages instead of their free space: that is the call for a
 * table that was cleared, and it lists rows that are not deleted, too. The free space may hold old copies of such rows as well,
 * where SQLite moved them.
 *
 * wrapper/examples/carve prints the same, to the byte.
 */
#include <ctype.h>
#include <errno.h>
#include <inttypes.h>
#include <math.h>
#include <stdio.h>
#include <stdlib.h>
#include <string.h>

#include "phsarodil.h"

static const char USAGE[] =
    "usage: carve [-a] [-g] [-w] FILE HINTS [PAGE]\n"
    "Prints the deleted rows of a table that are left in the free space of FILE's pages.\n"
    "HINTS has a letter for each column: I integer, R real, T text, B blob, N null, A any;\n"
    "or a digit, its code from 0 to 5. An INTEGER PRIMARY KEY has N. A REAL column that may hold whole numbers has A:\n"
    "they are stored as integers.\n"
    "Or HINTS is the table's CREATE TABLE statement: what holds a ( is read as one, and carve says which letters it took.\n"
    "Compare their number with the columns: commas in brackets, quotes and comments make hints too many. Only a key whose\n"
    "name has INTEGER PRIMARY KEY right behind it gets N. To get the statement ask a copy, since sqlite3 writes the log of\n"
    "what it opens into it: sqlite3 copy.db \"SELECT sql FROM sqlite_schema WHERE name = 'readings'\"\n"
    "PAGE is the page size, if it is not to be the one that the file's header names.\n"
    "A row that is padded has a number in its header that takes more bytes than it needs: SQLite writes none so.\n"
    "A guess is a row whose start was overwritten when it was deleted: its header's length is made up, and it may be none.\n"
    "-a, --all      all that reads as a row: most are none\n"
    "-g, --guesses  guesses, too\n"
    "-w, --whole    whole pages, for a table that was cleared: rows that are not deleted are listed, too\n";

/* Rows below it are printed only if all are asked for. */
static const float KEPT = 0.85f;

/* A whole cell from there on has its bytes for itself, printed or not: it may stand in what is left of an older row. */
static const float STANDS = 0.5f;

/* What the lists of a page's rows may take, in words: 64 MiB. Memory that is not written costs nothing. */
enum { LIST_WORDS = 8 << 20 };

/* Of the file format. A link is the first four bytes of a freed block: where the next one is, and its own size. SQLite writes one also
   where it then adds the block to the gap, and leaves it where blocks are joined. Before a record of a page stand at most its length,
   in three bytes, its row id in nine and its header's length in two. */
enum { SMALLEST_PAGE = 512, LARGEST_PAGE = 65536, FILE_HEADER = 100, TABLE_LEAF = 13, LINK = 4, MOST_BEFORE = 14 };

/* In the order of the hint codes. */
static const char LETTERS[] = "IRTBNA";

struct job {
    const char *name;
    FILE *file;
    size_t size; /* of a page; 0 before it is known */
    uint8_t hints[PHS_MOST_COLUMNS];
    size_t columns;
    int all, whole;
    enum phs_rebuilding rebuilding; /* no guesses, unless they are asked for */
    uint8_t page[LARGEST_PAGE];
    size_t len; /* of what was read of the page */
    uint64_t base;
    size_t header;       /* where the page's b-tree header stands */
    size_t gap, content; /* where the gap between the cell pointers and the content starts and ends */
    size_t block_end[LARGEST_PAGE];   /* of the freed block that holds a place, or 0 */
    uint8_t begins[LARGEST_PAGE + 1]; /* whether a freed cell begins at a place: a block, or what is behind a row in one */
    uint8_t taken[LARGEST_PAGE];      /* whether a place is in a cell that has its bytes for itself */
    uint8_t seen[LARGEST_PAGE + 1];   /* whether a row was kept whose values behind the key start there */
    uint64_t *lists;
    uint64_t rows, left_out, refused;
};

/* Writes the codes of a string of hint letters, or of digits from 0 to 5; returns 0 at a letter that is none. */
static int read_codes(const char *letters, uint8_t *hints)
{
    for (size_t i = 0; letters[i] != '\0'; i++) {
        const char *known = strchr(LETTERS, letters[i]);
        if (known != NULL)
            hints[i] = (uint8_t)(known - LETTERS);
        else if (letters[i] >= '0' && letters[i] <= '5')
            hints[i] = (uint8_t)(letters[i] - '0');
        else
            return 0;
    }
    return 1;
}

/* Reads the hints of a string of letters; returns 0 and complains where it is none. */
static int read_letters(struct job *job, const char *letters)
{
    job->columns = strlen(letters);
    if (job->columns < 1 || job->columns > PHS_MOST_COLUMNS)
        fprintf(stderr, "carve: give 1 to %d hints, not %zu\n", PHS_MOST_COLUMNS, job->columns);
    else if (!read_codes(letters, job->hints))
        fprintf(stderr, "carve: hints are letters of %s or digits from 0 to 5, not '%s'\n", LETTERS, letters);
    else
        return 1;
    return 0;
}

/* Says why a statement gives no hints. There is room for all that it may give, so that is not the reason. */
static void refuse_statement(uint64_t refusal)
{
    fprintf(stderr, "carve: the statement gives no hints: ");
    if (refusal == PHS_TOO_LARGE)
        fprintf(stderr, "it has more than %d bytes\n", PHS_LARGEST_STATEMENT);
    else if (refusal == PHS_NO_COLUMN_LIST)
        fprintf(stderr, "no ')' stands behind its first '('\n");
    else
        fprintf(stderr, "it lists no column, or more than %d\n", PHS_MOST_COLUMNS);
}

/* Whether more than blanks stands behind the first ';', as the indexes of a table do in what .schema prints. */
static int goes_on(const char *statement)
{
    const char *end = strchr(statement, ';');

    return end != NULL && end[1 + strspn(end + 1, " \t\n\v\f\r")] != '\0';
}

/* Reads the hints of a CREATE TABLE statement, and says which they are; returns 0 and complains where it gives none. */
static int read_statement(struct job *job, const char *statement)
{
    char letters[PHS_MOST_COLUMNS + 1] = "";
    uint64_t out[1]; /* the hints written */
    uint64_t refusal =
        phs_column_hints((const uint8_t *)statement, strlen(statement), job->hints, PHS_MOST_COLUMNS, out);

    if (refusal != PHS_OK) {
        refuse_statement(refusal);
        return 0;
    }
    job->columns = (size_t)out[0];
    for (size_t i = 0; i < job->columns; i++)
        letters[i] = LETTERS[job->hints[i]];
    fprintf(stderr, "carve: hints %s\n", letters);
    if (goes_on(statement))
        fprintf(stderr, "carve: more stands behind a ';' of the statement, and hints may come of it: give the table's alone\n");
    return 1;
}

/* The bytes of the character at `text`: UTF-8, and no control character; 0 where there is none. */
static size_t readable(const uint8_t *text, uint64_t left)
{
    /* Of so many bytes; below 0xa0 a character of two is a control character, or should have been one byte. */
    static const uint32_t LEAST[] = {0, 0x20, 0xa0, 0x800, 0x10000};
    uint8_t first = text[0];
    size_t length = first < 0x80 ? 1 : first < 0xc0 ? 0 : first < 0xe0 ? 2 : first < 0xf0 ? 3 : first < 0xf8 ? 4 : 0;
    uint32_t code = length == 1 ? first : first & (0x7f >> length);

    if (length > left)
        return 0;
    for (size_t i = 1; i < length; i++) {
        if (text[i] >> 6 != 2)
            return 0;
        code = code << 6 | (text[i] & 0x3f);
    }
    if (code < LEAST[length] || code == 0x7f || (code >= 0xd800 && code < 0xe000) || code > 0x10ffff)
        return 0;
    return length;
}

/* Prints a text in quotes; what is not readable, as the hexadecimal digits of its bytes. */
static void print_text(const uint8_t *text, uint64_t length)
{
    putchar('"');
    for (uint64_t i = 0; i < length;) {
        size_t taken = readable(text + i, length - i);
        if (taken == 0) {
            printf("\\x%02x", text[i++]);
            continue;
        }
        if (text[i] == '"' || text[i] == '\\')
            putchar('\\');
        fwrite(text + i, 1, taken, stdout);
        i += taken;
    }
    putchar('"');
}

static void print_blob(const uint8_t *blob, uint64_t length)
{
    printf("x'");
    for (uint64_t i = 0; i < length; i++)
        printf("%02x", blob[i]);
    putchar('\'');
}

/* Prints the fewest digits that read back as the same number, with a point or an exponent always. */
static void print_real(double real)
{
    char text[32];
    int digits = -1; /* behind the first */

    if (!isfinite(real)) {
        printf("%s", isnan(real) ? "NaN" : real < 0 ? "-inf" : "inf");
        return;
    }
    do
        snprintf(text, sizeof text, "%.*e", ++digits, real);
    while (strtod(text, NULL) != real);
    char *e = strchr(text, 'e');
    int exponent = atoi(e + 1);
    if (exponent < -5 || exponent > 15)
        printf("%.*se%d", (int)(e - text), text, exponent);
    else
        printf("%.*f", digits > exponent ? digits - exponent : 1, real);
}

/* Prints the value of a column entry of the region; returns the refusal. */
static uint64_t print_entry(const uint64_t *entry, const uint8_t *region, size_t len)
{
    uint64_t value[4]; /* tag, bits, start, length */
    uint64_t refusal = phs_read_entry(entry[PHS_ENTRY_STATE], entry[PHS_ENTRY_KIND], entry[PHS_ENTRY_START],
                                      entry[PHS_ENTRY_LENGTH], region, len, value);
    int64_t integer;
    double real;

    switch (value[0]) {
    case PHS_NULL:
        printf("NULL");
        break;
    case PHS_INTEGER:
        memcpy(&integer, &value[1], sizeof integer);
        printf("%" PRId64, integer);
        break;
    case PHS_REAL:
        memcpy(&real, &value[1], sizeof real);
        print_real(real);
        break;
    case PHS_TEXT:
        print_text(region + value[2], value[3]);
        break;
    case PHS_BLOB:
        print_blob(region + value[2], value[3]);
        break;
    }
    return refusal;
}

static float confidence(const uint64_t *row)
{
    uint32_t bits = (uint32_t)row[PHS_ROW_CONFIDENCE];
    float share;

    memcpy(&share, &bits, sizeof share);
    return share;
}

/* Prints a row that was found with the hints behind the first `skip` ones; returns the refusal. */
static uint64_t print_row(const struct job *job, const uint64_t *row, const uint64_t *entries, size_t skip)
{
    uint64_t refusal = PHS_OK;
    int64_t id;

    printf("%" PRIu64 " %" PRIu64 " %.3f %s ", job->base / job->size + 1, row[PHS_ROW_OFFSET], confidence(row),
           row[PHS_ROW_PADDED] ? "yes" : "no");
    memcpy(&id, &row[PHS_ROW_ID], sizeof id);
    if (row[PHS_ROW_HAS_ID])
        printf("%" PRId64, id);
    else
        putchar('-');
    for (size_t i = 0; i < job->columns && refusal == PHS_OK; i++) {
        printf(i > 0 ? " | " : " ");
        if (i < skip)
            printf("NULL");
        else
            refusal = print_entry(entries + (i - skip) * PHS_WORDS_PER_ENTRY, job->page, job->len);
    }
    putchar('\n');
    return refusal;
}

static int has_key(const struct job *job)
{
    return job->hints[0] == PHS_HINT_NULL && job->columns > 1;
}

/* Where a row starts and ends in the page. */
static size_t start_of(const struct job *job, const uint64_t *row)
{
    return (size_t)(row[PHS_ROW_OFFSET] - job->base);
}

static size_t end_of(const struct job *job, const uint64_t *row)
{
    return start_of(job, row) + (size_t)row[PHS_ROW_CONSUMED];
}

/* Whether a row has the confidence, says something, and has its bytes for itself, with the `head` ones before it. */
static int is_likely(const struct job *job, const uint64_t *row, const uint64_t *entries, size_t skip, size_t head)
{
    size_t nulls = 0;

    while (nulls < job->columns - skip && entries[nulls * PHS_WORDS_PER_ENTRY + PHS_ENTRY_KIND] == 0)
        nulls++;
    return confidence(row) >= KEPT && nulls < job->columns - skip &&
           memchr(job->taken + start_of(job, row) - head, 1, head + (size_t)row[PHS_ROW_CONSUMED]) == NULL;
}

/* Prints a row if it is to be printed; returns the refusal. `head`: the bytes of its cell before it, or 0 where no cell can stand.
   `kept`: it has one, and is likely. */
static uint64_t take_row(struct job *job, const uint64_t *row, const uint64_t *entries, size_t skip, size_t head, int *kept)
{
    size_t first = has_key(job) - skip; /* the first column behind the key */
    uint8_t *seen = &job->seen[entries[first * PHS_WORDS_PER_ENTRY + PHS_ENTRY_START]];

    *kept = !*seen && head > 0 && is_likely(job, row, entries, skip, head);
    if (*kept || (head > 0 && row[PHS_ROW_HAS_ID] && confidence(row) >= STANDS))
        memset(job->taken + start_of(job, row) - head, 1, head + (size_t)row[PHS_ROW_CONSUMED]);
    if (!*kept && (*seen || !job->all)) {
        job->left_out += !*seen;
        return PHS_OK;
    }
    if (*kept) {
        *seen = 1;
        job->begins[end_of(job, row)] = 1;
    }
    job->rows++;
    return print_row(job, row, entries, skip);
}

/* Two bytes of the page, the high one first; what is past it counts as 0. */
static size_t two_bytes(const struct job *job, size_t place)
{
    return place + 2 > job->len ? 0 : (size_t)job->page[place] << 8 | job->page[place + 1];
}

/* Where a freed block ends whose link stands at a place, or 0 where none can: the next block is behind it, or there is none. */
static size_t link_end(const struct job *job, size_t at)
{
    size_t next = two_bytes(job, at);
    size_t size = two_bytes(job, at + 2);
    size_t end = at + size;

    return size >= LINK && end <= job->len && (next == 0 || (next >= end + LINK && next + LINK <= job->len)) ? end : 0;
}

/* Whether a freed cell left its link at a place: what is left of it stands from `left` on and ends at `end`. The link has its size, or
   that of the block that it was joined with as well, whose own link has the same end. No younger link stands in it. */
static int was_freed(const struct job *job, size_t at, size_t left, size_t end)
{
    size_t own = link_end(job, at);

    if (own != end && (own < end || link_end(job, end) != own))
        return 0;
    /* The rest of its row id. */
    for (size_t i = at + LINK; i < left; i++)
        if ((job->page[i] < 0x80) != (i + 1 == left))
            return 0;
    for (size_t i = left; i + LINK <= end; i++)
        if (link_end(job, i) == end || link_end(job, i) == own)
            return 0;
    return 1;
}

/* The bytes before a row where its length and row id stand there, and then puts the id into it; or the link of its freed cell; or 0. */
static size_t cell_head(const struct job *job, uint64_t *row)
{
    size_t place = start_of(job, row);

    for (size_t before = 2; before <= MOST_BEFORE && before <= place; before++) {
        uint64_t length[4], id[4]; /* whether it is whole, its value, the bytes that it takes, whether it is padded */
        phs_read_varint(job->page, place, place - before, length);
        phs_read_varint(job->page, place, place - before + (size_t)length[2], id);
        if (length[0] && length[1] == row[PHS_ROW_CONSUMED] && id[0] && length[2] + id[2] == before) {
            row[PHS_ROW_HAS_ID] = 1;
            row[PHS_ROW_ID] = id[1];
            return before;
        }
        if (before >= LINK && was_freed(job, place - before, place, end_of(job, row)))
            return before;
    }
    return 0;
}

/* Prints the rows from `start` on that end before `end`; returns the refusal. The scan goes on behind a row that is kept, and
   inside of one that is not: what is none hides nothing. */
static uint64_t scan(struct job *job, size_t start, size_t end)
{
    uint64_t row[PHS_WORDS_PER_ROW];
    uint64_t out[3]; /* rows written, place, header bytes read */

    for (;;) {
        uint64_t refusal = phs_scan_region(job->page, end, job->hints, job->columns, job->base, start, row, PHS_WORDS_PER_ROW,
                                           job->lists, job->columns * PHS_WORDS_PER_ENTRY, out);
        int kept;

        if (out[0] == 0)
            return refusal;
        refusal = take_row(job, row, job->lists, 0, cell_head(job, row), &kept);
        if (refusal != PHS_OK)
            return refusal;
        start = kept ? end_of(job, row) : start_of(job, row) + 1;
    }
}

/* Notes the freed blocks of the page. */
static void find_blocks(struct job *job)
{
    size_t noted = 0; /* up to there */
    size_t next;

    memset(job->block_end, 0, job->len * sizeof job->block_end[0]);
    memset(job->begins, 0, job->len + 1);
    for (size_t at = two_bytes(job, job->header + 1); at != 0 && at + LINK <= job->len; at = next) {
        size_t end = at + two_bytes(job, at + 2);
        job->begins[at] = 1;
        for (noted = noted > at ? noted : at; noted < end && end <= job->len; noted++)
            job->block_end[noted] = end;
        next = two_bytes(job, at);
        if (next <= at)
            return;
    }
}

/* Whether row ids of two bytes or more stand on the page; its last cell has the largest. */
static int has_long_ids(const struct job *job)
{
    size_t cells = two_bytes(job, job->header + 3);
    uint64_t length[4], id[4]; /* whether it is whole, its value, the bytes that it takes, whether it is padded */
    size_t cell = cells == 0 ? job->len : two_bytes(job, job->header + 8 + 2 * (cells - 1));

    phs_read_varint(job->page, job->len, cell, length);
    phs_read_varint(job->page, job->len, cell + (size_t)length[2], id);
    return !id[0] || id[2] > 1;
}

/* Whether the link took a type of a row as well: three bytes are before the types of a short row with a short id. */
static int lost_type(const struct job *job, const uint64_t *row, size_t skip)
{
    return skip == 0 && row[PHS_ROW_CONSUMED] < 127 && !has_long_ids(job);
}

/* The bytes before a row of a freed block, found with the hints behind the first `skip` ones, where a cell can stand: they are what
   the link overwrote, and its header's length if that is left; behind it the block ends, or another cell has room. Or 0. */
static size_t freed_head(const struct job *job, uint64_t *row, const uint64_t *entries, size_t skip)
{
    size_t place = start_of(job, row);
    size_t types = (size_t)entries[PHS_ENTRY_START] - place; /* their bytes */
    size_t rest = job->block_end[place] - end_of(job, row);
    uint8_t length = (types + (types > 126 ? 2 : 1)) & 0x7f; /* of the header, its last byte */
    size_t most = skip > 0 ? LINK : MOST_BEFORE;

    if (rest > 0 && rest < LINK)
        return 0;
    /* Its length may be larger than the row: then what reads as its id is none. */
    if (row[PHS_ROW_HAS_ID]) {
        row[PHS_ROW_HAS_ID] = 0;
        return skip == 0 ? cell_head(job, row) : 0;
    }
    if (lost_type(job, row, skip))
        return 0;
    for (size_t before = LINK; before <= most && before <= place; before++)
        if ((job->begins[place - before] || was_freed(job, place - before, place - (before > LINK), end_of(job, row))) &&
            (before == LINK || job->page[place - 1] == length))
            return before;
    return 0;
}

/* The lists of the rows that a call finds, with as much room as they may take. */
struct lists {
    uint64_t *rows, *cols;
    size_t rows_len, cols_len;
};

static struct lists lists_of(const struct job *job, size_t columns)
{
    size_t room = LIST_WORDS / (PHS_WORDS_PER_ROW + columns * PHS_WORDS_PER_ENTRY);
    size_t rows_len = room * PHS_WORDS_PER_ROW;
    struct lists lists = {job->lists, job->lists + rows_len, rows_len, room * columns * PHS_WORDS_PER_ENTRY};

    return lists;
}

/* Prints the rows in the freed blocks of the page, by the hints behind the first `skip` ones; returns the refusal. */
static uint64_t carve_blocks(struct job *job, size_t skip)
{
    size_t columns = job->columns - skip;
    struct lists lists = lists_of(job, columns);
    uint64_t out[1];
    uint64_t refusal = phs_scan_single_page_gap(job->rebuilding, job->page, job->len, job->header, job->base, job->hints + skip,
                                                columns, lists.rows, lists.rows_len, lists.cols, lists.cols_len, out);

    for (uint64_t i = 0; i < out[0] && refusal == PHS_OK; i++) {
        uint64_t *row = lists.rows + i * PHS_WORDS_PER_ROW;
        const uint64_t *entries = lists.cols + i * columns * PHS_WORDS_PER_ENTRY;
        int kept;
        if (job->block_end[row[PHS_ROW_OFFSET] - job->base] != 0) /* The others are the gap's. */
            refusal = take_row(job, row, entries, skip, freed_head(job, row, entries, skip), &kept);
    }
    return refusal;
}

/* Whether a row of the gap stands behind a freed cell's link, and behind it another one or the gap's end. What has more of its cell than
   its types is left to the scan. */
static int is_freed_in_gap(const struct job *job, const uint64_t *row, size_t skip)
{
    size_t place = start_of(job, row);
    size_t behind = end_of(job, row);

    return !row[PHS_ROW_HAS_ID] && place >= job->gap + LINK && was_freed(job, place - LINK, place, behind) &&
           (behind + LINK > job->content || link_end(job, behind) != 0) && !lost_type(job, row, skip);
}

/* Prints the rows of freed cells from `start` to `end` in the gap, by the hints behind the first `skip` ones; returns the refusal.
   SQLite fills the gap from its end, over the ends of older rows, so the last row goes first. */
static uint64_t carve_stretch(struct job *job, size_t start, size_t end, size_t skip)
{
    size_t columns = job->columns - skip;
    struct lists lists = lists_of(job, columns);
    uint64_t out[1];
    uint64_t refusal = phs_parse_cells_from_freeblock(job->rebuilding, job->page + start, end - start, job->base + start,
                                                      job->hints + skip, columns, lists.rows, lists.rows_len, lists.cols,
                                                      lists.cols_len, out);

    for (uint64_t i = out[0]; i-- > 0 && refusal == PHS_OK;) {
        const uint64_t *row = lists.rows + i * PHS_WORDS_PER_ROW;
        uint64_t *entries = lists.cols + i * columns * PHS_WORDS_PER_ENTRY;
        int kept;
        if (!is_freed_in_gap(job, row, skip))
            continue;
        for (size_t column = 0; column < columns; column++)
            entries[column * PHS_WORDS_PER_ENTRY + PHS_ENTRY_START] += start;
        refusal = take_row(job, row, entries, skip, LINK, &kept);
    }
    return refusal;
}

/* Prints the rows of freed cells in the gap; returns the refusal. Only what links say they are of is lent: zeros would read as rows. */
static uint64_t carve_gap(struct job *job)
{
    size_t ways = has_key(job) ? 2 : 1;
    uint64_t refusal = PHS_OK;
    size_t end;

    for (size_t start = job->gap; start < job->content; start = end) {
        end = start + 1;
        if (link_end(job, start) == 0)
            continue;
        for (size_t at = start; at <= end && at < job->content; at++)
            if (link_end(job, at) > end)
                end = link_end(job, at);
        if (end > job->content)
            end = job->content;
        for (size_t skip = 0; skip < ways && refusal == PHS_OK; skip++)
            refusal = carve_stretch(job, start, end, skip);
    }
    return refusal;
}

/* Prints the rows in the free space of the page, if it is a leaf of a table; returns the refusal. */
static uint64_t carve_free_space(struct job *job)
{
    uint64_t refusal = PHS_OK;

    if (job->header >= job->len || job->page[job->header] != TABLE_LEAF)
        return PHS_OK;
    job->gap = job->header + 8 + 2 * two_bytes(job, job->header + 3);
    job->content = two_bytes(job, job->header + 5);
    if (job->content == 0)
        job->content = LARGEST_PAGE;
    if (job->content > job->len)
        job->content = 0;
    find_blocks(job);
    if (job->gap < job->content)
        refusal = scan(job, job->gap, job->content);
    if (refusal == PHS_OK)
        refusal = carve_blocks(job, 0);
    /* The hints behind the key and the links in the gap are for guesses. */
    if (job->rebuilding == PHS_NO_GUESSES)
        return refusal;
    if (refusal == PHS_OK && has_key(job))
        refusal = carve_blocks(job, 1);
    return refusal == PHS_OK ? carve_gap(job) : refusal;
}

/* Whether the file's first page is a database's. */
static int is_database(const struct job *job)
{
    static const char MAGIC[16] = "SQLite format 3";

    return job->len >= 18 && memcmp(job->page, MAGIC, sizeof MAGIC) == 0;
}

/* Carves the page, and complains of a refusal, which hides none of the pages behind it. */
static void carve_page(struct job *job)
{
    job->header = job->base == 0 && is_database(job) ? FILE_HEADER : 0;
    memset(job->seen, 0, job->len + 1);
    memset(job->taken, 0, job->len);
    uint64_t refusal = job->whole ? scan(job, 0, job->len) : carve_free_space(job);
    if (refusal == PHS_OK)
        return;
    job->refused++;
    fprintf(stderr, "carve: %s: page %" PRIu64 ": refused %" PRIu64 "%s\n", job->name, job->base / job->size + 1, refusal,
            refusal == PHS_NO_ROOM ? ": the rows need more memory than they may take" : "");
}

/* Whether it is a page size of the file format. */
static int is_page_size(unsigned long size)
{
    return size >= SMALLEST_PAGE && size <= LARGEST_PAGE && (size & (size - 1)) == 0;
}

/* Takes the page size from the file's header where none was given, and complains of a header that names another, or none; returns
   0 where there is none to go on with. */
static int find_page_size(struct job *job)
{
    size_t own = (size_t)job->page[16] << 8 | job->page[17];
    size_t given = job->size;

    if (!is_database(job)) {
        fprintf(stderr, "carve: %s: no database: it does not begin with 'SQLite format 3'%s\n", job->name,
                given == 0 ? "; name a page size" : "");
        return given != 0;
    }
    if (own == 1)
        own = LARGEST_PAGE;
    if (given == 0 && !is_page_size(own)) {
        fprintf(stderr, "carve: %s: its header names no page size, but %zu; name one\n", job->name, own);
        return 0;
    }
    if (given == 0)
        job->size = own;
    else if (own != given)
        fprintf(stderr, "carve: %s: its pages have %zu bytes, not %zu\n", job->name, own, given);
    return 1;
}

/* Reads on until the page has `size` bytes or the file ends. */
static void read_page(struct job *job, size_t size)
{
    job->len += fread(job->page + job->len, 1, size - job->len, job->file);
}

/* Says why the file cannot be opened or read; returns the exit status. */
static int no_file(const struct job *job)
{
    fprintf(stderr, "carve: %s: %s\n", job->name, strerror(errno));
    return 1;
}

/* Carves the file, one page after the other; returns the exit status. */
static int carve_file(struct job *job)
{
    int last;

    read_page(job, SMALLEST_PAGE);
    if (ferror(job->file))
        return no_file(job);
    if (!find_page_size(job))
        return 1;
    printf("page offset confidence padded id values\n");
    do {
        read_page(job, job->size);
        if (ferror(job->file))
            return no_file(job);
        if (job->len > 0)
            carve_page(job);
        last = job->len < job->size;
        job->base += job->len;
        job->len = 0;
    } while (!last);
    printf("rows %" PRIu64 " left out %" PRIu64 "\n", job->rows, job->left_out);
    if (fflush(stdout) != 0 || ferror(stdout)) {
        fprintf(stderr, "carve: the rows cannot be written\n");
        return 1;
    }
    if (job->rebuilding == PHS_NO_GUESSES && !job->whole)
        fprintf(stderr, "carve: no guesses were made; -g brings back rows whose start was overwritten\n");
    return job->refused > 0;
}

/* The page size that a word names, or 0. */
static size_t page_size(const char *word)
{
    char *rest;
    unsigned long size = strtoul(word, &rest, 10);

    return isdigit((unsigned char)word[0]) && *rest == '\0' && is_page_size(size) ? size : 0;
}

/* Takes the options out of the words and keeps the others; returns how many these are, or -1. */
static int read_options(struct job *job, int argc, char **argv)
{
    int words = 0;

    for (int i = 1; i < argc; i++) {
        if (strcmp(argv[i], "-a") == 0 || strcmp(argv[i], "--all") == 0)
            job->all = 1;
        else if (strcmp(argv[i], "-g") == 0 || strcmp(argv[i], "--guesses") == 0)
            job->rebuilding = PHS_EXACT;
        else if (strcmp(argv[i], "-w") == 0 || strcmp(argv[i], "--whole") == 0)
            job->whole = 1;
        else if (argv[i][0] == '-')
            return -1;
        else
            argv[words++] = argv[i];
    }
    return words;
}

/* Reads hints and page size; returns 0 and complains where one is none. No hint is a '('. */
static int read_words(struct job *job, int words, char **argv)
{
    if (words == 3)
        job->size = page_size(argv[2]);
    if (words == 3 && job->size == 0) {
        fprintf(stderr, "carve: a page size is a power of two from %d to %d, not '%s'\n", SMALLEST_PAGE, LARGEST_PAGE,
                argv[2]);
        return 0;
    }
    return strchr(argv[1], '(') != NULL ? read_statement(job, argv[1]) : read_letters(job, argv[1]);
}

int main(int argc, char **argv)
{
    static struct job job;

    if (phs_version() != PHS_VERSION) {
        fprintf(stderr, "carve: the library is of version %" PRIu64 ", not %d\n", phs_version(), PHS_VERSION);
        return 1;
    }
    int words = read_options(&job, argc, argv);
    if (words != 2 && words != 3) {
        fputs(USAGE, stderr);
        return 2;
    }
    if (!read_words(&job, words, argv))
        return 2;
    job.name = argv[0];
    job.file = fopen(job.name, "rb");
    if (job.file == NULL)
        return no_file(&job);
    job.lists = malloc(LIST_WORDS * sizeof *job.lists);
    int status = 1;
    if (job.lists == NULL)
        fprintf(stderr, "carve: not enough memory\n");
    else
        status = carve_file(&job);
    free(job.lists);
    fclose(job.file);
    return status;
}
