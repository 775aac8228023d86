/*
 * Phsarodil: rows carved out of what is left in SQLite pages.
 *
 * Link with libphsarodil.a (x86-64 Linux), which tools/archive writes to target/staticlib, and see that
 * phs_version() == PHS_VERSION before anything else. The archive needs `memcpy` and `memset` of whoever links it, which any
 * C library has, and nothing else.
 *
 * Memory. A call allocates nothing, keeps no pointer and has no state, so calls may run on any threads at once. All
 * memory stays the caller's. A slice is a pointer and a length in elements. No pointer may be NULL, not even where its
 * length is 0, and memory that a call writes may overlap nothing else that is lent to the same call. A call reads
 * nothing outside its slices and takes any bytes and numbers whatever: what it cannot answer it refuses.
 *
 * Stack. The calls on freed blocks and free space (phs_recover_.., phs_scan_page_.., phs_scan_single_page_gap and
 * phs_parse_cells_from_freeblock) take at most 67,300 bytes of it, phs_learn_signatures 24,800, phs_boyer_moore_search
 * 2,200 and any other call 1,000, whatever they are lent: the frames of the archive along the deepest chain of calls come to no
 * more, and a stack that was painted before the calls showed no more. What memcpy and memset take comes on top.
 *
 * Answers. Each call but phs_version returns a refusal number, 0 for none, and puts the rest of its answer into `out`,
 * which has as many words as the call says; PHS_MOST_OUT are enough for any. Every word of them is written by every call; a
 * word with nothing to say is 0.
 *
 * Lists. Rows and their column entries go into two lists, `rows` and `cols`, which are filled from the front. Row i
 * has the words rows[PHS_WORDS_PER_ROW * i ..] and, for n columns, the n entries cols[PHS_WORDS_PER_ENTRY * n * i ..]; a call
 * that is lent hints has a column for each. There is room for the smaller of rows_len / PHS_WORDS_PER_ROW and
 * cols_len / (PHS_WORDS_PER_ENTRY * n) rows. Only the cells of rows that out[0] counts are written; all others keep what they
 * held. Hints, types, leaves and places go into one list in the same way. Refusals 1 to 7 write no list.
 *
 * Padded numbers. A varint is padded if it takes more bytes than the shortest one of its value, as 80 01 does for 1. SQLite
 * writes none, so a padded one in a header is a strong hint that the row is none. PHS_ROW_PADDED is 1 where the header's length
 * is padded, or a type that was read for the row, also a last one that runs past the header's end. Guesses and rows of
 * PHS_MODE_COLUMNS_ONLY and PHS_MODE_FIRST_COL_MISSING have no header length, so there it tells of types alone. The record's
 * length and the row id of a cell do not count. No row is left out for it, and no confidence is less.
 *
 * Databases. A call sees the bytes that it is lent, and no file. The log that may stand beside a database, its name with -wal
 * behind it, may have newer pages than the database; no call reads it yet. Work on a copy of both files: sqlite3 writes the log
 * into the database and deletes it when it closes a database that it opened, even where it only read.
 *
 * Deleted rows. SQLite overwrites the first four bytes of a cell that it frees. They hold the record's length, the row id and
 * the header's length, and, where each of these takes one byte, the first column's type: so of rows with a row id from 0 to
 * 127 and a record of at most 127 bytes, which may be all of a small table.
 *     An INTEGER PRIMARY KEY as the first column has a type, that of NULL, and no body: its value is the row id. Records that
 *     have all types need PHS_HINT_NULL in its place, as phs_column_hints gives it. In freed blocks of such rows the key's type
 *     is gone, and the hints behind the key bring all other columns back, as guesses (enum phs_rebuilding). So for such a table
 *     make two calls on free space, with either hints.
 *     Of any other first column the length of the body is lost with the type, and that body stands before all others. HINTS
 *     FROM THE SECOND COLUMN ON MUST NOT BE LENT FOR IT: types and confidence look right, and every value is read from the
 *     wrong place, unless that body has no bytes. Lend fewer hints than columns for a key alone.
 *
 * What a scan gives away. All that it writes and answers, the count with it, is a function of its other arguments, of the
 * region's length and of the bytes that its attempts read as headers. That is proved. The compiled scan may look at other
 * bytes as well, such as those of a run from 128 up in which a header ends; nothing that it answers depends on them.
 * A row may be none: any bytes make one that read as a header of the right number of types, one of which suits its hint. Where these
 * bytes were text, the row's types are that text, a byte each. A type also shows an integer's size and that a REAL is whole,
 * a length how long a note is. Dropping rows of low confidence makes text in types rarer; nothing excludes it. README, "What
 * the sheet gives away", has an example.
 *     Of phs_scan_page_gap and phs_scan_single_page_gap it is proved for the rows of the gap, which come first: with the same
 * other arguments they are a function of the page's length, of the count of cells and the start of the content in its header,
 * and of the bytes that attempts in the gap read as headers. For the rows of freed blocks it is not. Those rest on where the
 * first block is, on the four bytes that each block begins with, on the lengths and row ids of cells, on the bytes that are
 * read as their records' headers, and on those that are read as types where a header is rebuilt, at every byte of a block.
 * They may be none as well, and their types text.
 */
#ifndef PHSARODIL_H
#define PHSARODIL_H

#include <stddef.h>
#include <stdint.h>

#ifdef __cplusplus
extern "C" {
#endif

/*
 * The version of this header. It changes when the words of a row, of an entry or of an answer do, or what a call takes;
 * a call that is added leaves it.
 */
#define PHS_VERSION 4

/* The version of the library. Where it is not PHS_VERSION, no other call may be made. */
uint64_t phs_version(void);

/* Refusals. The checks of a call come in rising order, unless it says otherwise; the first that holds is returned. */
enum phs_refusal {
    PHS_OK = 0,
    PHS_COLUMN_COUNT = 1,   /* no columns, or more than PHS_MOST_COLUMNS; with PHS_ONE_BYTE, PHS_MOST_ONE_BYTE_COLUMNS */
    PHS_MALFORMED = 2,      /* a hint code above 5, no enum phs_rebuilding, unlike lists of tables, or bad column entries */
    PHS_TOO_LARGE = 3,      /* more than PHS_LARGEST_REGION bytes, or than one of the other limits below */
    PHS_BASE_TOO_FAR = 4,   /* a base above PHS_LARGEST_BASE */
    PHS_PAGE_SIZE = 5,      /* not a page size of the file format */
    PHS_NO_SUCH_PAGE = 6,   /* page 0, or a page that is not wholly in the database */
    PHS_NO_COLUMN_LIST = 7, /* a statement without a '(', or without a ')' behind it */
    PHS_WALK_SPACE = 8,     /* flags_len < len / page_size, with nothing walked; or else a full page stack */
    PHS_NO_ROOM = 9         /* one row, hint, type, place or leaf more than the lent list takes */
};

#define PHS_MOST_OUT 4 /* words of `out` that any call takes */
#define PHS_WORDS_PER_ROW 9
#define PHS_WORDS_PER_ENTRY 4
#define PHS_MOST_COLUMNS 510
#define PHS_MOST_ONE_BYTE_COLUMNS 126 /* in a call that is lent PHS_ONE_BYTE */
#define PHS_LARGEST_REGION 16777216
#define PHS_LARGEST_STATEMENT 65536
#define PHS_MOST_TABLES 1024
#define PHS_MOST_LEARNED 1024 /* rows to learn from */
#define PHS_LARGEST_BASE UINT64_C(0x1000000000000) /* 2 to the power of 48 */

/* What a column is expected to hold. Every hint takes a NULL. */
enum phs_hint {
    PHS_HINT_INTEGER = 0, /* takes the whole values of a REAL column, too, which are stored as integers */
    PHS_HINT_REAL = 1,    /* does not take them: for a column that has both, PHS_HINT_ANY */
    PHS_HINT_TEXT = 2,
    PHS_HINT_BLOB = 3,
    PHS_HINT_NULL = 4,    /* for an INTEGER PRIMARY KEY, too: "Deleted rows", above */
    PHS_HINT_ANY = 5
};

/*
 * Whether the calls on free space bring guesses, and which. A guess is a row whose header length is made up: at each byte of a
 * freed block types are taken to begin, and all before them to be lost.
 *     PHS_NO_GUESSES: none is made. The rows are those of the gap and of whole cells. A code that nobody set and that is 0 is
 *         this one.
 *     PHS_ONE_BYTE: the types of all columns take one byte each, and the bodies stand behind so many bytes. A type of more
 *         bytes makes no row, or, in the last column, one whose bodies are read from inside that type. This is what the Rust
 *         does that the library is held against. More than PHS_MOST_ONE_BYTE_COLUMNS columns are refused.
 *     PHS_EXACT: as many types as there are columns, of one to nine bytes each, and the bodies stand behind the last of them.
 *         There is no row where the types take more than 510 bytes.
 * What these calls bring back of rows deleted between others are mostly guesses, and most guesses are none (docs/BENCH.md). It
 * is proved (docs/RULES.md, 11.13) that with room for either list that of PHS_NO_GUESSES is that of each other code without its
 * guesses, in the same order. The words of a row do not say that it is a guess: in what phs_parse_cells_from_freeblock lists it is one if it
 * has no row id, in other lists if that of PHS_NO_GUESSES lacks it.
 * Whoever wants guesses lends PHS_EXACT, unless the rows are to be those of the Rust: from 58 bytes of text or blob on a type takes
 * two bytes, so a note that long needs it, and so does a table of more columns. At a byte from which on all types take one byte
 * each both find the same; elsewhere either may find a row and the other none, or another one. So neither list holds the other:
 * whoever wants all rows of both makes both calls.
 */
enum phs_rebuilding { PHS_NO_GUESSES = 0, PHS_ONE_BYTE = 1, PHS_EXACT = 2 };

/* The tag of a value. */
enum phs_tag { PHS_NONE = 0, PHS_NULL = 1, PHS_INTEGER = 2, PHS_REAL = 3, PHS_TEXT = 4, PHS_BLOB = 5 };

/* The words of a row. */
enum phs_row_word {
    PHS_ROW_OFFSET = 0,     /* of its first byte: the base, plus its place in the region, page or database */
    PHS_ROW_CONSUMED = 1,   /* its bytes, header and bodies */
    PHS_ROW_HAS_ID = 2,     /* 1 if there is a row id, else 0 */
    PHS_ROW_ID = 3,         /* the row id's bits, two's complement; 0 if there is none */
    PHS_ROW_SOURCE = 4,     /* an enum phs_source */
    PHS_ROW_PERCENT = 5,    /* for people, from 0 to 100; 0 for the sources 0 and 1 */
    PHS_ROW_CONFIDENCE = 6, /* the bits of a 32-bit float: the share of columns that suit their hints, or as a call says */
    PHS_ROW_MODE = 7,       /* an enum phs_mode, plus 4 times the table's index where tables are lent */
    PHS_ROW_PADDED = 8      /* 1 if the header's length or a type is padded, else 0: "Padded numbers", above */
};

enum phs_source {
    PHS_SOURCE_SCAN = 0,
    PHS_SOURCE_FREELIST = 1,
    PHS_SOURCE_CARVED_INTRA_PAGE = 2,
    PHS_SOURCE_CARVED_UNALLOC = 3
};

/* 0 but for the rows of phs_carve_freeblock, which warns of the last. */
enum phs_mode { PHS_MODE_NONE = 0, PHS_MODE_NORMAL = 1, PHS_MODE_COLUMNS_ONLY = 2, PHS_MODE_FIRST_COL_MISSING = 3 };

/* The words of a column entry. phs_read_entry makes a value of them. */
enum phs_entry_word {
    PHS_ENTRY_STATE = 0,  /* an enum phs_state */
    PHS_ENTRY_KIND = 1,   /* the serial type */
    PHS_ENTRY_START = 2,  /* of the body, in the slice that the row was found in */
    PHS_ENTRY_LENGTH = 3  /* of the body, in bytes */
};

/* In the states 2 and 3 all other words are 0, in state 1 start and length are. */
enum phs_state {
    PHS_BODY = 0,  /* the body is there */
    PHS_UNFIT = 1, /* the body does not fit, or the type is 10 or 11; reads as NULL, as the next two do */
    PHS_LOST = 2,  /* the column's type was overwritten */
    PHS_UNUSED = 3 /* the entry pads its row's group */
};

/*
 * The varint at bytes[offset].
 * out, 4 words: 1 if it is whole, else 0; its value; the bytes that it takes, 1 to 9; 1 if it is padded, else 0.
 * Returns 0.
 */
uint64_t phs_read_varint(const uint8_t *bytes, size_t len, size_t offset, uint64_t out[4]);

/*
 * The body length of the serial type `kind`.
 * out, 2 words: 1 if it has one, and 0 for the types 10 and 11; the length.
 * Returns 0.
 */
uint64_t phs_body_length(uint64_t kind, uint64_t out[2]);

/*
 * The value of the serial type `kind` whose body starts at bytes[offset].
 * out, 4 words: its tag, PHS_NONE if the type is 10 or 11 or the body leaves the slice;
 *      the bits of an integer, two's complement, or of a real, a double's, any NaN's payload with them;
 *      where a text or a blob starts; the bytes that the body takes.
 * The types 0, 8 and 9 have no body and leave no slice: they have their value at any offset. Any other body leaves the
 * slice if offset + length > len, an empty one too: type 12 has a value at offset len, and none behind it.
 * A text is bytes: nothing says that they are UTF-8. Returns 0.
 */
uint64_t phs_decode_serial_type(uint64_t kind, const uint8_t *bytes, size_t len, size_t offset, uint64_t out[4]);

/*
 * The value of a column entry, given as its four words, over the slice that its row was found in.
 * out, 4 words: tag, bits and start as above; the length of a text or a blob.
 * Returns PHS_MALFORMED for a bad entry: the state is above 3 or, in state 0, the length is not the type's, the type
 * is 10 or 11, or the body leaves the slice. Here that is start + length > len whatever the type: over an empty slice
 * the entry 0, 0, 1, 0 is bad, though phs_decode_serial_type finds a NULL at offset 1.
 */
uint64_t phs_read_entry(uint64_t state, uint64_t kind, uint64_t start, uint64_t length, const uint8_t *bytes,
                        size_t len, uint64_t out[4]);

/*
 * The bytes of a column entry that is a text or a blob.
 * out, 2 words: their start and length in the slice. An empty text or blob, any other entry and a bad one have 0 and 0.
 * Returns 0: phs_read_entry tells a bad entry.
 */
uint64_t phs_view_entry(uint64_t state, uint64_t kind, uint64_t start, uint64_t length, const uint8_t *bytes,
                        size_t len, uint64_t out[2]);

/*
 * Whether the serial type `kind` suits a hint.
 * out, 1 word: 1 if it does, else 0.
 * Returns PHS_MALFORMED for a hint above 5.
 */
uint64_t phs_is_compatible(uint8_t hint, uint64_t kind, uint64_t out[1]);

/*
 * The row that starts at region[offset], if there is one, for a table whose columns have these hints. `base` is where
 * the region lies in its file; it is added to row offsets only. Unlike the scan it finds a row in the last two bytes.
 * out, 3 words: the rows written, 0 or 1; 0; 0.
 * Returns PHS_COLUMN_COUNT, PHS_MALFORMED, PHS_TOO_LARGE, PHS_BASE_TOO_FAR, or PHS_NO_ROOM for a row without room.
 */
uint64_t phs_try_parse_record(const uint8_t *region, size_t len, const uint8_t *hints, size_t hints_len, uint64_t base,
                              size_t offset, uint64_t *rows, size_t rows_len, uint64_t *cols, size_t cols_len,
                              uint64_t out[3]);

/*
 * The rows of a region from `start` on, one behind the other: behind a row the scan goes on at its end, elsewhere at
 * the next byte. No row starts in the last two bytes. A row that is none hides the true ones that start inside it: on
 * real pages that can be most of them (docs/BENCH.md), and phs_try_parse_record at every offset finds them.
 * out, 3 words: the rows written; the place, which is `len` when the scan is through; the count. That is how many header places
 *     the attempts have that the scan finished with, an attempt whose row found no room not among them. An attempt's header
 *     places are the bytes that it reads as the header's length and, where a header may be that long, as types. They are
 *     counted once for each attempt.
 * Returns PHS_COLUMN_COUNT, PHS_MALFORMED, PHS_TOO_LARGE or PHS_BASE_TOO_FAR; or PHS_NO_ROOM, with the place of the
 * first row that found no room. Calling again with that place for `start` goes on there, and it is proved that such calls
 * add up (docs/RULES.md, 4.16), whatever the room of each: their rows and entries one behind the other, the return value
 * and the place of the last, and the sum of their counts are those of one call with the room of all. A call with room for
 * no row stops at the first one, so a loop has to lend room for at least one. Room for len / 2 rows is always enough.
 * The rows rise, start before the last two bytes and do not overlap. It is proved (docs/RULES.md, 4.17) that a call from 0
 * that returns 0 leaves the only list of such rows in which each is what phs_try_parse_record finds at its offset, and
 * which covers every offset before the last two at which that finds a row.
 */
uint64_t phs_scan_region(const uint8_t *region, size_t len, const uint8_t *hints, size_t hints_len, uint64_t base,
                         size_t start, uint64_t *rows, size_t rows_len, uint64_t *cols, size_t cols_len,
                         uint64_t out[3]);

/*
 * The hints of a CREATE TABLE statement: a code of enum phs_hint for each piece between commas, from the first '(' to
 * the last ')', that is no constraint of the table. That is one for each column of a plain table (I stands for INTEGER, R for REAL,
 * and so on). Of a piece the second word decides; one whose words behind the name are INTEGER PRIMARY KEY gets PHS_HINT_NULL, since
 * a record has a NULL there, unless the next word is DESC. Beside each statement are its hints, and those of phs_from_create_sql, below:
 *     t(plot INT, note TEXT)                 IT    IT
 *     t(id INTEGER PRIMARY KEY, n INT)       NI    I
 *     t(id INTEGER PRIMARY KEY DESC, n INT)  II    I
 *     t(id INT PRIMARY KEY, n INT)           II    II
 *     t(check_day TEXT, n INT)               TI    I
 *     t(primary_mail TEXT, n INT)            TI    I
 * Free space of a table whose key is the first column is carved with these hints and with those behind the key ("Deleted rows",
 * above). A piece is a constraint if its first word, up to a blank or a round bracket, is PRIMARY, UNIQUE, CHECK, FOREIGN or
 * CONSTRAINT. Commas in brackets, quotes and comments split as well, a name in quotes may have blanks, and a key may be written in
 * another way; in a table WITHOUT ROWID a key is stored like any column, and the Null is wrong:
 *     t(price DECIMAL(10,2), n INT)          RAI   RAI   one too many
 *     t(a INT, b INT, PRIMARY KEY(a, b))     IIA   IIA   one too many
 *     t(a TEXT DEFAULT 'x,y', n INT)         TAI   TAI   one too many
 *     t("my note" TEXT, n INT)               AI    AI    not a text
 *     t(id INTEGER NOT NULL PRIMARY KEY, n)  IA    A     a NULL in each record: lend NA
 *     t(id INTEGER, n, PRIMARY KEY(id))      IA    IA    the same
 * A scan with a hint too many or too few finds no row that holds all columns: compare out[0] with their number.
 * A statement is meant to be ASCII: a byte above 127 is no blank, and is compared as it is.
 * out, 1 word: the hints written, from the front.
 * Returns PHS_TOO_LARGE, PHS_NO_COLUMN_LIST or PHS_COLUMN_COUNT, in this order and with `hints` as it was; or
 * PHS_NO_ROOM, with as many hints as there was room for.
 */
uint64_t phs_column_hints(const uint8_t *statement, size_t len, uint8_t *hints, size_t hints_len, uint64_t out[1]);

/*
 * The same as the Rust reads it that this library takes the place of, for comparing with it: a piece gets no hint if it holds
 * INTEGER, PRIMARY and KEY anywhere, or begins with the letters PRIMARY, UNIQUE, CHECK, FOREIGN or CONSTRAINT; of any other the second
 * word decides. So a key is left out, and so is a column whose name begins so.
 */
uint64_t phs_from_create_sql(const uint8_t *statement, size_t len, uint8_t *hints, size_t hints_len, uint64_t out[1]);

/*
 * The places of a pattern in a haystack, rising; they may overlap. An empty pattern is nowhere, and so is one that is
 * longer than the haystack: a pattern may be of any size. At worst, as in a haystack of one byte over and over, the
 * search takes len * pattern_len steps.
 * out, 1 word: the places written, from the front.
 * Returns PHS_TOO_LARGE, with `places` as it was; or PHS_NO_ROOM, with the first places, as many as there was room for.
 */
uint64_t phs_boyer_moore_search(const uint8_t *haystack, size_t len, const uint8_t *pattern, size_t pattern_len,
                                uint64_t *places, size_t places_len, uint64_t out[1]);

/*
 * A page of a database by its number; pages count from 1.
 * out, 3 words: where the page starts in `db`; its length; where its b-tree header stands in it, 100 on page 1, else 0.
 * Returns PHS_TOO_LARGE, PHS_PAGE_SIZE or PHS_NO_SUCH_PAGE.
 */
uint64_t phs_get_page_data(const uint8_t *db, size_t len, uint64_t page_size, uint64_t page, uint64_t out[3]);

/*
 * The leaves of the table whose root is the page `root`, in the order in which the walk pops them. Of an interior page the
 * right child is pushed, and then the children of its cells; every one is pushed, also 0, a page that is not there and one
 * that was pushed before, and the last pushed is popped first. A page is looked at once. Children whose pointers lie past
 * the page end the list of them, cells past it are skipped; a page of another type than a table's has none.
 * `flags` has a byte for each whole page, `stack` is the walk's own: both may hold anything before, and all of both is 0
 * after a call that no other refusal than PHS_WALK_SPACE and PHS_NO_ROOM ends.
 * A stack of as many words as there are whole pages takes the walk of any sound table; of a damaged one it may be too small.
 * out, 1 word: the leaves written.
 * Returns PHS_TOO_LARGE or PHS_PAGE_SIZE; PHS_WALK_SPACE or PHS_NO_ROOM. PHS_WALK_SPACE means the flags where flags_len <
 * len / page_size: nothing was walked, and nothing is written. Elsewhere it means the stack: a push found it full, and the
 * leaves popped before that are written. Either way lend more and call again; the walk begins anew.
 */
uint64_t phs_collect_leaf_pages(const uint8_t *db, size_t len, uint64_t page_size, uint64_t root, uint8_t *flags,
                                size_t flags_len, uint64_t *stack, size_t stack_len, uint64_t *leaves,
                                size_t leaves_len, uint64_t out[1]);

/*
 * The rows in the freed blocks of the leaves of tables. Tables are lent as their roots, how many columns each has, and the
 * hints of all, one table's behind the other's; at most PHS_MOST_TABLES. Tables go in the order lent, and each as in
 * phs_collect_leaf_pages, with `flags` and `stack` as there; a leaf is carved as soon as it is popped.
 *
 * The freed blocks of a page are those of the chain that its header names: it ends at 0, at a place before the header's
 * end, 8 bytes on, or past the page, at a place that it has been to, and at a size below 4 or past the page. Of a block the
 * first four bytes are lost to the chain. A row is looked for at the next byte, and then up to 19 bytes on; the first that
 * is found is the block's. Its confidence is the share of columns that suit, times 0.6, so that 0.51 here is what 0.85 is in
 * other calls; its source is PHS_SOURCE_FREELIST.
 * So a cell at the block's start is found where its record's length and its row id take four bytes or more; the others are
 * for phs_scan_page_gaps.
 *
 * A row's offset and its entries' starts are places in `db`; 4 times the table's index is in PHS_ROW_MODE. A group has as many
 * entries as the widest table has columns; those behind a narrower row's columns are PHS_UNUSED.
 * out, 1 word: the rows written.
 * Returns PHS_COLUMN_COUNT; PHS_MALFORMED, also where there are not as many counts as roots, or the counts do not add up to
 * the hints; PHS_TOO_LARGE; PHS_PAGE_SIZE; PHS_WALK_SPACE, which means flags or stack as in phs_collect_leaf_pages, or
 * PHS_NO_ROOM, both with the rows that come first. After PHS_NO_ROOM there is no place to go on from: get the leaves of each
 * table, which come in the same order, by phs_collect_leaf_pages, and carve one after the other by the call on a page. In
 * a database of more than PHS_LARGEST_REGION bytes read one page after the other, and carve it by the call on a slice.
 */
uint64_t phs_recover_freeblocks(const uint8_t *db, size_t len, uint64_t page_size, const uint64_t *roots, size_t roots_len,
                                const uint64_t *counts, size_t counts_len, const uint8_t *hints, size_t hints_len,
                                uint8_t *flags, size_t flags_len, uint64_t *stack, size_t stack_len, uint64_t *rows,
                                size_t rows_len, uint64_t *cols, size_t cols_len, uint64_t out[1]);

/*
 * The same of one page by its number, whatever its type.
 * out, 1 word: the rows written.
 * Returns PHS_COLUMN_COUNT, PHS_MALFORMED, PHS_TOO_LARGE, PHS_PAGE_SIZE, PHS_NO_SUCH_PAGE or PHS_NO_ROOM.
 */
uint64_t phs_recover_page_freeblocks(const uint8_t *db, size_t len, uint64_t page_size, uint64_t page, const uint8_t *hints,
                                     size_t hints_len, uint64_t *rows, size_t rows_len, uint64_t *cols, size_t cols_len,
                                     uint64_t out[1]);

/*
 * The same of a page that is lent by itself, with its b-tree header at page[header]; `base` is the offset of its first byte.
 * out, 1 word: the rows written.
 * Returns PHS_COLUMN_COUNT, PHS_MALFORMED, PHS_TOO_LARGE, PHS_BASE_TOO_FAR or PHS_NO_ROOM.
 */
uint64_t phs_recover_slice_freeblocks(const uint8_t *page, size_t len, size_t header, uint64_t base, const uint8_t *hints,
                                      size_t hints_len, uint64_t *rows, size_t rows_len, uint64_t *cols, size_t cols_len,
                                      uint64_t out[1]);

/*
 * The rows in the free space of the leaves of tables, lent and walked as in phs_recover_freeblocks. `rebuilding` is an enum
 * phs_rebuilding. Of a page it looks at two things, one after the other:
 *     The gap between the end of its cell pointers and the start of its content, if there is one, scanned as phs_scan_region
 *     does.
 *     Its freed blocks, by a chain of its own: from the first block on to each one's next, until that is 0, is past the
 *     page or is not larger, and for 1,024 blocks at the most; a block of a size below 4 or past the page is left out.
 * In a block whole cells come first: a record's length, a row id and the record; behind one that is a row the search goes
 * on at the record's end, elsewhere at the next byte. PHS_ROW_HAS_ID is 1 for these alone, and the offset is the record's.
 * Then come the guesses, if `rebuilding` asks for them: a header is rebuilt at each byte of the block. The offset of such a
 * row is that of its first type, and PHS_ROW_CONSUMED is counted from there. A row at the offset of one of this block's cells
 * is left out.
 * The source is PHS_SOURCE_CARVED_INTRA_PAGE. The confidence is the share of columns that suit, of guesses times 0.9;
 * PHS_ROW_PERCENT is the same in whole hundredths, cut down.
 * With guesses most rows listed on real pages are none. The ones to keep have a confidence of 0.85 or more and are not all
 * NULL; of those that share bytes it is the one with the most values that are not NULL. docs/BENCH.md has what that brings and
 * loses. Rows that were deleted from the end on may lie in the gap without their first four bytes, and no header is rebuilt
 * there: lend the gap to phs_parse_cells_from_freeblock, with guesses. Whoever lends fewer hints than columns reads "Deleted
 * rows", above, first.
 * out, 1 word: the rows written.
 * Returns as phs_recover_freeblocks does, and so are rows and entries; PHS_COLUMN_COUNT also where `rebuilding` is
 * PHS_ONE_BYTE and any table has more than PHS_MOST_ONE_BYTE_COLUMNS columns, PHS_MALFORMED also where it is above PHS_EXACT.
 */
uint64_t phs_scan_page_gaps(uint64_t rebuilding, const uint8_t *db, size_t len, uint64_t page_size, const uint64_t *roots,
                            size_t roots_len, const uint64_t *counts, size_t counts_len, const uint8_t *hints,
                            size_t hints_len, uint8_t *flags, size_t flags_len, uint64_t *stack, size_t stack_len,
                            uint64_t *rows, size_t rows_len, uint64_t *cols, size_t cols_len, uint64_t out[1]);

/*
 * The same of one page by its number, whatever its type. There are no more rows than bytes in a page whose blocks do not
 * overlap; on a damaged page they may. After PHS_NO_ROOM lend more, or carve its blocks by phs_parse_cells_from_freeblock.
 * out, 1 word: the rows written.
 * Returns PHS_COLUMN_COUNT, PHS_MALFORMED, PHS_TOO_LARGE, PHS_PAGE_SIZE, PHS_NO_SUCH_PAGE or PHS_NO_ROOM.
 */
uint64_t phs_scan_page_gap(uint64_t rebuilding, const uint8_t *db, size_t len, uint64_t page_size, uint64_t page,
                           const uint8_t *hints, size_t hints_len, uint64_t *rows, size_t rows_len, uint64_t *cols,
                           size_t cols_len, uint64_t out[1]);

/*
 * The same of a page that is lent by itself, with its b-tree header at page[header]; `base` is the offset of its first byte.
 * out, 1 word: the rows written.
 * Returns PHS_COLUMN_COUNT, PHS_MALFORMED, PHS_TOO_LARGE, PHS_BASE_TOO_FAR or PHS_NO_ROOM.
 */
uint64_t phs_scan_single_page_gap(uint64_t rebuilding, const uint8_t *page, size_t len, size_t header, uint64_t base,
                                  const uint8_t *hints, size_t hints_len, uint64_t *rows, size_t rows_len, uint64_t *cols,
                                  size_t cols_len, uint64_t out[1]);

/*
 * Cells and guesses alone, of what stands behind the first four bytes of one freed block; `base` is the offset of
 * its first byte. There are no more rows than bytes.
 * out, 1 word: the rows written.
 * Returns PHS_COLUMN_COUNT, PHS_MALFORMED, PHS_TOO_LARGE, PHS_BASE_TOO_FAR or PHS_NO_ROOM.
 */
uint64_t phs_parse_cells_from_freeblock(uint64_t rebuilding, const uint8_t *payload, size_t len, uint64_t base,
                                        const uint8_t *hints, size_t hints_len, uint64_t *rows, size_t rows_len,
                                        uint64_t *cols, size_t cols_len, uint64_t out[1]);

/*
 * The rows of a block of bytes, for a table of which only the number of columns is known. With no hints nearly any bytes
 * make a row, so the confidence is the mode's own. Three modes are tried, and PHS_ROW_MODE says which one a row is of:
 *     PHS_MODE_NORMAL, 0.8: a header length, types until the header's end is reached, and the bodies from that end on. It
 *         is tried at the first byte, and behind each row while three bytes are left, up to the first place where it fails.
 * If that found no row, the other two are tried, each once, and each may find one:
 *     PHS_MODE_COLUMNS_ONLY, 0.5: types from the first byte on, and the bodies behind the last of them.
 *     PHS_MODE_FIRST_COL_MISSING, 0.3: the same from the fifth byte on, for a block whose first four bytes were
 *         overwritten. Its first column is PHS_LOST. It needs 5 bytes and 2 columns. DO NOT TRUST ITS VALUES: they are right
 *         where the lost column is a key and its type just the fourth byte, as in "Deleted rows", above. The body of any other
 *         column stands behind the types, before those of the columns that are read, and so each of these is read from the
 *         wrong place. The Rust that the library is held against reads them so, too.
 * No more types are read than there are columns, in the last mode one less, and fewer where header or block ends: the
 * entries behind a row's columns are PHS_UNUSED. A mode fails where it finds no type or one that runs off the block,
 * NORMAL also where the header length is missing, less than the bytes that it takes itself or more than those left.
 * A body that does not fit is PHS_UNFIT, and so is one of a type 10 or 11; the next body starts where it would have. A
 * row ends behind its last body that fits, or where the bodies start if none does. Its source is PHS_SOURCE_FREELIST,
 * its offset `base` plus the place of its first byte: in the last mode that is the block's first, so PHS_ROW_CONSUMED
 * has the four lost bytes in it.
 * out, 1 word: the rows written.
 * Returns PHS_COLUMN_COUNT, PHS_TOO_LARGE, PHS_BASE_TOO_FAR or PHS_NO_ROOM.
 */
uint64_t phs_carve_freeblock(const uint8_t *bytes, size_t len, uint64_t base, size_t columns, uint64_t *rows,
                             size_t rows_len, uint64_t *cols, size_t cols_len, uint64_t out[1]);

/*
 * The serial type that is the commonest in each column of some rows. The rows are lent as their column entries alone, as
 * other calls leave them in `cols`, all over the slice `bytes`, with `width` entries a row. A row is a whole group of
 * 4 * width words: a rest of `entries` that is none is not read.
 * An entry counts by its value, whatever its own type was:
 *     NULL, PHS_UNFIT and PHS_LOST as 0; an integer 0 or 1 as 8; any other as the first of 1, 2, 3 and 4 whose 1, 2, 3
 *     or 4 bytes hold it, or else as 6, never as 5; a real as 7; a text of n bytes as 13 + 2 * n, a blob as 12 + 2 * n.
 * PHS_UNUSED does not count. The column's type is the one that most of its entries count as; of several, the smallest.
 * There are as many types as the longest row has entries that are used: no rows give none.
 * out, 1 word: the types written, from the front.
 * Returns PHS_COLUMN_COUNT for the width; PHS_MALFORMED, where a row has an entry that phs_read_entry refuses, or one
 * that is used behind one that is not; PHS_TOO_LARGE, also for more than PHS_MOST_LEARNED rows; or PHS_NO_ROOM, with the
 * first types, as many as there was room for.
 */
uint64_t phs_learn_signatures(const uint8_t *bytes, size_t len, size_t width, const uint64_t *entries,
                              size_t entries_len, uint64_t *types, size_t types_len, uint64_t out[1]);

/*
 * The rows of a region, for a table whose columns have these serial types, as phs_learn_signatures gives them: any number
 * may stand for a type. Behind a row the search goes on at its end, elsewhere at the next byte, while a byte more than there
 * are types is left.
 * A row has a header length, which is not less than the bytes that it takes itself, at most 512, and not more than the bytes
 * left; types behind it up to the header's end, but no more than `types` has, so that a row may have fewer columns: the
 * entries behind them are PHS_UNUSED; and the bodies from the header's end on, all in the region. One of its types at
 * least is of the class of the one at its place: equal, or both of 1 to 6, 8 and 9, or both texts, or both blobs.
 * The source is PHS_SOURCE_CARVED_UNALLOC. PHS_ROW_PERCENT is a hundred times the types that are of the class, divided by the
 * number of types lent, without the rest; the confidence is the percent divided by 100.
 * out, 1 word: the rows written.
 * Returns PHS_COLUMN_COUNT for the number of types, PHS_TOO_LARGE, PHS_BASE_TOO_FAR or PHS_NO_ROOM.
 */
uint64_t phs_carve_unallocated(const uint8_t *region, size_t len, const uint64_t *types, size_t types_len, uint64_t base,
                               uint64_t *rows, size_t rows_len, uint64_t *cols, size_t cols_len, uint64_t out[1]);

#ifdef __cplusplus
}
#endif

#endif
