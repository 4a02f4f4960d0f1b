/* Panxidell as C sees it: the static library libpanxidell_c.a.
 *
 * A document is a run of bytes; a table is a run of uint32_t, six to a row. The library measures a document, fills a table with its rows,
 * checks a table, walks it and writes its document, and it reads and writes variable integers.
 *
 * Every function is total: it answers whatever the lent memory holds, and no call is forbidden by its values. What each answers and what each
 * leaves in lent memory is proved (docs/PROMISES.md, panxidell_c).
 *
 * Memory
 *   The caller lends all of it. The library allocates nothing, frees nothing, keeps no pointer after a call and has no state: calls from
 *   several threads are apart as long as nobody writes memory that a running call was lent.
 *   A pointer stands before its length. A length counts elements, not bytes: uint8_t of data and output, uint32_t of a table or a list.
 *   A pointer is never null and is aligned for its type, of a length of 0 too; then nothing is read or written through it, and the address of
 *   any object of its type will do. So a uint32_t pointer is aligned to 4 bytes.
 *   A const pointer is read only. Memory that a call writes (a pointer without const) overlaps no other memory of the same call.
 *
 * Answers
 *   A uint64_t: the number of the answer in the top 8 bits, the number beside it in the low 56. PANXIDELL_OK is 0, all others are refusals.
 *   A number beside a refusal that is not named below is 0. */
#ifndef PANXIDELL_H
#define PANXIDELL_H

#include <stddef.h>
#include <stdint.h>

#ifdef __cplusplus
extern "C" {
#endif

/* The most bytes of a document or of data, and the most rows of a table. */
#define PANXIDELL_LIMIT 16777215u

/* The uint32_t of a row. A table lends as many rows as it has whole sixes. */
#define PANXIDELL_WORDS 6u

/* How deep positions nest: the document's is 0. */
#define PANXIDELL_DEPTH 32u

/* The numbers of the answers, and the number beside each. */
enum panxidell_answer {
    PANXIDELL_OK = 0,         /* accepted: rows, bytes written or used, a standing, or 0: see each function */
    PANXIDELL_TOO_LONG = 1,   /* document above PANXIDELL_LIMIT bytes: 0 from measuring and filling, the bytes needed from writing */
    PANXIDELL_SHORT = 2,      /* bytes end inside an item: place; 0 from the variable integers */
    PANXIDELL_MARKER = 3,     /* 0e, 0f, or 0d before other than 0d, 00: place */
    PANXIDELL_HUGE = 4,       /* length, count or number above PANXIDELL_LIMIT: place */
    PANXIDELL_TEXT = 5,       /* text is not RFC 3629: place */
    PANXIDELL_CHAR = 6,       /* no codepoint that is allowed: place */
    PANXIDELL_NO_ENTRY = 7,   /* reference not in force: place */
    PANXIDELL_EMPTY = 8,      /* declaration of 0 entries: place */
    PANXIDELL_DEEP = 9,       /* position at depth 33: place */
    PANXIDELL_EXTRA = 10,     /* bytes after the value: the place of the first of them */
    PANXIDELL_FULL = 11,      /* the document is right, but has more rows than are lent: rows needed; never from measuring */
    PANXIDELL_BAD_TABLE = 12, /* a row rule is broken, a standing is forged, or n is too large: 0 */
    PANXIDELL_NO_ROOM = 13,   /* output too small: bytes needed; a list too short: its length needed */
    PANXIDELL_NO_STEP = 14    /* nothing that way: 0 */
};

/* A row's six uint32_t are kind, end, w0, w1, w2, w3. End is the row behind all the row's children; a leaf's is its row + 1. Rows stand in
 * document order, a holder before its children. Words that are not named are 0. A place is an index into the data. A foreign document sees
 * no entry that is declared around it: one that refers to such an entry is damaged, with PANXIDELL_NO_ENTRY in w2. */
enum panxidell_word {
    PANXIDELL_KIND = 0,
    PANXIDELL_END = 1,
    PANXIDELL_W0 = 2,
    PANXIDELL_W1 = 3,
    PANXIDELL_W2 = 4,
    PANXIDELL_W3 = 5
};

enum panxidell_kind {
    PANXIDELL_KIND_FALSE = 1,
    PANXIDELL_KIND_TRUE = 2,
    PANXIDELL_KIND_NONE = 3,
    PANXIDELL_KIND_SMALL = 4,        /* integer in -31..64: w0..w3 are 128 bits, low word first, two's complement */
    PANXIDELL_KIND_SIGNED = 5,       /* any other of a signed form: likewise */
    PANXIDELL_KIND_UNSIGNED = 6,     /* any other of an unsigned form: w0..w3 are 128 bits, low word first */
    PANXIDELL_KIND_FLOAT = 7,        /* w0 place, w1 size: 2, 4, 8, 16 or 32 */
    PANXIDELL_KIND_TEXT = 8,         /* w0 place, w1 size */
    PANXIDELL_KIND_ARRAY = 9,        /* w0 elements */
    PANXIDELL_KIND_RECORD = 10,      /* w0 entries, a key and a value each */
    PANXIDELL_KIND_MAP = 11,         /* w0 entries, two values each */
    PANXIDELL_KIND_BINARY = 12,      /* w0 place, w1 size */
    PANXIDELL_KIND_CHAR = 13,        /* w0 codepoint */
    PANXIDELL_KIND_REFERENCE = 14,   /* w0 number, w1 row of that entry */
    PANXIDELL_KIND_DECLARATION = 15, /* w0 entries, which are its first children; then its value */
    PANXIDELL_KIND_FOREIGN = 16,     /* right: one child. Damaged: w0 place, w1 size, w2 the refusal (2..10), no child */
    PANXIDELL_KIND_KEY = 17          /* a record's key: w0 place, w1 size */
};

/* The number of an answer. */
static inline unsigned panxidell_number(uint64_t answer)
{
    return (unsigned)(answer >> 56);
}

/* The number beside it. */
static inline uint64_t panxidell_beside(uint64_t answer)
{
    return answer & UINT64_C(0x00ffffffffffffff);
}

/* The row of a step's answer; 0 under a refusal. */
static inline uint32_t panxidell_row(uint64_t answer)
{
    return (uint32_t)(panxidell_beside(answer) >> 32);
}

/* The bound of a step's answer; 0 under a refusal. */
static inline uint32_t panxidell_bound(uint64_t answer)
{
    return (uint32_t)(answer & UINT64_C(0xffffffff));
}

/* Measures the document data[0..len). Nothing is written.
 *   0: rows needed. A table of just so many is never too small for panxidell_fill, and a document needs no more rows than it has bytes.
 *   1, 2..10: as above. 1 is asked first. It is never 11. */
uint64_t panxidell_measure(const uint8_t *data, size_t len);

/* Fills table with the rows of the document data[0..len).
 *   0: rows used, as many as panxidell_measure says. They stand from the front of the table on, every number behind them is 0.
 *   1, 2..10: as panxidell_measure answers. 11: asked last. Every number of the table is 0, those behind the last whole row too.
 * The document is measured whole before a row is written, and under a refusal nothing but zeros is written: no row of a document that is
 * refused stands in the table, not for a while either. */
uint64_t panxidell_fill(const uint8_t *data, size_t len, uint32_t *table, size_t words);

/* Whether the first n rows of table obey the row rules over data, wherever they came from. Rows behind n are not looked at.
 *   0: n.
 *   12: a rule is broken, the table has fewer than n rows, n is 0 or above PANXIDELL_LIMIT, or len is above PANXIDELL_LIMIT. */
uint64_t panxidell_check(const uint32_t *table, size_t words, size_t n, const uint8_t *data, size_t len);

/* Writes the document of the first n rows of table over data at the front of out, each value in the fewest bytes that its kind allows.
 *   0: bytes written; every other byte of out is as it was.
 *   12: the table does not pass the check. 1: the document would be above PANXIDELL_LIMIT bytes; beside it the bytes needed, which may pass
 *   32 bits. 13: bytes needed. They are asked in this order, and out is as it was. */
uint64_t panxidell_write(const uint32_t *table, size_t words, size_t n, const uint8_t *data, size_t len, uint8_t *out, size_t room);

/* Steps from a standing: a row, and as its bound the end of the holder around it. A walk of n rows starts at row 0 with bound n. The table
 * need not have passed the check.
 *   0: the new standing, by panxidell_row and panxidell_bound.
 *   14: nothing that way. The standing asked from stays good.
 *   12: the standing is forged (the table has fewer than n rows; row is not below n; bound is not in row + 1..n; the row's end is not in
 *   row + 1..bound), along leads to a row that is not before the reference, or n is above PANXIDELL_LIMIT: a row is packed in 24 bits, and
 *   no table of more rows passes the check.
 * in: to the first child. on: to the next child of the same holder. along: from a reference to its entry. */
uint64_t panxidell_in(const uint32_t *table, size_t words, size_t n, size_t row, size_t bound);
uint64_t panxidell_on(const uint32_t *table, size_t words, size_t n, size_t row, size_t bound);
uint64_t panxidell_along(const uint32_t *table, size_t words, size_t n, size_t row, size_t bound);

/* Goes from row along references and from declarations to their values, to a row that is neither. The table need not have passed the check.
 *   0 (beside it 0): out[0] is that row, out[1] its end, out[2] the moves that led there.
 *   12: a broken move, the n-th move, a row that is not below n, a table of fewer than n rows, or n above PANXIDELL_LIMIT.
 *   out[0..3) are 0.
 *   13, whatever else is wrong: three is below 3; beside it 3. out is as it was.
 * What is behind out[0..3) stays as it was. */
uint64_t panxidell_resolve(const uint32_t *table, size_t words, size_t n, size_t row, uint32_t *out, size_t three);

/* Where a row's payload (kinds 7, 8, 12, 17) lies in data.
 *   0 (beside it 0): out[0] is the place, out[1] the size, and data[place..place + size) the payload. Both are 0 for other kinds, for a row
 *   that is not in the table and for bytes outside the data.
 *   13, whatever else is wrong: two is below 2; beside it 2. out is as it was.
 * What is behind out[0..2) stays as it was. */
uint64_t panxidell_payload(const uint32_t *table, size_t words, size_t row, const uint8_t *data, size_t len, uint32_t *out, size_t two);

/* The variable integer at the front of data. Its value has 128 bits: words4[0] is the low word; two's complement where it is signed.
 *   0: bytes used, 1 to 17. words4[0..4) is the value.
 *   2 (beside it 0): too few bytes. words4[0..4) are 0.
 *   13, whatever else is wrong: four is below 4; beside it 4. words4 is as it was.
 * What is behind words4[0..4) stays as it was. */
uint64_t panxidell_read_unsigned(const uint8_t *data, size_t len, uint32_t *words4, size_t four);
uint64_t panxidell_read_signed(const uint8_t *data, size_t len, uint32_t *words4, size_t four);

/* The value of four words, w0 the low one, as a variable integer in the fewest bytes, at the front of out.
 *   0: bytes written, 1 to 17; every other byte of out is as it was.
 *   13: bytes needed. out is as it was. */
uint64_t panxidell_write_unsigned(uint8_t *out, size_t room, uint32_t w0, uint32_t w1, uint32_t w2, uint32_t w3);
uint64_t panxidell_write_signed(uint8_t *out, size_t room, uint32_t w0, uint32_t w1, uint32_t w2, uint32_t w3);

#ifdef __cplusplus
}
#endif

#endif
