/* Runs the library, and the text check by itself, on exact-size heap slices, under valgrind's memcheck: it sees every byte
   read or written outside them. What is lent to be written is undefined beforehand, so that with -v it also sees an answer
   that depends on what was there, a table not written whole, and a byte touched that had to stay.
   Files of the corpus (their forms: tests/compare/src/input.rs); behind -d, documents, each behind two bytes of length. */
#include "panxidell.h"

#include <stdio.h>
#include <stdlib.h>
#include <string.h>
#include <valgrind/memcheck.h>

/* The text check by itself, libtext_c.a. */
size_t panxidell_text(const uint8_t *data, size_t length);

static unsigned long calls;
static int asks_values;

static void fail(const char *what) {
    fprintf(stderr, "memory: %s\n", what);
    exit(1);
}

/* So many bytes of the heap; one byte in front, so that they stand at an odd address, is shut. */
static uint8_t *lend_bytes(size_t size) {
    uint8_t *block = malloc(size + 1);
    if (!block) fail("no memory");
    VALGRIND_MAKE_MEM_NOACCESS(block, 1);
    return block + 1;
}

static void take_bytes(uint8_t *bytes) { free(bytes - 1); }

static uint32_t *lend_words(size_t count) {
    uint32_t *words = malloc(4 * count);
    if (!words) fail("no memory");
    return words;
}

static uint8_t *copied(const uint8_t *bytes, size_t size) {
    uint8_t *copy = lend_bytes(size);
    memcpy(copy, bytes, size);
    return copy;
}

/* Whether all of it was written, or none of it. */
static void written(const void *from, size_t size) {
    if (asks_values && size && VALGRIND_CHECK_MEM_IS_DEFINED(from, size)) fail("something lent was not written");
}

static void untouched(const void *from, size_t size) {
    unsigned char bits;
    for (size_t i = 0; asks_values && i < size; i++)
        if (VALGRIND_GET_VBITS((const uint8_t *)from + i, &bits, 1) != 1 || bits != 0xff) fail("something lent was touched");
}

/* Fixed lists of the right length, and of one number less. */
static void fixed(const uint32_t *table, size_t words, size_t n, size_t row, const uint8_t *data, size_t length) {
    for (size_t less = 0; less < 2; less++) {
        uint32_t *three = lend_words(3 - less), *two = lend_words(2 - less);
        panxidell_resolve(table, words, n, row, three, 3 - less);
        panxidell_payload(table, words, row, data, length, two, 2 - less);
        less ? untouched(three, 8) : written(three, 12);
        less ? untouched(two, 4) : written(two, 8);
        free(three);
        free(two);
        calls += 2;
    }
}

static void operations(const uint32_t *table, size_t words, size_t n, const uint8_t *data, size_t length) {
    panxidell_check(table, words, n, data, length);
    uint8_t *out = lend_bytes(0);
    uint64_t answer = panxidell_write(table, words, n, data, length, out, 0);
    take_bytes(out);
    calls += 2;
    if (panxidell_number(answer) == 13) {
        size_t needed = (size_t)panxidell_beside(answer);
        for (size_t room = needed - 1; room <= needed + 1; room++) {
            out = lend_bytes(room);
            answer = panxidell_write(table, words, n, data, length, out, room);
            size_t done = panxidell_number(answer) ? 0 : needed;
            written(out, done);
            untouched(out + done, room - done);
            take_bytes(out);
            calls++;
        }
    }
    for (size_t row = 0; row <= words / 6 && row < 64; row++) {
        size_t end = row < words / 6 ? table[6 * row + 1] : 0;
        panxidell_in(table, words, n, row, end);
        panxidell_on(table, words, n, row, n);
        panxidell_along(table, words, n, row, end);
        calls += 3;
        fixed(table, words, n, row, data, length);
    }
}

/* Fills a table of so many words, all of which are written. It answers as measured, or 11 where the rows are not lent. */
static uint32_t *filled(const uint8_t *data, size_t length, uint64_t measured, size_t words) {
    uint32_t *table = lend_words(words);
    uint64_t answer = panxidell_fill(data, length, table, words), rows = panxidell_beside(measured);
    if (!panxidell_number(measured) && rows > words / 6) measured = UINT64_C(11) << 56 | rows;
    if (answer != measured) fail("fill does not answer as measured");
    written(table, 4 * words);
    calls++;
    return table;
}

/* The table of a right document, or none. No words are lent, and five; a row and a word too few; and rows enough. */
static uint32_t *document(const uint8_t *data, size_t length, size_t *words) {
    if (panxidell_text(data, length) > length) fail("more bytes are text than there are");
    uint64_t measured = panxidell_measure(data, length);
    calls += 2;
    size_t rows = panxidell_number(measured) ? 2 : (size_t)panxidell_beside(measured);
    *words = 6 * rows;
    size_t lent[] = {0, 5, *words - 6, *words - 1, *words + 7};
    for (size_t i = 0; i < sizeof lent / sizeof *lent; i++) free(filled(data, length, measured, lent[i]));
    uint32_t *table = filled(data, length, measured, *words);
    if (panxidell_number(measured)) {
        free(table);
        return NULL;
    }
    operations(table, *words, rows, data, length);
    return table;
}

static size_t number(const uint8_t *bytes, int size) {
    size_t number = 0;
    for (int i = 0; i < size; i++) number |= (size_t)bytes[i] << 8 * i;
    return number;
}

static size_t least(size_t a, size_t b) { return a < b ? a : b; }

static void changed(const uint8_t *bytes, size_t size) {
    if (!size) return;
    size_t changes = least(size - 1, 6 * (bytes[0] % 8u)), length = size - 1 - changes, words;
    uint8_t *data = copied(bytes + 1 + changes, length);
    uint32_t *table = document(data, length, &words);
    if (table) {
        for (size_t i = 0; i + 6 <= changes; i += 6) table[number(bytes + 1 + i, 2) % words] = (uint32_t)number(bytes + 3 + i, 4);
        operations(table, words, words / 6, data, length);
    }
    free(table);
    take_bytes(data);
}

static void table_of(const uint8_t *bytes, size_t size) {
    if (size < 3) return;
    size_t part = least(size - 3, 4 * number(bytes + 1, 2)), words = part / 4, length = size - 3 - part;
    uint32_t *table = lend_words(words);
    for (size_t i = 0; i < words; i++) table[i] = (uint32_t)number(bytes + 3 + 4 * i, 4);
    uint8_t *data = copied(bytes + 3 + part, length);
    operations(table, words, words / 6 + (size_t)(int8_t)bytes[0], data, length);
    free(table);
    take_bytes(data);
}

static void integer(const uint8_t *bytes, size_t size) {
    uint8_t *data = copied(bytes, size);
    uint32_t w[4] = {0};
    for (size_t i = 0; i < 4 && 4 * i + 4 <= size; i++) w[i] = (uint32_t)number(bytes + 4 * i, 4);
    for (int sign = 0; sign < 2; sign++) {
        for (size_t count = 3; count < 6; count++) {
            uint32_t *four = lend_words(count);
            (sign ? panxidell_read_signed : panxidell_read_unsigned)(data, size, four, count);
            size_t done = count < 4 ? 0 : 4;
            written(four, 4 * done);
            untouched(four + done, 4 * (count - done));
            free(four);
        }
        for (size_t room = 0; room < 19; room++) {
            uint8_t *out = lend_bytes(room);
            uint64_t answer = (sign ? panxidell_write_signed : panxidell_write_unsigned)(out, room, w[0], w[1], w[2], w[3]);
            size_t done = panxidell_number(answer) ? 0 : (size_t)panxidell_beside(answer);
            written(out, done);
            untouched(out + done, room - done);
            take_bytes(out);
        }
        calls += 22;
    }
    take_bytes(data);
}

static void input(const uint8_t *bytes, size_t size) {
    if (!size) return;
    size_t words;
    switch (bytes[0] % 4) {
    case 0: {
        uint8_t *data = copied(bytes + 1, size - 1);
        free(document(data, size - 1, &words));
        take_bytes(data);
        break;
    }
    case 1: changed(bytes + 1, size - 1); break;
    case 2: table_of(bytes + 1, size - 1); break;
    default: integer(bytes + 1, size - 1);
    }
}

int main(int count, char **paths) {
    int many = 0, files = 0;
    for (int i = 1; i < count; i++) {
        if (!strcmp(paths[i], "-v") || !strcmp(paths[i], "-d")) {
            *(paths[i][1] == 'v' ? &asks_values : &many) = 1;
            continue;
        }
        FILE *file = fopen(paths[i], "rb");
        if (!file) fail(paths[i]);
        static uint8_t bytes[1 << 21];
        size_t size = fread(bytes, 1, sizeof bytes, file);
        fclose(file);
        if (!many) input(bytes, size);
        for (size_t at = 0, length; many && at + 2 <= size; at += 2 + length) {
            size_t words;
            length = number(bytes + at, 2);
            uint8_t *data = copied(bytes + at + 2, length);
            free(document(data, length, &words));
            take_bytes(data);
        }
        files++;
    }
    printf("%d files, %lu calls%s\n", files, calls, RUNNING_ON_VALGRIND ? "" : ", but not under valgrind");
    return 0;
}
