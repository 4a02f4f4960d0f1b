/* Measures a document, fills a table of just its rows, checks it, walks it and prints an indented listing, then writes it back. */
#include "panxidell.h"

#include <inttypes.h>
#include <stdio.h>
#include <stdlib.h>
#include <string.h>

static const char *const names[] = {
    "",      "false",  "true", "none",   "integer", "integer",   "integer",     "float",   "text",
    "array", "record", "map",  "binary", "char",    "reference", "declaration", "foreign", "key",
};

typedef struct {
    const uint8_t *data;
    size_t length;
    const uint32_t *table;
    size_t words, rows;
} document;

static _Noreturn void fail(const char *what, uint64_t answer) {
    fprintf(stderr, "%s: refused %u %" PRIu64 "\n", what, panxidell_number(answer), panxidell_beside(answer));
    exit(1);
}

static void *lend(size_t size) {
    void *memory = malloc(size ? size : 1);
    if (!memory) {
        fputs("no memory\n", stderr);
        exit(1);
    }
    return memory;
}

static uint8_t *bytes_of(const char *path, size_t *length) {
    FILE *file = fopen(path, "rb");
    if (!file || fseek(file, 0, SEEK_END)) {
        perror(path);
        exit(1);
    }
    *length = (size_t)ftell(file);
    rewind(file);
    uint8_t *data = lend(*length);
    if (fread(data, 1, *length, file) != *length) {
        perror(path);
        exit(1);
    }
    fclose(file);
    return data;
}

/* The row's part of the data: text as it is, other bytes as digits. */
static void print_payload(const document *d, size_t row, int is_text) {
    uint32_t part[2];
    panxidell_payload(d->table, d->words, row, d->data, d->length, part, 2);
    if (is_text) {
        fputs(" \"", stdout);
        fwrite(d->data + part[0], 1, part[1], stdout);
        putchar('"');
        return;
    }
    putchar(' ');
    for (uint32_t i = 0; i < part[1]; i++) printf("%02x", d->data[part[0] + i]);
}

/* An integer of up to 64 bits in digits, a wider one in hexadecimal. */
static void print_integer(const uint32_t *words) {
    uint64_t low = (uint64_t)words[PANXIDELL_W1] << 32 | words[PANXIDELL_W0];
    uint32_t above = words[PANXIDELL_KIND] != PANXIDELL_KIND_UNSIGNED && low >> 63 ? UINT32_MAX : 0;
    if (words[PANXIDELL_W2] != above || words[PANXIDELL_W3] != above)
        printf(" 0x%08" PRIx32 "%08" PRIx32 "%016" PRIx64, words[PANXIDELL_W3], words[PANXIDELL_W2], low);
    else if (above)
        printf(" -%" PRIu64, 0 - low);
    else
        printf(" %" PRIu64, low);
}

static void print_row(const document *d, size_t row) {
    const uint32_t *words = d->table + PANXIDELL_WORDS * row;
    uint32_t at[3];
    printf("%s", names[words[PANXIDELL_KIND]]);
    switch (words[PANXIDELL_KIND]) {
    case PANXIDELL_KIND_SMALL:
    case PANXIDELL_KIND_SIGNED:
    case PANXIDELL_KIND_UNSIGNED: print_integer(words); break;
    case PANXIDELL_KIND_TEXT:
    case PANXIDELL_KIND_KEY: print_payload(d, row, 1); break;
    case PANXIDELL_KIND_FLOAT:
    case PANXIDELL_KIND_BINARY: print_payload(d, row, 0); break;
    case PANXIDELL_KIND_CHAR: printf(" U+%04" PRIX32, words[PANXIDELL_W0]); break;
    case PANXIDELL_KIND_REFERENCE: {
        uint64_t along = panxidell_along(d->table, d->words, d->rows, row, words[PANXIDELL_END]);
        uint64_t behind = panxidell_resolve(d->table, d->words, d->rows, row, at, 3);
        if (panxidell_number(along) || panxidell_number(behind)) fail("reference", along);
        printf(" %" PRIu32 ", row %" PRIu32 ", which is ", words[PANXIDELL_W0], panxidell_row(along));
        print_row(d, at[0]);
        return;
    }
    case PANXIDELL_KIND_DECLARATION: printf(" of %" PRIu32, words[PANXIDELL_W0]); break;
    case PANXIDELL_KIND_FOREIGN:
        if (words[PANXIDELL_W2]) printf(", damaged: %" PRIu32 " bytes at %" PRIu32 ", verdict %" PRIu32, words[PANXIDELL_W1], words[PANXIDELL_W0], words[PANXIDELL_W2]);
        break;
    default: break;
    }
}

/* A row and what stands behind it in the same holder. Depth goes no further than the paper's 32. */
static void walk(const document *d, size_t row, size_t bound, int depth) {
    for (;;) {
        printf("%*s", 2 * depth, "");
        print_row(d, row);
        putchar('\n');
        uint64_t in = panxidell_in(d->table, d->words, d->rows, row, bound);
        if (panxidell_number(in) == PANXIDELL_OK)
            walk(d, panxidell_row(in), panxidell_bound(in), depth + 1);
        else if (panxidell_number(in) != PANXIDELL_NO_STEP)
            fail("in", in);
        uint64_t on = panxidell_on(d->table, d->words, d->rows, row, bound);
        if (panxidell_number(on) == PANXIDELL_NO_STEP) return;
        if (panxidell_number(on) != PANXIDELL_OK) fail("on", on);
        row = panxidell_row(on);
    }
}

int main(int count, char **arguments) {
    document d = {0};
    uint8_t *data = bytes_of(count > 1 ? arguments[1] : "examples/twin-panel", &d.length);
    d.data = data;

    /* the rows that were measured are lent, and no more: that is never too small */
    uint64_t answer = panxidell_measure(data, d.length);
    if (panxidell_number(answer)) fail("measure", answer);
    d.rows = (size_t)panxidell_beside(answer);
    d.words = PANXIDELL_WORDS * d.rows;
    uint32_t *table = lend(d.words * sizeof *table);
    d.table = table;
    answer = panxidell_fill(data, d.length, table, d.words);
    if (panxidell_number(answer)) fail("fill", answer);
    answer = panxidell_check(table, d.words, d.rows, data, d.length);
    if (panxidell_number(answer)) fail("check", answer);
    printf("%zu bytes, %zu rows\n", d.length, d.rows);

    walk(&d, 0, d.rows, 0);

    /* shortest forms: never longer than what was read */
    uint8_t *out = lend(d.length);
    answer = panxidell_write(table, d.words, d.rows, data, d.length, out, d.length);
    if (panxidell_number(answer)) fail("write", answer);
    size_t written = (size_t)panxidell_beside(answer);
    if (written == d.length && !memcmp(out, data, written))
        puts("written back: the same bytes");
    else
        printf("written back: %zu bytes, since the document was not in its shortest forms\n", written);
    free(out);
    free(table);
    free(data);
    return 0;
}
