// A whole book file in plain C: read, run and reported.
#include "plain.h"
#include <string.h>

// The bytes still to be read. What is read departs from the grammar where a function answers 0.
struct reader {
    const uint8_t *at, *end;
};

static int word(struct reader *r, const char *w) {
    size_t n = strlen(w);
    if ((size_t)(r->end - r->at) < n || memcmp(r->at, w, n)) return 0;
    r->at += n;
    return 1;
}

// A decimal up to 65,535 without needless zeros, and the byte after it.
static int decimal(struct reader *r, uint8_t after, uint64_t *v) {
    const uint8_t *from = r->at;
    for (*v = 0; r->at < r->end && *r->at >= '0' && *r->at <= '9' && r->at - from < 5; r->at++)
        *v = 10 * *v + *r->at - '0';
    if (r->at == from || *v > 65535 || (*from == '0' && r->at - from > 1)) return 0;
    if (r->at == r->end || *r->at != after) return 0;
    r->at++;
    return 1;
}

static int hex(struct reader *r, uint64_t *v) {
    if (r->end - r->at < 16) return 0;
    *v = 0;
    for (int i = 0; i < 16; i++) {
        uint8_t c = *r->at++;
        if (c >= '0' && c <= '9') *v = *v << 4 | (c - '0');
        else if (c >= 'a' && c <= 'f') *v = *v << 4 | (c - 'a' + 10);
        else return 0;
    }
    return 1;
}

static int head(struct reader *r, const char *w, uint64_t most, uint64_t *n) {
    return word(r, w) && decimal(r, '\n', n) && *n <= most;
}

// The two headings of a book's blocks, and how many words of a base are written below each.
static const struct heading {
    const char *word;
    int words;
} narrow_bases = {"BLOCKS ", WORDS / 2}, wide_bases = {"WIDE ", WORDS};

// What is read of a file.
struct book {
    const struct heading *heading;
    uint64_t texts, blocks, rules, count[8], block[BOOK_MOST], rule[64];
};

static int read_block(struct reader *r, int words, uint64_t *b) {
    memset(b, 0, WORDS * sizeof *b);
    for (int w = words; w-- > 0;)
        if (!hex(r, &b[w])) return 0;
    return word(r, " ") && decimal(r, ' ', &b[LOWER]) && decimal(r, '\n', &b[UPPER]);
}

static int read_rule(struct reader *r, uint64_t *rule) {
    return decimal(r, ' ', &rule[0]) && decimal(r, ' ', &rule[1]) && decimal(r, ' ', &rule[2]) &&
           decimal(r, '\n', &rule[3]);
}

// The three sections and nothing after them.
static int read_book(struct reader *r, struct book *b) {
    if (!head(r, "TEXTS ", 8, &b->texts)) return 0;
    for (size_t i = 0; i < b->texts; i++)
        if (!decimal(r, '\n', &b->count[i])) return 0;
    b->heading = r->at < r->end && *r->at == 'W' ? &wide_bases : &narrow_bases;
    if (!head(r, b->heading->word, 256, &b->blocks)) return 0;
    for (size_t i = 0; i < b->blocks; i++)
        if (!read_block(r, b->heading->words, b->block + BLOCK * i)) return 0;
    if (!head(r, "RULES ", 16, &b->rules)) return 0;
    for (size_t i = 0; i < b->rules; i++)
        if (!read_rule(r, b->rule + 4 * i)) return 0;
    return r->at == r->end;
}

static uint8_t *put(uint8_t *to, const char *w) {
    size_t n = strlen(w);
    memcpy(to, w, n);
    return to + n;
}

static uint8_t *put_decimal(uint8_t *to, uint64_t n, uint8_t after) {
    uint8_t digits[20], *d = digits + 20;
    do *--d = '0' + n % 10;
    while (n /= 10);
    while (d < digits + 20) *to++ = *d++;
    *to++ = after;
    return to;
}

static uint8_t *put_hex(uint8_t *to, uint64_t n) {
    for (int i = 60; i >= 0; i -= 4) *to++ = "0123456789abcdef"[n >> i & 15];
    return to;
}

static uint8_t *put_block(uint8_t *to, int words, const uint64_t *b) {
    for (int w = words; w-- > 0;) to = put_hex(to, b[w]);
    *to++ = ' ';
    return put_decimal(put_decimal(to, b[LOWER], ' '), b[UPPER], '\n');
}

// A line for each group by its name, which is that of its least text.
static uint8_t *put_groups(uint8_t *to, const uint64_t *records, size_t texts) {
    for (size_t k = 1; k <= texts; k++, records += RECORD) {
        if (records[GROUP] != k) continue;
        to = put_decimal(put(to, "GROUP "), k, ' ');
        to = put_decimal(put(to, records[IS_NONE] ? "NONE " : "STABLE "), records[MADE], '\n');
    }
    return to;
}

uint64_t run_file(narrowing_by_kind *narrow, const uint8_t *file, size_t n, uint8_t *report, size_t k) {
    static uint8_t work[63001];
    static struct book b;
    struct reader r = {file, file + n};
    if (n > FILE_MOST || !read_book(&r, &b)) return REFUSED;
    size_t nb = BLOCK * b.blocks, nr = 4 * b.rules;
    if (plain_check_book(b.count, b.texts, b.block, nb, b.rule, nr, sizeof work).number || k < REPORT_LEAST)
        return REFUSED;
    uint64_t records[RECORDS];
    run_groups(narrow, b.count, b.texts, b.block, nb, b.rule, nr, work, records);
    uint8_t *to = put_groups(report, records, b.texts);
    to = put_decimal(put(to, "TEXTS "), b.texts, '\n');
    for (size_t i = 0; i < b.texts; i++) to = put_decimal(to, b.count[i], '\n');
    to = put_decimal(put(to, b.heading->word), b.blocks, '\n');
    for (size_t i = 0; i < b.blocks; i++) to = put_block(to, b.heading->words, b.block + BLOCK * i);
    return to - report;
}

uint64_t plain_file(const uint8_t *file, size_t n, uint8_t *report, size_t k) {
    return run_file(plain_by_kind, file, n, report, k);
}
