// Times the proved calls beside the plain C functions, in one run, and prints each ratio. First the answers of all
// sides are compared.
#include "plain.h"
#include "wedgeotter.h"
#include <stdio.h>
#include <stdlib.h>
#include <string.h>
#include <time.h>

// The proved calls: a slice is a pointer and a length.
extreme wedgeotter_least, wedgeotter_greatest;
uint64_t wedgeotter_sweep(const uint64_t *x, size_t n, const uint64_t *y, size_t m, uint64_t *out, size_t k);
uint64_t wedgeotter_tray(const uint64_t *blocks, size_t n, const uint64_t *pairs, size_t m);
fitting wedgeotter_fits;
finding wedgeotter_find;
narrowing wedgeotter_exact, wedgeotter_padded, wedgeotter_any_case, wedgeotter_at_most, wedgeotter_before;
joining wedgeotter_join;
showing wedgeotter_common;
running wedgeotter_book;
filing wedgeotter_file;

// The proved call, plain C with byte tables, plain C with rows of bits.
#define SIDES 3
static fitting *const fits_of[SIDES] = {wedgeotter_fits, plain_fits, rows_fits};
static extreme *const extreme_of[2][2] = {{wedgeotter_least, plain_least}, {wedgeotter_greatest, plain_greatest}};
static finding *const find_of[SIDES] = {wedgeotter_find, spread_find, rows_find};
static joining *const join_of[SIDES] = {wedgeotter_join, plain_join, rows_join};
static showing *const common_of[SIDES] = {wedgeotter_common, plain_common, rows_common};
static running *const book_of[SIDES] = {wedgeotter_book, plain_book, rows_book};
static filing *const file_of[SIDES] = {wedgeotter_file, plain_file, rows_file};

// The relations of two texts; equality to the letter, a rule's kind 4, comes first, since the others are measured by
// it.
#define RELATIONS 4
#define PADDED_EQUAL 1
static const char *const relation_of[RELATIONS] = {"equal to the letter", "equal but for padding", "at most", "before"};
static narrowing *const narrow_of[RELATIONS][SIDES] = {
    {wedgeotter_exact, plain_exact, rows_exact},
    {wedgeotter_padded, plain_padded, rows_padded},
    {wedgeotter_at_most, plain_at_most, rows_at_most},
    {wedgeotter_before, plain_before, rows_before},
};

static narrowing *const any_case_of[SIDES] = {wedgeotter_any_case, plain_any_case, rows_any_case};

static double now(void) {
    struct timespec t;
    clock_gettime(CLOCK_MONOTONIC, &t);
    return t.tv_sec * 1e9 + t.tv_nsec;
}

static uint64_t seed = 88172645463325252ull;
static uint64_t rnd(uint64_t n) {
    seed ^= seed << 13;
    seed ^= seed >> 7;
    seed ^= seed << 17;
    return seed % n;
}

static void same(int yes, const char *what) {
    if (yes) return;
    printf("the sides differ: %s\n", what);
    exit(1);
}

// Our time, and those of so many plain C functions, each with the ratio of ours to it.
static void show(const char *what, const char *size, int sides, const double *best) {
    char line[80];
    snprintf(line, sizeof line, "%s, %s", what, size);
    printf("%-52s %9.0f ns", line, best[0]);
    for (int side = 1; side < sides; side++) printf(" %9.0f ns %6.2f", best[side], best[0] / best[side]);
}

// A random shape of so many blocks and so many characters at most.
static size_t make(uint64_t *s, size_t blocks, uint64_t most) {
    memset(s, 0, BLOCK * blocks * sizeof *s);
    for (size_t i = 0; i < blocks; i++) {
        uint64_t *b = s + BLOCK * i, u = most / blocks + (i < most % blocks);
        b[1] = (rnd(15) + 1) << 33;
        b[LOWER] = rnd(u + 1) / 2;
        b[UPPER] = u;
    }
    return BLOCK * blocks;
}

// Beside the letters some of the codes over 127, each 128 above a letter's.
static void add_latin(uint64_t *s, size_t n) {
    for (size_t j = 0; j < n; j += BLOCK) s[j + 3] = rnd(16) << 33;
}

#define SHAPES 64
static uint64_t shape[SHAPES][SHAPE_MOST];
static size_t length[SHAPES];
static uint8_t text[SHAPES][250], work[63001];
static size_t long_[SHAPES];
static volatile uint64_t sink;

// Turns for so many seconds, three at the least, each with a timing of every side.
#define TURNS(seconds) for (double turn = 0, end = now() + (seconds) * 1e9; turn < 3 || now() < end; turn++)

// One timing of a job on the cases from i0 on, kept if it is the least so far.
#define TIME(best, i0, cases, job) \
    do { \
        double t0 = now(); \
        for (int i = (i0); i < (i0) + (cases); i++) sink += (job); \
        double t = (now() - t0) / (cases); \
        if ((best) == 0 || t < (best)) (best) = t; \
    } while (0)

static double mean(const double *t) {
    double sum = 0;
    for (int i = 0; i < SHAPES; i++) sum += t[i];
    return sum / SHAPES;
}

// A letter of the bases, or with `latin` as often a code of `add_latin`.
static uint8_t letter(uint64_t letters, int latin) { return 97 + rnd(letters) + 128 * rnd(1 + latin); }

// The greatest and the least text of a shape, and whether it fits them, half of them with one letter altered.
static void same_bounds(int i, int latin) {
    uint8_t out[250];
    for (int up = 1; up >= 0; up--) {
        long_[i] = extreme_of[up][1](shape[i], length[i], text[i], 250);
        uint64_t ours = extreme_of[up][0](shape[i], length[i], out, 250);
        same(ours == long_[i] && memcmp(out, text[i], long_[i]) == 0, "least or greatest text");
        if (rnd(2) && long_[i]) text[i][rnd(long_[i])] = letter(4, latin);
        ours = wedgeotter_fits(shape[i], length[i], text[i], long_[i]);
        for (int side = 1; side < SIDES; side++)
            same(ours == fits_of[side](shape[i], length[i], text[i], long_[i]), "fits");
    }
}

static void bounds(const char *size, size_t blocks, uint64_t most) {
    uint8_t out[250];
    for (int i = 0; i < SHAPES; i++) length[i] = make(shape[i], blocks, most);
    for (int i = 0; i < SHAPES; i++) same_bounds(i, 0);
    double fits[SIDES] = {0}, texts[2][2] = {{0}};
    TURNS(1) {
        for (int side = 0; side < SIDES; side++)
            TIME(fits[side], 0, SHAPES, fits_of[side](shape[i], length[i], text[i], long_[i]));
        for (int up = 0; up < 2; up++)
            for (int side = 0; side < 2; side++)
                TIME(texts[up][side], 0, SHAPES, extreme_of[up][side](shape[i], length[i], out, 250));
    }
    show("fits", size, SIDES, fits), puts("");
    show("least text", size, 2, texts[0]), puts("");
    show("greatest text", size, 2, texts[1]), puts("");
}

#define NEXT ((i + 1) % SHAPES)

static void same_sweeps(int i) {
    uint64_t a[64] = {0}, b[64] = {0};
    uint64_t ours = wedgeotter_sweep(shape[i], length[i], shape[NEXT], length[NEXT], a, 64);
    uint64_t plain = plain_sweep(shape[i], length[i], shape[NEXT], length[NEXT], b, 64);
    same(ours == plain && memcmp(a, b, sizeof a) == 0, "sweep");
}

// The sweep of each shape in the next one. Half of the pairs are a shape against itself, so that many have places.
static void sweeps(const char *size, size_t blocks, uint64_t most) {
    uint64_t a[64], b[64];
    for (int i = 0; i < SHAPES; i++) length[i] = make(shape[i], blocks, most);
    for (int i = 0; i + 1 < SHAPES; i += 4) memcpy(shape[i + 1], shape[i], sizeof shape[i]);
    for (int i = 0; i < SHAPES; i++) same_sweeps(i);
    double best[2] = {0};
    TURNS(1) {
        TIME(best[0], 0, SHAPES, wedgeotter_sweep(shape[i], length[i], shape[NEXT], length[NEXT], a, 64));
        TIME(best[1], 0, SHAPES, plain_sweep(shape[i], length[i], shape[NEXT], length[NEXT], b, 64));
    }
    show("sweep", size, 2, best), puts("");
}

// The answers of a row of 64 records in one number, as the proved call's door gives it.
static uint64_t answers_of(const struct answer *row) {
    uint64_t sum = 0;
    for (int i = 0; i < 64; i++) {
        uint64_t looks = row[i].looks % 65536;
        uint64_t answer = row[i].verdict == PLACES ? looks : row[i].verdict == CANNOT ? 65536 + looks : 131072;
        sum = sum % 4294967296 * 3 + answer;
    }
    return sum;
}

static uint64_t tray_in_c(const uint64_t *blocks, size_t n, const uint64_t *pairs) {
    struct answer row[64];
    uint64_t refused = plain_tray(blocks, n, pairs, 256, row, 64);
    return refused ? 1 : answers_of(row);
}

// So many single sweeps by the proved call as the tray has pairs, which are known to be good.
static uint64_t singles(const uint64_t *blocks, const uint64_t *pairs) {
    uint64_t sum = 0, out[64];
    for (const uint64_t *p = pairs; p < pairs + 256; p += 4) {
        const uint64_t *x = blocks + BLOCK * p[0], *y = blocks + BLOCK * p[2];
        sum = sum % 4294967296 * 3 + wedgeotter_sweep(x, BLOCK * (p[1] - p[0]), y, BLOCK * (p[3] - p[2]), out, 64);
    }
    return sum;
}

// A tray of 64 pairs, each a shape against the next one, with the places as in `sweeps`; beside 64 single sweeps and a
// loop in C. First trays with bad pairs, and with codes over 127.
static void trays(const char *size, size_t blocks, uint64_t most) {
    static uint64_t run[SHAPES * SHAPE_MOST + BLOCK - 1];
    uint64_t pairs[256];
    size_t each = BLOCK * blocks, n = each * SHAPES;
    for (int i = 0; i < SHAPES; i++) make(run + each * i, blocks, most);
    add_latin(run, n);
    for (int turn = 0; turn < 200; turn++) {
        for (int i = 0; i < 256; i++) pairs[i] = rnd(blocks * SHAPES + 2);
        for (int i = 0; i < 256; i += 2)
            if (rnd(4)) pairs[i + 1] = pairs[i] + rnd(4);
        size_t lent = n + turn % BLOCK;
        same(wedgeotter_tray(run, lent, pairs, 256) == tray_in_c(run, lent, pairs), "tray");
    }
    for (int i = 0; i < SHAPES; i++) make(run + each * i, blocks, most);
    for (int i = 0; i + 1 < SHAPES; i += 4) memcpy(run + each * (i + 1), run + each * i, each * sizeof *run);
    for (int i = 0; i < SHAPES; i++) {
        const uint64_t pair[4] = {blocks * i, blocks * (i + 1), blocks * NEXT, blocks * (NEXT + 1)};
        memcpy(pairs + 4 * i, pair, sizeof pair);
    }
    same(wedgeotter_tray(run, n, pairs, 256) == tray_in_c(run, n, pairs), "tray");
    double best[SIDES] = {0};
    TURNS(1) {
        TIME(best[0], 0, 16, wedgeotter_tray(run, n, pairs, 256));
        TIME(best[1], 0, 16, singles(run, pairs));
        TIME(best[2], 0, 16, tray_in_c(run, n, pairs));
    }
    show("tray of 64 pairs", size, SIDES, best), puts("");
}

// Marks of every length, also with bytes that no base has and over 64.
static void same_finds(int i, int latin) {
    uint8_t mark[66];
    for (size_t k = 0; k <= 66; k++) {
        uint64_t letters = rnd(4) + 1;
        for (size_t j = 0; j < k; j++) mark[j] = rnd(200) ? letter(letters, latin) : 200;
        uint64_t ours = wedgeotter_find(shape[i], length[i], mark, k);
        for (int side = 1; side < SIDES; side++) same(ours == find_of[side](shape[i], length[i], mark, k), "find");
    }
}

// A mark of so many bytes sought in the shapes: letters of the bases at random, or one of them throughout.
static void finds(const char *size, size_t blocks, uint64_t most, size_t m) {
    uint8_t mark[64];
    for (int i = 0; i < SHAPES; i++) length[i] = make(shape[i], blocks, most);
    for (int i = 0; i < SHAPES; i++) same_finds(i, 0);
    for (int letters = 4; letters > 0; letters -= 3) {
        char what[40];
        int some = 0, all = 0;
        double best[SIDES] = {0};
        for (size_t j = 0; j < m; j++) mark[j] = 97 + rnd(letters);
        for (int i = 0; i < SHAPES; i++) {
            uint64_t ours = wedgeotter_find(shape[i], length[i], mark, m);
            some += ours >= 1000000, all += ours > 0 && ours < 1000000;
        }
        TURNS(0.5)
            for (int side = 0; side < SIDES; side++)
                TIME(best[side], 0, SHAPES, find_of[side](shape[i], length[i], mark, m));
        snprintf(what, sizeof what, "find %d%s", (int)m, letters == 1 ? ", one letter" : "");
        show(what, size, SIDES, best);
        printf("           in some texts of %d, in all of %d of %d\n", some, all, SHAPES);
    }
}

// The calls that do not narrow are compared, but not timed, on codes over 127.
static void same_latin(size_t blocks, uint64_t most) {
    for (int i = 0; i < SHAPES; i++) {
        length[i] = make(shape[i], blocks, most);
        add_latin(shape[i], length[i]);
    }
    for (int i = 0; i < SHAPES; i++) same_bounds(i, 1), same_sweeps(i), same_finds(i, 1);
}

static uint64_t other[SHAPES][SHAPE_MOST];
static size_t other_length[SHAPES];

// A shape that keeps to the least text of another up to its last run: the comparison of the two is not settled before.
static size_t make_tight(uint64_t *s, const uint64_t *x, size_t n) {
    uint8_t least[250];
    size_t k = plain_least(x, n, least, 250), blocks = 0;
    uint64_t *b = s;
    if (k == 0) return make(s, 1, 1);
    for (size_t i = 0; i < k; i++) {
        if (i == 0 || least[i] != least[i - 1]) {
            b = s + BLOCK * blocks++;
            memset(b, 0, BLOCK * sizeof *b);
            b[least[i] / 64] = 1ull << (least[i] % 64);
        }
        b[LOWER]++;
        b[UPPER]++;
    }
    b[1] |= b[1] << 1;
    return BLOCK * blocks;
}

// What a random shape stands beside: the next one; a tight one; itself, with fixed counts; the next one, with large
// bases; the next one, with codes over 127; where both are fields, one padded otherwise; the next one, where all
// letters have both cases, and where each has one or both, with codes over 127.
enum pairing { NEXT_ONE, TIGHT, FIXED, LARGE, LATIN, FIELDS, BOTH_CASES, SOME_CASES };

// Half of all codes, in the mean, in each base.
static void enlarge(uint64_t *s, size_t n) {
    for (size_t j = 0; j < n; j += BLOCK)
        for (int w = 0; w < WORDS; w++) s[j + w] = rnd(~0ull);
}

// Capitals beside the small letters, or for some of them in their place.
static void add_capitals(int all, uint64_t *s, size_t n) {
    for (size_t j = 1; j < n; j += BLOCK) {
        uint64_t capitals = all ? s[j] >> 32 : s[j] >> 32 & rnd(~0ull);
        s[j] = (s[j] & ~(all ? 0 : (capitals & rnd(~0ull)) << 32)) | capitals;
    }
}

// Makes a shape a field: the blank in half of the bases, and the last quarter of the blocks padding alone.
static void make_field(uint64_t *s, size_t n) {
    for (size_t j = 0; j < n; j += BLOCK) {
        s[j] = rnd(2) ? BLANK : 0;
        if (j >= n - n / 4) s[j] = BLANK, s[j + 1] = 0;
    }
}

// Makes of a field's copy the same field of another instrument: more letters, other least counts and narrower padding,
// so that the two have common texts. A bare one lacks the padding, and the field then has all of its own, so that most
// often the two are equal but for padding alone.
static size_t make_beside(int bare, uint64_t *field, uint64_t *s, size_t n) {
    size_t padding = n - n / 4;
    for (size_t j = 0; j < n; j += BLOCK) {
        if (j < padding) s[j + 1] |= (rnd(15) + 1) << 33;
        else s[j + UPPER] = rnd(s[j + UPPER]) + 1;
        s[j + LOWER] = rnd(s[j + UPPER] + 1) / 2;
        if (bare && j >= padding) field[j + LOWER] = field[j + UPPER];
    }
    return bare ? padding : n;
}

static void make_pairs(enum pairing with, size_t blocks, uint64_t most) {
    for (int i = 0; i < SHAPES; i++) {
        length[i] = make(shape[i], blocks, most);
        if (with == LARGE) enlarge(shape[i], length[i]);
        if (with == FIELDS) make_field(shape[i], length[i]);
        if (with == LATIN || with == SOME_CASES) add_latin(shape[i], length[i]);
        if (with == BOTH_CASES || with == SOME_CASES) add_capitals(with == BOTH_CASES, shape[i], length[i]);
        for (size_t j = 0; with == FIXED && j < length[i]; j += BLOCK) shape[i][j + LOWER] = shape[i][j + UPPER];
    }
    for (int i = 0; i < SHAPES; i++) {
        int beside = with == FIXED || with == FIELDS ? i : NEXT;
        memcpy(other[i], shape[beside], sizeof other[i]);
        other_length[i] = length[beside];
        if (with == TIGHT) other_length[i] = make_tight(other[i], shape[i], length[i]);
        if (with == FIELDS) other_length[i] = make_beside(i % 4 == 0, shape[i], other[i], length[i]);
    }
}

#define PAIR shape[i], length[i], other[i], other_length[i], work, sizeof work
#define ROOM(out) (out), SHAPE_MOST

// A join of the first shape of each pair, in the mean over the pairs, with two shapes in the place of the other, whose
// lengths add to its.
static uint64_t second[SHAPES][SHAPE_MOST], third[SHAPES][SHAPE_MOST];
static size_t second_length[SHAPES], third_length[SHAPES];

#define TRIPLE shape[i], length[i], second[i], second_length[i], third[i], third_length[i], work, sizeof work
#define OUTS(out) ROOM((out)[0]), ROOM((out)[1]), ROOM((out)[2])

// After the ratios to plain C that to our equality to the letter on the pairs, and how many of the joins and of the
// pairs are not none. If the two are the other shape cut in two, a join allows what equality does.
static void joins(const char *size, int cut) {
    uint64_t out[2][3][SHAPE_MOST], a[SHAPE_MOST], b[SHAPE_MOST];
    int some = 0, pairs = 0;
    for (int i = 0; i < SHAPES; i++) {
        memset(out[0], 0, sizeof out[0]), memset(a, 0, sizeof a), memset(b, 0, sizeof b);
        uint64_t ours = wedgeotter_join(TRIPLE, OUTS(out[0])), equal = wedgeotter_exact(PAIR, ROOM(a), ROOM(b));
        for (int side = 1; side < SIDES; side++) {
            memset(out[1], 0, sizeof out[1]);
            uint64_t plain = join_of[side](TRIPLE, OUTS(out[1]));
            same(ours == plain && memcmp(out[0], out[1], sizeof out[0]) == 0, "join");
        }
        some += ours, pairs += equal;
        if (!cut) continue;
        memcpy(out[0][1] + second_length[i], out[0][2], third_length[i] * sizeof *b);
        same(ours == equal && memcmp(a, out[0][0], sizeof a) == 0 && memcmp(b, out[0][1], sizeof b) == 0,
             "join and equality");
    }
    static double best[SIDES][SHAPES], equal[SHAPES];
    double means[SIDES];
    memset(best, 0, sizeof best), memset(equal, 0, sizeof equal);
    TURNS(3)
        for (int k = 0; k < SHAPES; k++) {
            for (int side = 0; side < SIDES; side++) TIME(best[side][k], k, 1, join_of[side](TRIPLE, OUTS(out[0])));
            TIME(equal[k], k, 1, wedgeotter_exact(PAIR, ROOM(a), ROOM(b)));
        }
    for (int side = 0; side < SIDES; side++) means[side] = mean(best[side]);
    show("join", size, SIDES, means);
    printf(" %8.2f  %d of %d narrow, of the pairs %d\n", means[0] / mean(equal), some, SHAPES, pairs);
}

static void cut_joins(const char *size) {
    for (int i = 0; i < SHAPES; i++) {
        if (other_length[i] == BLOCK) { // an empty block, so that there are two
            memset(other[i] + BLOCK, 0, BLOCK * sizeof *other[i]);
            other_length[i] = 2 * BLOCK;
        }
        second_length[i] = other_length[i] / BLOCK / 2 * BLOCK;
        third_length[i] = other_length[i] - second_length[i];
        memcpy(second[i], other[i], second_length[i] * sizeof *second[i]);
        memcpy(third[i], other[i] + second_length[i], third_length[i] * sizeof *third[i]);
    }
    joins(size, 1);
}

// The two have as many blocks each as the other shape.
static void drawn_joins(const char *size, size_t blocks, uint64_t most, enum pairing with) {
    make_pairs(with, blocks, most);
    for (int i = 0; i < SHAPES; i++) {
        second_length[i] = make(second[i], blocks, most / 2);
        third_length[i] = make(third[i], blocks, most - most / 2);
        if (with == LARGE) enlarge(second[i], second_length[i]), enlarge(third[i], third_length[i]);
    }
    joins(size, 0);
}

// The other shape has two blocks, so that each of the two has one.
static void few_joins(const char *size, size_t blocks, uint64_t most) {
    make_pairs(LARGE, blocks, most);
    for (int i = 0; i < SHAPES; i++) {
        other_length[i] = make(other[i], 2, most);
        enlarge(other[i], other_length[i]);
    }
    cut_joins(size);
}

// What padding costs on a pair: our times under it to those to the letter, over the pairs on which both make the same
// passes, since both narrow or neither does, on the worst of these, and on the worst of the others, where the letters
// allow no pair, so that the exact call ends after its first pass.
static void show_padding(const double *padded, const double *exact, const uint64_t *padded_some,
                         const uint64_t *exact_some) {
    double over = 0, sum = 0, worst[2] = {0, 0};
    for (int i = 0; i < SHAPES; i++) {
        int alone = padded_some[i] != exact_some[i];
        if (!alone) over += padded[i], sum += exact[i];
        if (padded[i] / exact[i] > worst[alone]) worst[alone] = padded[i] / exact[i];
    }
    printf(", %.2f where both or neither do, at most %.2f", over / sum, worst[0]);
    if (worst[1] > 0) printf(", at most %.2f where padding alone allows a pair", worst[1]);
}

// Narrowing of the pairs under each relation, in the mean over them; after the ratios to plain C that to our equality
// to the letter, and how many pairs are not none. Then joins.
static void narrows(const char *size, size_t blocks, uint64_t most, enum pairing with) {
    uint64_t a[SHAPE_MOST], b[SHAPE_MOST], c[SHAPE_MOST], d[SHAPE_MOST], some[RELATIONS][SHAPES];
    make_pairs(with, blocks, most);
    for (int r = 0; r < RELATIONS; r++)
        for (int i = 0; i < SHAPES; i++) {
            memset(a, 0, sizeof a), memset(b, 0, sizeof b);
            some[r][i] = narrow_of[r][0](PAIR, ROOM(a), ROOM(b));
            for (int side = 1; side < SIDES; side++) {
                memset(c, 0, sizeof c), memset(d, 0, sizeof d);
                uint64_t plain = narrow_of[r][side](PAIR, ROOM(c), ROOM(d));
                same(some[r][i] == plain && memcmp(a, c, sizeof a) == 0 && memcmp(b, d, sizeof b) == 0, relation_of[r]);
            }
        }
    static double best[RELATIONS][SIDES][SHAPES];
    double means[RELATIONS][SIDES];
    memset(best, 0, sizeof best);
    TURNS(4)
        for (int r = 0; r < RELATIONS; r++)
            for (int k = 0; k < SHAPES; k++)
                for (int side = 0; side < SIDES; side++)
                    TIME(best[r][side][k], k, 1, narrow_of[r][side](PAIR, ROOM(a), ROOM(b)));
    for (int r = 0; r < RELATIONS; r++) {
        int narrow = 0;
        for (int i = 0; i < SHAPES; i++) narrow += some[r][i];
        for (int side = 0; side < SIDES; side++) means[r][side] = mean(best[r][side]);
        show(relation_of[r], size, SIDES, means[r]);
        printf(" %8.2f  %d of %d narrow", means[r][0] / means[0][0], narrow, SHAPES);
        if (r == PADDED_EQUAL) show_padding(best[r][0], best[0][0], some[r], some[0]);
        puts("");
    }
    cut_joins(size);
}

// Equality but for letter case, in the mean over pairs whose letters all have both cases, so that it makes the passes
// of equality to the letter and leaves the same: after the ratios to plain C that to our equality to the letter, the
// greatest of a pair, and how many pairs are not none. Before, the sides are compared on letters of any case.
static void any_cases(const char *size, size_t blocks, uint64_t most) {
    uint64_t a[SHAPE_MOST], b[SHAPE_MOST], c[SHAPE_MOST], d[SHAPE_MOST];
    int narrow = 0;
    for (enum pairing with = SOME_CASES; with >= BOTH_CASES; with--) {
        make_pairs(with, blocks, most);
        for (int i = 0; i < SHAPES; i++) {
            memset(a, 0, sizeof a), memset(b, 0, sizeof b);
            uint64_t some = wedgeotter_any_case(PAIR, ROOM(a), ROOM(b));
            if (with == BOTH_CASES) narrow += some;
            for (int side = 1; side <= SIDES; side++) {
                narrowing *as = side < SIDES ? any_case_of[side] : wedgeotter_exact;
                if (side == SIDES && with == SOME_CASES) continue;
                memset(c, 0, sizeof c), memset(d, 0, sizeof d);
                same(some == as(PAIR, ROOM(c), ROOM(d)) && memcmp(a, c, sizeof a) == 0 && memcmp(b, d, sizeof b) == 0,
                     "equal but for letter case");
            }
        }
    }
    narrowing *const *const of[2] = {narrow_of[0], any_case_of};
    static double best[2][SIDES][SHAPES];
    double means[SIDES], worst = 0;
    memset(best, 0, sizeof best);
    TURNS(4)
        for (int r = 0; r < 2; r++)
            for (int k = 0; k < SHAPES; k++)
                for (int side = 0; side < SIDES; side++)
                    TIME(best[r][side][k], k, 1, of[r][side](PAIR, ROOM(a), ROOM(b)));
    for (int side = 0; side < SIDES; side++) means[side] = mean(best[1][side]);
    for (int i = 0; i < SHAPES; i++)
        if (best[1][0][i] / best[0][0][i] > worst) worst = best[1][0][i] / best[0][0][i];
    show("equal but for letter case", size, SIDES, means);
    printf(" %8.2f  %d of %d narrow, at most %.2f\n", means[0] / mean(best[0][0]), narrow, SHAPES, worst);
}

// The earliest common text of the pairs, in the mean over them; after the ratios to plain C that to our equality to the
// letter, and how many pairs meet.
static void commons(const char *size, size_t blocks, uint64_t most, enum pairing with) {
    uint8_t ours[256], plain[256];
    uint64_t a[SHAPE_MOST], b[SHAPE_MOST];
    int some = 0;
    make_pairs(with, blocks, most);
    for (int i = 0; i < SHAPES; i++) {
        const uint8_t untouched = i; // another for each pair, since every byte is a character
        memset(ours, untouched, sizeof ours);
        uint64_t n = wedgeotter_common(PAIR, ours, sizeof ours), meets = wedgeotter_exact(PAIR, ROOM(a), ROOM(b));
        same(meets == (n <= 250), "whether there is a common text");
        for (size_t k = meets ? n : 0; k < sizeof ours; k++) same(ours[k] == untouched, "past the common text");
        for (int side = 1; side < SIDES; side++) {
            memset(plain, untouched, sizeof plain);
            same(n == common_of[side](PAIR, plain, sizeof plain) && memcmp(ours, plain, sizeof ours) == 0,
                 "common text");
        }
        some += meets;
    }
    static double best[SIDES][SHAPES], equal[SHAPES];
    double means[SIDES];
    memset(best, 0, sizeof best), memset(equal, 0, sizeof equal);
    TURNS(2) {
        for (int k = 0; k < SHAPES; k++)
            for (int side = 0; side < SIDES; side++)
                TIME(best[side][k], k, 1, common_of[side](PAIR, ours, sizeof ours));
        for (int k = 0; k < SHAPES; k++) TIME(equal[k], k, 1, wedgeotter_exact(PAIR, ROOM(a), ROOM(b)));
    }
    for (int side = 0; side < SIDES; side++) means[side] = mean(best[side]);
    show("common", size, SIDES, means);
    printf(" %8.2f  %d of %d meet\n", means[0] / mean(equal), some, SHAPES);
}

#define LETTERS 16

// A random shape that the text w fits, of so many blocks and so many characters at most; its last base and half of the
// others have the blank.
static size_t make_around(uint64_t *s, size_t blocks, uint64_t most, const uint8_t *w, size_t len) {
    uint64_t room = most;
    memset(s, 0, BLOCK * blocks * sizeof *s);
    for (size_t i = 0; i < blocks; i++) {
        uint64_t *b = s + BLOCK * i, u = most / blocks + (i < most % blocks);
        room -= u;
        uint64_t least = len > room ? len - room : 0, run = least + rnd((len < u ? len : u) - least + 1);
        b[0] = i + 1 == blocks || rnd(2) ? BLANK : 0;
        b[1] = (1ull << rnd(LETTERS) | 1ull << rnd(LETTERS) | 1ull << rnd(LETTERS)) << 33;
        b[LOWER] = rnd(run + 1);
        b[UPPER] = u;
        for (len -= run; run > 0; run--) b[1] |= 1ull << (*w++ - 64);
    }
    return BLOCK * blocks;
}

// A book: how many texts, numbers of their blocks and numbers of rules it has, these, and the applications of its run.
struct book {
    size_t texts, numbers, rules;
    uint64_t count[8], block[BOOK_MOST], rule[64], made;
};

static uint64_t left[SIDES][BOOK_MOST], records[SIDES][RECORDS];

// Each run begins with the blocks as entered.
static uint64_t run_anew(int side, const struct book *b) {
    memcpy(left[side], b->block, b->numbers * sizeof *b->block);
    return book_of[side](b->count, b->texts, left[side], b->numbers, b->rule, b->rules, work, sizeof work,
                         records[side], RECORDS);
}

#define UNTOUCHED 255 // no byte of a report, and eight no number of a record, so that those past it show

static void same_book(const struct book *b) {
    memset(left, UNTOUCHED, sizeof left), memset(records, UNTOUCHED, sizeof records);
    uint64_t ours = run_anew(0, b);
    for (int side = 1; side < SIDES; side++) {
        same(ours == run_anew(side, b) && memcmp(left[0], left[side], sizeof left[0]) == 0, "book");
        same(memcmp(records[0], records[side], sizeof records[0]) == 0, "records");
    }
}

static const uint64_t kinds[6] = {3, 0, 1, 2, 4, 5}; // in turn, without joins from the second on
static const int part_of[2][2][8] = {{{0, 0, 0, 1}, {0, 1, 1, 2}},
                                     {{0, 0, 0, 0, 1, 1, 1, 1}, {0, 0, 1, 1, 1, 1, 2, 2}}};

static int allowed(const int *part, uint64_t kind, uint64_t a, uint64_t b, uint64_t c) {
    if (kind == 3) return part[a] == 1 && part[b] == 0 && part[c] == 2;
    if (kind == 1) return part[a] <= part[b] && a != b;
    if (kind == 2) return part[a] < part[b];
    return part[a] == part[b] && a != b;
}

// Whether the book that was run is one group, which is none or not, after so many applications at the least.
static int ended(const uint64_t *r, size_t texts, uint64_t none, uint64_t least) {
    for (size_t k = 0; k < texts; k++)
        if (r[RECORD * k + GROUP] != 1) return 0;
    return r[IS_NONE] == none && r[MADE] >= least;
}

// A random book of 8 texts and 16 rules of all kinds, or of 4 and 8, with joins or without. Without them the first four
// texts, of 4 the first three, can all be one text, the others another after it; with them the first two, or one, can
// be the first half of a line, the next four, or two, the line, the others its second half, each after those before.
// The rules allow that; the book is drawn until it is one group whose run takes four rounds or more. One that is to be
// none has any rules but for its joins, and is none after more than a round.
static void make_book(struct book *b, int joins, int none, size_t texts, size_t blocks, uint64_t most) {
    const size_t half = most / 2, cut = half / 2;
    const struct {
        const uint8_t *text;
        size_t length;
        uint64_t most;
    } of[2][3] = {{{text[0], half, most}, {text[1], half, most}},
                  {{text[0], cut, half}, {text[0], half, most}, {text[0] + cut, half - cut, half}}};
    const int *part = part_of[texts == 8][joins];
    const size_t round = 2 * texts;
    b->texts = texts, b->rules = 4 * round;
    do {
        for (int g = 0; g < 2; g++)
            for (size_t i = 0; i < half; i++) text[g][i] = 97 + (i ? rnd(LETTERS) : (uint64_t)g);
        if (joins) text[0][cut] = 98;
        b->numbers = 0;
        for (size_t k = 0; k < texts; k++) {
            int p = part[k];
            b->count[k] = blocks;
            uint64_t *to = b->block + b->numbers;
            b->numbers += make_around(to, blocks, of[joins][p].most, of[joins][p].text, of[joins][p].length);
        }
        for (size_t j = 0; j < round; j++) {
            uint64_t x, y, z = 0, kind = joins ? kinds[j % 6] : kinds[1 + j % 5];
            do {
                x = rnd(texts), y = rnd(texts);
                if (kind == 3) z = rnd(texts);
            } while (none && kind != 3 ? x == y : !allowed(part, kind, x, y, z));
            memcpy(b->rule + 4 * j, (uint64_t[]){kind, x + 1, y + 1, kind == 3 ? z + 1 : 0}, 32);
        }
        run_anew(2, b); // the faster plain C, since many are drawn
    } while (!ended(records[2], texts, none, none ? round + 1 : 4 * round));
    b->made = records[2][MADE];
}

static uint8_t file[FILE_MOST], report[SIDES][REPORT_LEAST];

// The call for a host in C, with lent work.
static uint64_t hosted(size_t n, uint8_t *report) {
    int64_t answer = wedgeotter_run_file(file, n, report, REPORT_LEAST, work, sizeof work);
    return answer < 0 ? REFUSED : (uint64_t)answer;
}

static void same_files(size_t n) {
    static uint8_t host_report[REPORT_LEAST];
    memset(report, UNTOUCHED, sizeof report), memset(host_report, UNTOUCHED, sizeof host_report);
    uint64_t ours = wedgeotter_file(file, n, report[0], sizeof report[0]);
    same(ours == hosted(n, host_report) && memcmp(report[0], host_report, sizeof host_report) == 0, "file from C");
    for (int side = 1; side < SIDES; side++) {
        uint64_t plain = file_of[side](file, n, report[side], sizeof report[side]);
        same(ours == plain && memcmp(report[0], report[side], sizeof report[0]) == 0, "file");
    }
}

// The file also with one byte altered and cut short, which most often is refused.
static void same_near(size_t n) {
    same_files(n);
    for (int k = 0; k < 40; k++) {
        size_t at = rnd(n);
        uint8_t was = file[at];
        file[at] = "012345 \nRW"[rnd(10)];
        same_files(n);
        file[at] = was;
        same_files(rnd(n));
    }
}

// Makes the book a file, its blocks under this heading with so many words of each base.
static size_t write_file(const struct book *b, const char *heading, int words) {
    char *const start = (char *)file, *to = start;
    to += sprintf(to, "TEXTS %d\n", (int)b->texts);
    for (size_t k = 0; k < b->texts; k++) to += sprintf(to, "%d\n", (int)b->count[k]);
    to += sprintf(to, "%s %d\n", heading, (int)b->numbers / BLOCK);
    for (const uint64_t *n = b->block; n < b->block + b->numbers; n += BLOCK) {
        for (int w = words; w-- > 0;) to += sprintf(to, "%016llx", (unsigned long long)n[w]);
        to += sprintf(to, " %d %d\n", (int)n[LOWER], (int)n[UPPER]);
    }
    to += sprintf(to, "RULES %d\n", (int)b->rules / 4);
    for (const uint64_t *r = b->rule; r < b->rule + b->rules; r += 4)
        to += sprintf(to, "%d %d %d %d\n", (int)r[0], (int)r[1], (int)r[2], (int)r[3]);
    return to - start;
}

// The book as a file. At last one with codes over 127, which is compared, but not timed.
static void files(const char *what, const char *size, struct book *b) {
    size_t n = write_file(b, "BLOCKS", WORDS / 2);
    same_near(n);
    double best[SIDES] = {0}, host = 0;
    TURNS(2) {
        for (int side = 0; side < SIDES; side++)
            TIME(best[side], 0, 1, file_of[side](file, n, report[side], sizeof report[side]));
        TIME(host, 0, 1, hosted(n, report[0]));
    }
    show(what, size, SIDES, best);
    printf("           %d applications, %d bytes\n", (int)b->made, (int)n);
    best[0] = host;
    show("from C", size, SIDES, best);
    puts("");
    add_latin(b->block, b->numbers);
    same_near(write_file(b, "WIDE", WORDS));
}

// A book of 8 texts and 16 rules run by all sides.
static void books(const char *size, int joins, size_t blocks, uint64_t most) {
    static struct book book;
    make_book(&book, joins, 0, 8, blocks, most);
    same_book(&book);
    double best[SIDES] = {0};
    TURNS(2)
        for (int side = 0; side < SIDES; side++) TIME(best[side], 0, 1, run_anew(side, &book));
    show(joins ? "join book" : "book", size, SIDES, best);
    printf("           %d applications\n", (int)book.made);
    files(joins ? "join file" : "file", size, &book);
}

// Two houses, each with a book of 4 texts and 8 rules, and both books in one: the texts of the second after those of
// the first, their rules in turn.
static struct book house[2], merged;

static void make_houses(int joins, int none, size_t blocks, uint64_t most) {
    for (int h = 0; h < 2; h++) make_book(&house[h], joins, none >> h & 1, 4, blocks, most);
    merged = house[0];
    merged.texts = 8, merged.numbers += house[1].numbers, merged.rules = 64, merged.made += house[1].made;
    memcpy(merged.count + 4, house[1].count, 4 * sizeof *merged.count);
    memcpy(merged.block + house[0].numbers, house[1].block, house[1].numbers * sizeof *merged.block);
    for (int j = 0; j < 16; j++) {
        uint64_t *r = merged.rule + 4 * j;
        memcpy(r, house[j % 2].rule + 4 * (j / 2), 4 * sizeof *r);
        for (int k = 1; k < 4; k++)
            if (r[k]) r[k] += j % 2 * 4;
    }
}

// Both books in one give each house what its own book gives, by a plain C, so that ours on both stays beside it.
static void same_apart(void) {
    run_anew(0, &merged);
    const uint64_t *shapes = left[0], *r = records[0];
    for (int h = 0; h < 2; shapes += house[h++].numbers) {
        run_anew(1, &house[h]);
        same(memcmp(shapes, left[1], house[h].numbers * sizeof *shapes) == 0, "a house's shapes");
        for (const uint64_t *own = records[1]; own < records[1] + 4 * RECORD; own += RECORD, r += RECORD)
            same(r[GROUP] == own[GROUP] + 4 * h && r[IS_NONE] == own[IS_NONE] && r[MADE] == own[MADE],
                 "a house's record");
    }
}

// Books that are compared, but not timed: each house none or stable, then without one rule after another, until every
// text is alone; at last a book that is refused.
static void same_houses(int joins, size_t blocks, uint64_t most) {
    for (int none = 0; none < 4; none++) {
        make_houses(joins, none, blocks, most);
        same_book(&house[0]), same_book(&house[1]), same_apart();
        for (;; merged.rules -= 4) {
            same_book(&merged);
            same_files(write_file(&merged, "BLOCKS", WORDS / 2)), same_files(write_file(&merged, "WIDE", WORDS));
            if (merged.rules == 0) break;
            uint64_t *last = merged.rule + merged.rules - 4, *out = merged.rule + 4 * rnd(merged.rules / 4);
            memmove(out, out + 4, (last - out) * sizeof *out);
        }
        merged.count[7] = 0;
        same_book(&merged);
    }
}

// The book of two houses run by all sides; then beside the proved call on it the two on each house's own book.
static void houses(const char *size, size_t blocks, uint64_t most) {
    for (int joins = 0; joins < 2; joins++) same_houses(joins, blocks, most);
    make_houses(0, 0, blocks, most);
    same_book(&merged);
    double best[SIDES] = {0}, apart = 0;
    TURNS(2) {
        for (int side = 0; side < SIDES; side++) TIME(best[side], 0, 1, run_anew(side, &merged));
        TIME(apart, 0, 1, run_anew(0, &house[0]) + run_anew(0, &house[1]));
    }
    show("two houses", size, SIDES, best);
    printf("           %d applications\n", (int)merged.made);
    show("one call beside two", size, 2, (double[]){best[0], apart});
    puts("");
}

int main(void) {
    puts("Times per call, the least of several turns, in the mean over the inputs: ours is the proved call, bytes "
         "plain C with byte tables, rows plain C with rows of bits.");
    puts("After each plain C the ratio of ours to it; for narrowing, joins and common texts then that to our equality "
         "to the letter on the same pairs. Least and greatest text");
    puts("and the sweep have one plain C; a mark is found by rows that are spread to others, and by rows in place as "
         "ours; a tray stands beside as many single calls of ours, then a loop in plain C. Equality but for padding "
         "makes a second pass on pairs that are none to the letter; the ratio without these follows, and the greatest "
         "of a pair. Equality but for letter case is timed where every base has both cases of its letters. Large bases "
         "have half of all 256 codes, those called Latin have codes over 127 beside letters. Two houses are two books "
         "of 4 texts and 8 rules each in one; our one call on it then stands beside two, one on each house's book.");
    printf("%-52s %12s %12s %6s %12s %6s %8s\n", "", "ours", "bytes", "ratio", "rows", "ratio", "to equal");
    bounds("8 blocks, 40 characters", 8, 40);
    bounds("32 blocks, 250 characters", 32, 250);
    for (size_t k = 0; k < 4; k++) finds("8 blocks, 40 characters", 8, 40, (size_t[]){1, 2, 8, 64}[k]);
    for (size_t k = 0; k < 4; k++) finds("32 blocks, 250 characters", 32, 250, (size_t[]){1, 2, 8, 64}[k]);
    sweeps("8 blocks", 8, 40);
    sweeps("32 blocks", 32, 250);
    trays("1 block", 1, 5);
    trays("8 blocks", 8, 40);
    trays("32 blocks", 32, 250);
    same_latin(8, 40);
    same_latin(32, 250);
    narrows("8 blocks, 40 characters", 8, 40, NEXT_ONE);
    narrows("32 blocks, 250 characters", 32, 250, NEXT_ONE);
    narrows("8 blocks, 40, tight", 8, 40, TIGHT);
    narrows("32 blocks, 250, tight", 32, 250, TIGHT);
    any_cases("8 blocks, 40 characters", 8, 40);
    any_cases("32 blocks, 250 characters", 32, 250);
    narrows("8 blocks, 40, padded fields", 8, 40, FIELDS);
    narrows("32 blocks, 250, padded fields", 32, 250, FIELDS);
    narrows("8 blocks, 40, Latin", 8, 40, LATIN);
    narrows("32 blocks, 250, Latin", 32, 250, LATIN);
    books("8 blocks, 40 characters", 0, 8, 40);
    books("32 blocks, 250 characters", 0, 32, 250);
    commons("8 blocks, 40 characters", 8, 40, NEXT_ONE);
    commons("32 blocks, 250 characters", 32, 250, NEXT_ONE);
    commons("8 blocks, 40, tight", 8, 40, TIGHT);
    commons("32 blocks, 250, tight", 32, 250, TIGHT);
    commons("8 blocks, 250, fixed", 8, 250, FIXED);
    commons("32 blocks, 250, fixed", 32, 250, FIXED);
    commons("8 blocks, 40, large bases", 8, 40, LARGE);
    commons("32 blocks, 250, large bases", 32, 250, LARGE);
    drawn_joins("8 and 8 blocks, 40", 8, 40, NEXT_ONE);
    drawn_joins("32 and 32 blocks, 250", 32, 250, NEXT_ONE);
    drawn_joins("8 and 8, 40, large bases", 8, 40, LARGE);
    drawn_joins("32 and 32, 250, large bases", 32, 250, LARGE);
    few_joins("1 and 1, beside 8 blocks, 40", 8, 40);
    few_joins("1 and 1, beside 32 blocks, 250", 32, 250);
    books("8 blocks, 40 characters", 1, 8, 40);
    books("32 blocks, 250 characters", 1, 32, 250);
    houses("8 blocks, 40 characters", 8, 40);
    houses("32 blocks, 250 characters", 32, 250);
    return 0;
}
