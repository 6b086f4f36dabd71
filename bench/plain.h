// The plain C functions that the benchmark compares with: each answers as the proved call of its name does. Those in
// plain.c narrow with byte tables, those in rows.c with rows of bits.
#include <stddef.h>
#include <stdint.h>

// A block is the words of its base, of 64 codes each, then the least count and the greatest.
enum { WORDS = 4, CODES = 64 * WORDS, LOWER = WORDS, UPPER, BLOCK };

// The most numbers of a shape, and of a book's texts; the most bytes of a file, and the least of a report's room.
enum { SHAPE_MOST = 32 * BLOCK, BOOK_MOST = 256 * BLOCK, FILE_MOST = 32768, REPORT_LEAST = 32768 };

// The record of a text in a book that is run: its group's name, whether that is none, and its applications. All eight
// are written, those past the last text, and all where the book is refused, with 0.
enum { GROUP, IS_NONE, MADE, RECORD, RECORDS = 8 * RECORD };

typedef uint64_t fitting(const uint64_t *s, size_t n, const uint8_t *t, size_t k);
typedef uint64_t finding(const uint64_t *s, size_t n, const uint8_t *mark, size_t m);
typedef uint64_t extreme(const uint64_t *s, size_t n, uint8_t *out, size_t k);
typedef uint64_t narrowing(const uint64_t *x, size_t nx, const uint64_t *y, size_t ny, uint8_t *t, size_t w,
                           uint64_t *ox, size_t a, uint64_t *oy, size_t b);
typedef uint64_t joining(const uint64_t *x, size_t nx, const uint64_t *y, size_t ny, const uint64_t *z, size_t nz,
                         uint8_t *t, size_t w, uint64_t *ox, size_t a, uint64_t *oy, size_t b, uint64_t *oz, size_t c);
typedef uint64_t showing(const uint64_t *x, size_t nx, const uint64_t *y, size_t ny, uint8_t *t, size_t w, uint8_t *out,
                         size_t k);
typedef uint64_t running(const uint64_t *counts, size_t texts, uint64_t *blocks, size_t nb, const uint64_t *rules,
                         size_t nr, uint8_t *t, size_t w, uint64_t *records, size_t nrec);
typedef uint64_t filing(const uint8_t *file, size_t n, uint8_t *report, size_t k);

// What a book or a file that is refused gives; an accepted book gives 0, a file the length of its report.
#define REFUSED 2097152

extreme plain_least, plain_greatest; // the text's length, 1000 for a refusal
uint64_t plain_sweep(const uint64_t *x, size_t nx, const uint64_t *y, size_t ny, uint64_t *out, size_t k);
fitting plain_fits, rows_fits;
// The greatest index, 1000 times the least, 1000000 where some text lacks the mark; 0 for nowhere, 1000 for a refusal.
finding spread_find, rows_find;
narrowing plain_exact, plain_padded, plain_any_case, plain_at_most, plain_before;
narrowing rows_exact, rows_padded, rows_any_case, rows_at_most, rows_before;
joining plain_join, rows_join;
showing plain_common, rows_common; // the text's length, 1000 for a refusal, 2000 for none
running plain_book, rows_book;
filing plain_file, rows_file;

// What both share: a base's codes, whether lent numbers are a shape or a join, the extreme texts of a shape, a join, a
// book and its file run with either's narrowing of checked shapes.
static inline int holds(const uint64_t *base, uint8_t c) { return base[c / 64] >> (c % 64) & 1; }

// The bits of the numbers below k in the word whose first number is w.
static inline uint64_t ones(size_t k, size_t w) { return k <= w ? 0 : k >= w + 64 ? ~0ull : (1ull << (k - w)) - 1; }

int plain_check(const uint64_t *s, size_t n);
int plain_check_join(const uint64_t *x, size_t nx, const uint64_t *y, size_t ny, const uint64_t *z, size_t nz, size_t w,
                     size_t a, size_t b, size_t c);
size_t plain_extreme(int up, const uint64_t *s, size_t n, uint8_t *out);

// What a refusal tells; number 0 is none.
struct refusal {
    uint64_t number, text, place;
};

// The answer record of a pair of a tray, and the call on a whole tray: 0, or its refusal's number.
enum verdict { PLACES, CANNOT, REFUSED_PAIR };
struct answer {
    enum verdict verdict;
    struct refusal refusal;
    uint64_t looks;
};
uint64_t plain_tray(const uint64_t *blocks, size_t n, const uint64_t *pairs, size_t m, struct answer *row, size_t k);
struct refusal plain_check_book(const uint64_t *counts, size_t texts, const uint64_t *blocks, size_t nb,
                                const uint64_t *rules, size_t nr, size_t w);

// The padding that an equality lets be dropped at the ends, as a base's first word: nothing, which is equality to the
// letter, or the blank.
#define NOTHING 0ull
#define BLANK (1ull << 32)

// Kinds 0, 1, 2 and 4; under an equality x may have up to 64 blocks.
typedef uint64_t narrowing_by_kind(uint64_t kind, const uint64_t *x, size_t nx, const uint64_t *y, size_t ny,
                                   uint8_t *t, uint64_t *ox, uint64_t *oy);
narrowing_by_kind plain_by_kind;
uint64_t run_any_case(narrowing_by_kind *narrow, const uint64_t *x, size_t nx, const uint64_t *y, size_t ny, uint8_t *t,
                      uint64_t *ox, uint64_t *oy);
uint64_t run_join(narrowing_by_kind *narrow, const uint64_t *x, size_t nx, const uint64_t *y, size_t ny,
                  const uint64_t *z, size_t nz, uint8_t *t, uint64_t *ox, uint64_t *oy, uint64_t *oz);
void run_groups(narrowing_by_kind *narrow, const uint64_t *counts, size_t texts, uint64_t *blocks, size_t nb,
                const uint64_t *rules, size_t nr, uint8_t *t, uint64_t *records);
uint64_t run_book(narrowing_by_kind *narrow, const uint64_t *counts, size_t texts, uint64_t *blocks, size_t nb,
                  const uint64_t *rules, size_t nr, uint8_t *t, size_t w, uint64_t *records, size_t nrec);
uint64_t run_file(narrowing_by_kind *narrow, const uint8_t *file, size_t n, uint8_t *report, size_t k);
