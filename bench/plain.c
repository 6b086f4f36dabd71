// Plain C functions of the calls, narrowing with byte tables over pairs of positions.
#include "plain.h"
#include <string.h>

static int shares(const uint64_t *a, const uint64_t *b) {
    return (a[0] & b[0]) || (a[1] & b[1]) || (a[2] & b[2]) || (a[3] & b[3]);
}

static void add(uint64_t *base, const uint64_t *more) {
    for (int w = 0; w < WORDS; w++) base[w] |= more[w];
}

static void add_shared(uint64_t *base, const uint64_t *a, const uint64_t *b) {
    for (int w = 0; w < WORDS; w++) base[w] |= a[w] & b[w];
}

static void cut(uint64_t *base, const uint64_t *by) {
    for (int w = 0; w < WORDS; w++) base[w] &= by[w];
}

// The least and the greatest code of a base that has one.
static inline int least_code(const uint64_t *base) {
    if (base[0]) return __builtin_ctzll(base[0]);
    if (base[1]) return 64 + __builtin_ctzll(base[1]);
    if (base[2]) return 128 + __builtin_ctzll(base[2]);
    return 192 + __builtin_ctzll(base[3]);
}

static inline int greatest_code(const uint64_t *base) {
    if (base[3]) return 255 - __builtin_clzll(base[3]);
    if (base[2]) return 191 - __builtin_clzll(base[2]);
    if (base[1]) return 127 - __builtin_clzll(base[1]);
    return 63 - __builtin_clzll(base[0]);
}

static uint64_t uppers(const uint64_t *s, size_t n) {
    uint64_t total = 0;
    for (size_t i = 0; i < n; i += BLOCK) total += s[i + UPPER];
    return total;
}

// Shape checking as document 01 and document 02, order 1, ask, but for the length: 0; 2, 10 or 11 with the block; or 3.
static uint64_t check_blocks(const uint64_t *s, size_t n, uint64_t *block) {
    for (size_t i = 0; i < n; i += BLOCK) {
        int empty = (s[i] | s[i + 1] | s[i + 2] | s[i + 3]) == 0;
        *block = i / BLOCK + 1;
        if (s[i + LOWER] > s[i + UPPER]) return 2;
        if (s[i + UPPER] > 250) return 10;
        if (empty != (s[i + UPPER] == 0)) return 11;
    }
    *block = 0;
    return uppers(s, n) <= 250 ? 0 : 3;
}

int plain_check(const uint64_t *s, size_t n) {
    uint64_t block;
    return n % BLOCK == 0 && n != 0 && n <= SHAPE_MOST && check_blocks(s, n, &block) == 0;
}

int plain_check_join(const uint64_t *x, size_t nx, const uint64_t *y, size_t ny, const uint64_t *z, size_t nz, size_t w,
                     size_t a, size_t b, size_t c) {
    if (!plain_check(x, nx) || !plain_check(y, ny) || !plain_check(z, nz)) return 0;
    return uppers(y, ny) + uppers(z, nz) <= 250 && w >= 63001 && a >= nx && b >= ny && c >= nz;
}

uint64_t plain_fits(const uint64_t *s, size_t n, const uint8_t *t, size_t k) {
    if (!plain_check(s, n)) return 1000;
    if (k > 250) return 0;
    uint8_t a[251], b[251], *after = a, *row = b;
    memset(a, 0, sizeof a);
    after[k] = 1;
    for (size_t i = n; i > 0; i -= BLOCK) {
        const uint64_t *w = s + i - BLOCK;
        size_t end = k, near = k + 1;
        memset(row, 0, 251);
        for (size_t p = k + 1; p-- > 0;) {
            if (p == k) end = k;
            else if (!holds(w, t[p])) end = p;
            if (w[LOWER] <= k - p && after[p + w[LOWER]] == 1) near = p + w[LOWER];
            row[p] = near <= end && near - p <= w[UPPER];
        }
        uint8_t *x = after;
        after = row;
        row = x;
    }
    return after[0];
}

// How often a block takes its character c before the successor, which becomes that before the block: -1 the end, 2c + 1
// just above c, 2c - 1 just below it.
static inline uint64_t choose(int up, const uint64_t *w, int *succ, int *c) {
    if (w[UPPER] == 0) return 0;
    *c = up ? greatest_code(w) : least_code(w);
    int first = up ? 2 * *c > *succ : 2 * *c < *succ;
    uint64_t count = first ? w[UPPER] : w[LOWER];
    if (count) *succ = first != up ? 2 * *c + 1 : 2 * *c - 1;
    return count;
}

// The least or (up) the greatest text of a checked shape: its length, then the text from its end, with no choice kept.
static inline size_t extreme_text(int up, const uint64_t *s, size_t n, uint8_t *out) {
    size_t length = 0;
    int c, succ = -1;
    for (size_t i = n; i > 0; i -= BLOCK) length += choose(up, s + i - BLOCK, &succ, &c);
    succ = -1;
    for (size_t i = n, at = length; i > 0; i -= BLOCK) {
        uint64_t count = choose(up, s + i - BLOCK, &succ, &c);
        if (!count) continue;
        at -= count;
        memset(out + at, c, count);
    }
    return length;
}

static inline uint64_t checked_extreme(int up, const uint64_t *s, size_t n, uint8_t *out, size_t k) {
    if (!plain_check(s, n) || k < 250) return 1000;
    return extreme_text(up, s, n, out);
}

uint64_t plain_least(const uint64_t *s, size_t n, uint8_t *out, size_t k) { return checked_extreme(0, s, n, out, k); }

uint64_t plain_greatest(const uint64_t *s, size_t n, uint8_t *out, size_t k) {
    return checked_extreme(1, s, n, out, k);
}

size_t plain_extreme(int up, const uint64_t *s, size_t n, uint8_t *out) { return extreme_text(up, s, n, out); }

// The quick sweep by document 01's steps. Places are block numbers from 1 and offsets.
struct place {
    uint64_t block, offset;
};

// Of checked shapes; whether there are places.
static inline int sweep_shapes(const uint64_t *x, size_t nx, const uint64_t *y, size_t ny, uint64_t *out,
                               uint64_t *made) {
    uint64_t n = nx / BLOCK, m = ny / BLOCK, looks = 0;
    struct place kept[32], at = {1, 0};
    for (uint64_t b = n; b-- > 0;) {
        const uint64_t *s = x + BLOCK * b;
        uint64_t left = s[UPPER], i = at.block, o = at.offset;
        for (; i <= m; i++, o = 0) {
            const uint64_t *t = y + BLOCK * (m - i);
            looks++;
            if (t[LOWER] <= o) continue;
            if (!shares(s, t)) break;
            if (left < t[LOWER] - o) {
                o += left;
                break;
            }
            left -= t[LOWER] - o;
        }
        at.block = i;
        at.offset = o;
        if (i > m) kept[b] = (struct place){1, 0};
        else kept[b] = (struct place){m + 1 - i, y[BLOCK * (m - i) + LOWER] - o};
    }
    *made = looks;
    if (kept[0].block != 1 || kept[0].offset != 0) return 0;
    struct place end = {1, 0}, start[32];
    for (uint64_t b = 0; b < n; b++) {
        const uint64_t *s = x + BLOCK * b;
        struct place from = kept[b];
        if (from.block < end.block || (from.block == end.block && from.offset < end.offset)) from = end;
        uint64_t left = s[LOWER], i = from.block, o = from.offset;
        start[b] = from;
        while (left > 0 && i <= m) {
            const uint64_t *t = y + BLOCK * (i - 1);
            looks++;
            if (!shares(s, t)) {
                int must = t[LOWER] > o;
                i++;
                o = 0;
                if (must) {
                    start[b] = (struct place){i, 0};
                    left = s[LOWER];
                }
                continue;
            }
            if (left <= t[UPPER] - o) {
                o += left;
                left = 0;
            } else {
                left -= t[UPPER] - o;
                i++;
                o = 0;
            }
        }
        *made = looks;
        if (left) return 0;
        end.block = i;
        end.offset = o;
    }
    for (uint64_t b = 0; b < n; b++) {
        out[2 * b] = start[b].block;
        out[2 * b + 1] = start[b].offset;
    }
    return 1;
}

uint64_t plain_sweep(const uint64_t *x, size_t nx, const uint64_t *y, size_t ny, uint64_t *out, size_t k) {
    uint64_t looks;
    if (!plain_check(x, nx) || !plain_check(y, ny) || k < 2 * (nx / BLOCK)) return 1000;
    return sweep_shapes(x, nx, y, ny, out, &looks) ? looks : 100000;
}

// What is told of the numbers lent for a shape.
static struct refusal check_lent(const uint64_t *s, size_t n, uint64_t number) {
    uint64_t block;
    if (n % BLOCK != 0 || n == 0 || n > SHAPE_MOST) return (struct refusal){1, number, 0};
    uint64_t wrong = check_blocks(s, n, &block);
    return (struct refusal){wrong, number, block};
}

// The record of a pair: its ranges, then its shapes, then the sweep.
static struct answer judge(const uint64_t *blocks, size_t n, const uint64_t *p) {
    struct answer a = {REFUSED_PAIR, {14, 1, 0}, 0};
    uint64_t whole = n / BLOCK, out[64];
    if (p[1] < p[0] || whole < p[1]) return a;
    a.refusal.text = 2;
    if (p[3] < p[2] || whole < p[3]) return a;
    const uint64_t *x = blocks + BLOCK * p[0], *y = blocks + BLOCK * p[2];
    size_t nx = BLOCK * (p[1] - p[0]), ny = BLOCK * (p[3] - p[2]);
    a.refusal = check_lent(x, nx, 1);
    if (a.refusal.number) return a;
    a.refusal = check_lent(y, ny, 2);
    if (a.refusal.number) return a;
    a.verdict = sweep_shapes(x, nx, y, ny, out, &a.looks) ? PLACES : CANNOT;
    return a;
}

uint64_t plain_tray(const uint64_t *blocks, size_t n, const uint64_t *pairs, size_t m, struct answer *row, size_t k) {
    if (m % 4 != 0 || m / 4 > 64) return 15;
    if (k < m / 4) return 5;
    for (size_t i = 0; i < m / 4; i++) row[i] = judge(blocks, n, pairs + 4 * i);
    return 0;
}

// Narrowing under equality with a byte table over pairs of positions, 251 to a row. The slot past a shape's last has
// the padding for its base, and the position stays there however much of it is taken: the text goes on in padding while
// the other's does.
struct slot {
    uint64_t base[WORDS], lower, upper;
};

static size_t lay(const uint64_t *s, size_t n, uint64_t pad, struct slot *to) {
    size_t p = 0;
    for (size_t i = 0; i < n; i += BLOCK)
        for (uint64_t k = 0; k < s[i + UPPER]; k++, p++) {
            memcpy(to[p].base, s + i, sizeof to[p].base);
            to[p].lower = s[i + LOWER] > k ? s[i + LOWER] - k : 0;
            to[p].upper = s[i + UPPER] - k;
        }
    to[p] = (struct slot){{pad}, 1, 0};
    return p;
}

// Cell (i, j) of the own shape and the other: the table read as it is, or turned.
static uint8_t cell(const uint8_t *t, int turned, size_t i, size_t j) {
    return turned ? t[j * 251 + i] : t[i * 251 + j];
}

static void side(const uint64_t *x, size_t nx, const struct slot *ys, size_t m, const uint8_t *t, int turned,
                 uint64_t *out) {
    size_t p = 0;
    for (size_t i = 0; i < nx; i += BLOCK) {
        uint64_t base[WORDS] = {0}, least = 251, most = 0, u = x[i + UPPER];
        if (x[i + LOWER] == 0)
            for (size_t j = 0; j <= m; j++)
                if ((cell(t, turned, p, j) & 2) && (cell(t, turned, p + u, j) & 1)) least = 0;
        for (uint64_t k = 0; k < u; k++)
            for (size_t j = 0; j <= m; j++) {
                size_t on = j + (j < m);
                if (!(cell(t, turned, p + k, j) & 2) || !shares(x + i, ys[j].base)) continue;
                if (cell(t, turned, p + k + 1, on) & 1) add_shared(base, x + i, ys[j].base);
                if (k + 1 >= x[i + LOWER] && (cell(t, turned, p + u, on) & 1)) {
                    if (k + 1 < least) least = k + 1;
                    if (k + 1 > most) most = k + 1;
                }
            }
        memcpy(out + i, base, sizeof base);
        out[i + LOWER] = least;
        out[i + UPPER] = most;
        p += u;
    }
}

// 1 in the table where one text leads both shapes to their ends.
static inline void from_ends(const struct slot *xs, size_t n, const struct slot *ys, size_t m, uint8_t *t) {
    for (size_t i = n + 1; i-- > 0;) {
        struct slot own = xs[i];
        for (size_t j = m + 1; j-- > 0;) {
            int v = i == n && j == m;
            if (!v && own.lower == 0) v = t[(i + own.upper) * 251 + j];
            if (!v && ys[j].lower == 0) v = t[i * 251 + j + ys[j].upper];
            if (!v && shares(own.base, ys[j].base)) v = t[(i + (i < n)) * 251 + j + (j < m)];
            t[i * 251 + j] = v;
        }
    }
}

static uint64_t equal(uint64_t pad, const uint64_t *x, size_t nx, const uint64_t *y, size_t ny, uint8_t *t,
                      uint64_t *ox, uint64_t *oy) {
    static struct slot xs[251], ys[251];
    size_t n = lay(x, nx, pad, xs), m = lay(y, ny, pad, ys);
    from_ends(xs, n, ys, m, t);
    uint64_t some = t[0];
    if (some) {
        t[0] |= 2;
        for (size_t i = 0; i <= n; i++) {
            struct slot own = xs[i];
            for (size_t j = 0; j <= m; j++) {
                if (!(t[i * 251 + j] & 2)) continue;
                if (own.lower == 0) t[(i + own.upper) * 251 + j] |= 2;
                if (ys[j].lower == 0) t[i * 251 + j + ys[j].upper] |= 2;
                if (shares(own.base, ys[j].base)) t[(i + (i < n)) * 251 + j + (j < m)] |= 2;
            }
        }
        side(x, nx, ys, m, t, 0, ox);
        side(y, ny, xs, n, t, 1, oy);
    }
    memset(t, 0, 63001);
    return some;
}

static uint64_t check_equal(uint64_t pad, const uint64_t *x, size_t nx, const uint64_t *y, size_t ny, uint8_t *t,
                            size_t w, uint64_t *ox, size_t a, uint64_t *oy, size_t b) {
    if (!plain_check(x, nx) || !plain_check(y, ny) || w < 63001 || a < nx || b < ny) return 1000;
    return equal(pad, x, nx, y, ny, t, ox, oy);
}

uint64_t plain_exact(const uint64_t *x, size_t nx, const uint64_t *y, size_t ny, uint8_t *t, size_t w, uint64_t *ox,
                     size_t a, uint64_t *oy, size_t b) {
    return check_equal(NOTHING, x, nx, y, ny, t, w, ox, a, oy, b);
}

uint64_t plain_padded(const uint64_t *x, size_t nx, const uint64_t *y, size_t ny, uint8_t *t, size_t w, uint64_t *ox,
                      size_t a, uint64_t *oy, size_t b) {
    return check_equal(BLANK, x, nx, y, ny, t, w, ox, a, oy, b);
}

// A set of positions, a byte to each, with the ends of the runs that may end in it.
static void stop_runs(const struct slot *s, size_t n, uint8_t *set) {
    for (size_t p = 0; p < n; p++)
        if (set[p] && s[p].lower == 0) set[p + s[p].upper] = 1;
}

// The positions that one character more leads to.
static void read_on(const struct slot *s, size_t n, int c, uint8_t *set) {
    for (size_t p = n; p-- > 0;) set[p + 1] = set[p] && holds(s[p].base, c);
    set[0] = 0;
    stop_runs(s, n, set);
}

// The least code that two bases share; CODES if there is none.
static int least_shared(const uint64_t *a, const uint64_t *b) {
    if (a[0] & b[0]) return __builtin_ctzll(a[0] & b[0]);
    if (a[1] & b[1]) return 64 + __builtin_ctzll(a[1] & b[1]);
    if (a[2] & b[2]) return 128 + __builtin_ctzll(a[2] & b[2]);
    if (a[3] & b[3]) return 192 + __builtin_ctzll(a[3] & b[3]);
    return CODES;
}

// The least character with which a text can go on to both ends from these positions.
static int least_next(const struct slot *xs, size_t n, const struct slot *ys, size_t m, const uint8_t *t,
                      const uint8_t *own, const uint8_t *other) {
    int least = CODES;
    for (size_t i = 0; i < n; i++) {
        if (!own[i]) continue;
        for (size_t j = 0; j < m; j++) {
            if (!other[j] || !t[(i + 1) * 251 + j + 1]) continue;
            int c = least_shared(xs[i].base, ys[j].base);
            if (c < least) least = c;
        }
    }
    return least;
}

// The earliest common text: the table first, then character by character the positions that the text leads to in either
// shape.
uint64_t plain_common(const uint64_t *x, size_t nx, const uint64_t *y, size_t ny, uint8_t *t, size_t w, uint8_t *out,
                      size_t k) {
    if (!plain_check(x, nx) || !plain_check(y, ny) || w < 63001 || k < 250) return 1000;
    static struct slot xs[251], ys[251];
    uint8_t own[251] = {1}, other[251] = {1};
    size_t n = lay(x, nx, NOTHING, xs), m = lay(y, ny, NOTHING, ys), at = 0;
    from_ends(xs, n, ys, m, t);
    int some = t[0];
    stop_runs(xs, n, own);
    stop_runs(ys, m, other);
    while (some && !(own[n] && other[m])) {
        int c = least_next(xs, n, ys, m, t, own, other);
        out[at++] = c;
        read_on(xs, n, c, own);
        read_on(ys, m, c, other);
    }
    memset(t, 0, 63001);
    return some ? at : 2000;
}

// A fixed text of m characters as a guide: at each of its places the character that stays with it, those that part from
// it downwards or (up) upwards, and in `lower` whether a text may end there.
static void guide(int up, int strict, const uint8_t *text, size_t m, struct slot *next, struct slot *parts) {
    for (size_t q = 0; q < m; q++) {
        size_t c = text[q];
        next[q] = parts[q] = (struct slot){{0}, !up, 0};
        next[q].base[c / 64] = 1ull << (c % 64);
        for (size_t w = 0; w < WORDS; w++) parts[q].base[w] = up ? ~ones(c + 1, 64 * w) : ones(c, 64 * w);
    }
    uint64_t any = up ? ~0ull : 0;
    next[m] = (struct slot){{0}, 0, 0};
    parts[m] = (struct slot){{any, any, any, any}, !strict, 0};
}

// Whether a run of k characters from p can be, e being the place past the block.
static int ends(const uint64_t *own, const struct slot *next, size_t m, const uint8_t *t, size_t p, size_t e,
                size_t free, size_t k) {
    if (free <= p + k) return 1;
    if (k == 0) {
        for (size_t q = 0; q <= m; q++)
            if (t[p * 251 + q] == 2 && t[e * 251 + q]) return 1;
        return 0;
    }
    for (size_t q = 0; q < m; q++)
        if (t[(p + k - 1) * 251 + q] == 2 && t[e * 251 + q + 1] && shares(own, next[q].base)) return 1;
    return 0;
}

// Narrows one shape by a fixed text with a byte table over positions and characters matched: 1 where some rest keeps to
// the right side, 2 where also some start matches so far. From position `free` on a text may have parted, and then
// anything goes.
static int one_side(int up, int strict, const uint64_t *x, size_t nx, const uint8_t *text, size_t m, uint8_t *t,
                    uint64_t *out) {
    static struct slot xs[251], next[251], parts[251];
    size_t n = lay(x, nx, NOTHING, xs), p = 0, free;
    guide(up, strict, text, m, next, parts);
    for (size_t i = n + 1; i-- > 0;) {
        struct slot own = xs[i];
        for (size_t q = m + 1; q-- > 0;) {
            int v = own.lower == 0 && t[(i + own.upper) * 251 + q];
            if (!v && shares(own.base, next[q].base)) v = t[(i + 1) * 251 + q + 1];
            if (!v) v = shares(own.base, parts[q].base);
            if (!v && i == n) v = parts[q].lower;
            t[i * 251 + q] = v;
        }
    }
    if (!t[0]) return 0;
    t[0] = 2;
    for (size_t i = 0; i <= n; i++) {
        struct slot own = xs[i];
        for (size_t q = 0; q <= m; q++) {
            if (t[i * 251 + q] != 2) continue;
            size_t past = (i + own.upper) * 251 + q, on = (i + 1) * 251 + q + 1;
            if (own.lower == 0 && t[past]) t[past] = 2;
            if (shares(own.base, next[q].base) && t[on]) t[on] = 2;
        }
    }
    for (free = 1; free <= n; free++) {
        size_t q = 0, i = free - 1;
        while (q <= m && !(t[i * 251 + q] == 2 && shares(xs[i].base, parts[q].base))) q++;
        if (q <= m) break;
    }
    for (size_t i = 0; i < nx; i += BLOCK) {
        uint64_t base[WORDS] = {0}, u = x[i + UPPER], least = x[i + LOWER], most = u;
        if (free < p + u) add(base, x + i);
        else
            for (size_t k = 0; k < u; k++)
                for (size_t q = 0; q <= m; q++) {
                    if (t[(p + k) * 251 + q] != 2) continue;
                    add(base, parts[q].base);
                    if (q < m && t[(p + k + 1) * 251 + q + 1]) add(base, next[q].base);
                }
        while (least < u && !ends(x + i, next, m, t, p, p + u, free, least)) least++;
        while (most > x[i + LOWER] && !ends(x + i, next, m, t, p, p + u, free, most)) most--;
        cut(base, x + i);
        memcpy(out + i, base, sizeof base);
        out[i + LOWER] = least;
        out[i + UPPER] = most;
        p += u;
    }
    return 1;
}

// X by the greatest text of Y, Y by the least text of X.
static uint64_t order(int strict, const uint64_t *x, size_t nx, const uint64_t *y, size_t ny, uint8_t *t, size_t w,
                      uint64_t *ox, size_t a, uint64_t *oy, size_t b) {
    if (!plain_check(x, nx) || !plain_check(y, ny) || w < 63001 || a < nx || b < ny) return 1000;
    uint8_t text[250];
    uint64_t some = one_side(0, strict, x, nx, text, extreme_text(1, y, ny, text), t, ox);
    if (some) some = one_side(1, strict, y, ny, text, extreme_text(0, x, nx, text), t, oy);
    memset(t, 0, 63001);
    return some;
}

uint64_t plain_at_most(const uint64_t *x, size_t nx, const uint64_t *y, size_t ny, uint8_t *t, size_t w, uint64_t *ox,
                       size_t a, uint64_t *oy, size_t b) {
    return order(0, x, nx, y, ny, t, w, ox, a, oy, b);
}

uint64_t plain_before(const uint64_t *x, size_t nx, const uint64_t *y, size_t ny, uint8_t *t, size_t w, uint64_t *ox,
                      size_t a, uint64_t *oy, size_t b) {
    return order(1, x, nx, y, ny, t, w, ox, a, oy, b);
}

// A shape with both cases of each letter: A to Z are the bits 1 to 26 of a base's second word, a to z the bits 33 to
// 58.
static void add_cases(const uint64_t *s, size_t n, uint64_t *wide) {
    memcpy(wide, s, n * sizeof *wide);
    for (size_t j = 1; j < n; j += BLOCK) wide[j] |= (s[j] >> 32 & 0x7fffffe) | (s[j] & 0x7fffffe) << 32;
}

static void cut_bases(const uint64_t *s, size_t n, uint64_t *out) {
    for (size_t j = 0; j < n; j += BLOCK) cut(out + j, s + j);
}

// Equality but for letter case of checked shapes: to the letter with both cases, and what is left in the cases that the
// shapes have.
uint64_t run_any_case(narrowing_by_kind *narrow, const uint64_t *x, size_t nx, const uint64_t *y, size_t ny, uint8_t *t,
                      uint64_t *ox, uint64_t *oy) {
    uint64_t wide_x[SHAPE_MOST], wide_y[SHAPE_MOST];
    add_cases(x, nx, wide_x), add_cases(y, ny, wide_y);
    uint64_t some = narrow(4, wide_x, nx, wide_y, ny, t, ox, oy);
    if (some) cut_bases(x, nx, ox), cut_bases(y, ny, oy);
    return some;
}

uint64_t plain_any_case(const uint64_t *x, size_t nx, const uint64_t *y, size_t ny, uint8_t *t, size_t w, uint64_t *ox,
                        size_t a, uint64_t *oy, size_t b) {
    if (!plain_check(x, nx) || !plain_check(y, ny) || w < 63001 || a < nx || b < ny) return 1000;
    return run_any_case(plain_by_kind, x, nx, y, ny, t, ox, oy);
}

uint64_t plain_by_kind(uint64_t kind, const uint64_t *x, size_t nx, const uint64_t *y, size_t ny, uint8_t *t,
                       uint64_t *ox, uint64_t *oy) {
    if (kind == 5) return run_any_case(plain_by_kind, x, nx, y, ny, t, ox, oy);
    if (kind == 0 || kind == 4) return equal(kind == 0 ? BLANK : NOTHING, x, nx, y, ny, t, ox, oy);
    return order(kind == 2, x, nx, y, ny, t, 63001, ox, nx, oy, ny);
}

// A join of checked shapes: equality to the letter of the blocks of Y with those of Z behind them, up to 64, and X.
uint64_t run_join(narrowing_by_kind *narrow, const uint64_t *x, size_t nx, const uint64_t *y, size_t ny,
                  const uint64_t *z, size_t nz, uint8_t *t, uint64_t *ox, uint64_t *oy, uint64_t *oz) {
    uint64_t both[2 * SHAPE_MOST], out[2 * SHAPE_MOST];
    memcpy(both, y, ny * sizeof *both);
    memcpy(both + ny, z, nz * sizeof *both);
    uint64_t some = narrow(4, both, ny + nz, x, nx, t, out, ox);
    if (some) {
        memcpy(oy, out, ny * sizeof *out);
        memcpy(oz, out + ny, nz * sizeof *out);
    }
    return some;
}

uint64_t plain_join(const uint64_t *x, size_t nx, const uint64_t *y, size_t ny, const uint64_t *z, size_t nz,
                    uint8_t *t, size_t w, uint64_t *ox, size_t a, uint64_t *oy, size_t b, uint64_t *oz, size_t c) {
    if (!plain_check_join(x, nx, y, ny, z, nz, w, a, b, c)) return 1000;
    return run_join(plain_by_kind, x, nx, y, ny, z, nz, t, ox, oy, oz);
}

// The refusals of a book: 6, then those of the blocks text by text, 7 and 12 rule by rule, 4.
struct refusal plain_check_book(const uint64_t *counts, size_t texts, const uint64_t *blocks, size_t nb,
                                const uint64_t *rules, size_t nr, size_t w) {
    struct refusal wrong = {6, 0, 0};
    uint64_t sum = 0, block, total[8];
    if (texts < 1 || texts > 8 || nr % 4 || nr > 64) return wrong;
    for (size_t k = 0; k < texts; k++) {
        if (counts[k] < 1 || counts[k] > 32) return wrong;
        sum += counts[k];
    }
    if (nb != BLOCK * sum) return wrong;
    for (size_t k = 0; k < texts; blocks += BLOCK * counts[k++]) {
        uint64_t number = check_blocks(blocks, BLOCK * counts[k], &block);
        if (number) return (struct refusal){number, k + 1, block};
        total[k] = uppers(blocks, BLOCK * counts[k]);
    }
    for (size_t j = 0; j < nr; j += 4) {
        uint64_t kind = rules[j], a = rules[j + 1], b = rules[j + 2], c = rules[j + 3];
        int right = kind <= 5 && a >= 1 && a <= texts && b >= 1 && b <= texts && a != b;
        if (!right || (kind == 3 ? c < 1 || c > texts || c == a || c == b : c != 0))
            return (struct refusal){7, 0, j / 4 + 1};
        if (kind == 3 && total[b - 1] + total[c - 1] > 250) return (struct refusal){12, 0, j / 4 + 1};
    }
    return (struct refusal){w < 63001 ? 4 : 0, 0, 0};
}

// How many texts a rule names.
static int named(const uint64_t *rule) { return rule[0] == 3 ? 3 : 2; }

// The rounds of rules over shapes, that of text k at at[k - 1]: whether they end stable, and the applications.
static int run_rounds(narrowing_by_kind *narrow, const uint64_t *counts, uint64_t *const *at, const uint64_t *rules,
                      size_t nr, uint8_t *t, uint64_t *made) {
    uint64_t new[3][SHAPE_MOST];
    *made = 0;
    for (int changed = 1; changed;) {
        changed = 0;
        for (const uint64_t *r = rules; r < rules + nr; r += 4) {
            uint64_t *old[3], some;
            size_t n[3];
            for (int k = 0; k < named(r); k++) {
                old[k] = at[r[1 + k] - 1];
                n[k] = BLOCK * counts[r[1 + k] - 1];
            }
            if (named(r) == 3)
                some = run_join(narrow, old[0], n[0], old[1], n[1], old[2], n[2], t, new[0], new[1], new[2]);
            else some = narrow(r[0], old[0], n[0], old[1], n[1], t, new[0], new[1]);
            ++*made;
            if (some != 1) return 0;
            for (int k = 0; k < named(r); k++) {
                if (memcmp(old[k], new[k], n[k] * sizeof *new[k]) == 0) continue;
                memcpy(old[k], new[k], n[k] * sizeof *new[k]);
                changed = 1;
            }
        }
    }
    return 1;
}

// The name of each text's group: of two groups that a rule links, that with the greater name takes the other's.
static void name_groups(size_t texts, const uint64_t *rules, size_t nr, uint64_t *name) {
    for (size_t k = 0; k < texts; k++) name[k] = k + 1;
    for (const uint64_t *r = rules; r < rules + nr; r += 4)
        for (int i = 2; i <= named(r); i++) {
            uint64_t a = name[r[1] - 1], b = name[r[i] - 1], least = a < b ? a : b, other = a < b ? b : a;
            for (size_t k = 0; k < texts; k++)
                if (name[k] == other) name[k] = least;
        }
}

// A checked book, group by group, each with its own rules, on a copy of the blocks: no group touches another's, and
// those of a stable one are taken back.
void run_groups(narrowing_by_kind *narrow, const uint64_t *counts, size_t texts, uint64_t *blocks, size_t nb,
                const uint64_t *rules, size_t nr, uint8_t *t, uint64_t *records) {
    uint64_t copy[BOOK_MOST], name[8], own[64], *at[9] = {copy}, made;
    memcpy(copy, blocks, nb * sizeof *copy);
    memset(t, 0, 63001);
    for (size_t k = 0; k < texts; k++) at[k + 1] = at[k] + BLOCK * counts[k];
    name_groups(texts, rules, nr, name);
    for (uint64_t g = 1; g <= texts; g++) {
        if (name[g - 1] != g) continue;
        size_t n = 0;
        for (const uint64_t *r = rules; r < rules + nr; r += 4)
            if (name[r[1] - 1] == g) memcpy(own + n, r, 4 * sizeof *own), n += 4;
        int stable = run_rounds(narrow, counts, at, own, n, t, &made);
        for (size_t k = g - 1; k < texts; k++) {
            if (name[k] != g) continue;
            memcpy(records + RECORD * k, (uint64_t[]){g, !stable, made}, RECORD * sizeof *records);
            if (stable) memcpy(blocks + (at[k] - copy), at[k], BLOCK * counts[k] * sizeof *copy);
        }
    }
}

uint64_t run_book(narrowing_by_kind *narrow, const uint64_t *counts, size_t texts, uint64_t *blocks, size_t nb,
                  const uint64_t *rules, size_t nr, uint8_t *t, size_t w, uint64_t *records, size_t nrec) {
    if (nrec < RECORDS) return REFUSED;
    memset(records, 0, RECORDS * sizeof *records);
    if (plain_check_book(counts, texts, blocks, nb, rules, nr, w).number) return REFUSED;
    run_groups(narrow, counts, texts, blocks, nb, rules, nr, t, records);
    return 0;
}

uint64_t plain_book(const uint64_t *counts, size_t texts, uint64_t *blocks, size_t nb, const uint64_t *rules, size_t nr,
                    uint8_t *t, size_t w, uint64_t *records, size_t nrec) {
    return run_book(plain_by_kind, counts, texts, blocks, nb, rules, nr, t, w, records, nrec);
}
