// Plain C functions of the same calls with rows of bits: a set of positions, or of places of a text, is one row, and a
// step of the whole set a shift.
#include "plain.h"
#include <string.h>

// Bit k of `a` stands for k, of `b` for 64 + k, of `c` for 128 + k, of `d` for 192 + k. A base is a row of codes.
struct row {
    uint64_t a, b, c, d;
};

static const struct row none = {0, 0, 0, 0};

static inline struct row row_of(const uint64_t *words) { return (struct row){words[0], words[1], words[2], words[3]}; }

static inline void put(uint64_t *words, struct row r) { memcpy(words, &r, sizeof r); }

static inline struct row both(struct row r, struct row s) {
    return (struct row){r.a & s.a, r.b & s.b, r.c & s.c, r.d & s.d};
}

static inline struct row either(struct row r, struct row s) {
    return (struct row){r.a | s.a, r.b | s.b, r.c | s.c, r.d | s.d};
}

static inline struct row without(struct row r, struct row s) {
    return (struct row){r.a & ~s.a, r.b & ~s.b, r.c & ~s.c, r.d & ~s.d};
}

static inline struct row up(struct row r) {
    return (struct row){r.a << 1, r.b << 1 | r.a >> 63, r.c << 1 | r.b >> 63, r.d << 1 | r.c >> 63};
}

static inline struct row down(struct row r) {
    return (struct row){r.a >> 1 | r.b << 63, r.b >> 1 | r.c << 63, r.c >> 1 | r.d << 63, r.d >> 1};
}

static inline int any(struct row r) { return (r.a | r.b | r.c | r.d) != 0; }

static inline int meet(struct row r, struct row s) { return any(both(r, s)); }

static inline struct row between(size_t from, size_t to) {
    return (struct row){ones(from, 0) ^ ones(to, 0), ones(from, 64) ^ ones(to, 64), ones(from, 128) ^ ones(to, 128),
                        ones(from, 192) ^ ones(to, 192)};
}

static inline struct row single(size_t k) { return between(k, k + 1); }

static inline size_t first(struct row r) {
    if (r.a) return __builtin_ctzll(r.a);
    if (r.b) return 64 + __builtin_ctzll(r.b);
    if (r.c) return 128 + __builtin_ctzll(r.c);
    return 192 + __builtin_ctzll(r.d);
}

// A row without its first number.
static inline struct row but_first(struct row r) {
    if (r.a) return (struct row){r.a & (r.a - 1), r.b, r.c, r.d};
    if (r.b) return (struct row){0, r.b & (r.b - 1), r.c, r.d};
    if (r.c) return (struct row){0, 0, r.c & (r.c - 1), r.d};
    return (struct row){0, 0, 0, r.d & (r.d - 1)};
}

static inline size_t last(struct row r) {
    if (r.d) return 255 - __builtin_clzll(r.d);
    if (r.c) return 191 - __builtin_clzll(r.c);
    if (r.b) return 127 - __builtin_clzll(r.b);
    return 63 - __builtin_clzll(r.a);
}

// For each block, from the last to the first, the places of the text from which it and those after it fit; all runs of
// a length are one set.
uint64_t rows_fits(const uint64_t *s, size_t n, const uint8_t *t, size_t k) {
    if (!plain_check(s, n)) return 1000;
    if (k > 250) return 0;
    uint64_t places[CODES][4], has[WORDS] = {0}; // where the text has each of its characters
    struct row after = single(k);
    for (size_t p = 0; p < k; p++) {
        uint8_t c = t[p];
        if (!holds(has, c)) memset(places[c], 0, sizeof places[c]);
        has[c / 64] |= 1ull << (c % 64);
        places[c][p / 64] |= 1ull << (p % 64);
    }
    for (size_t i = n; i > 0; i -= BLOCK) {
        const uint64_t *w = s + i - BLOCK;
        struct row held = none, run = after;
        for (int h = 0; h < WORDS; h++)
            for (uint64_t left = w[h] & has[h]; left; left &= left - 1)
                held = either(held, row_of(places[64 * h + __builtin_ctzll(left)]));
        after = none;
        for (uint64_t c = 0; c <= w[UPPER] && any(run); c++) {
            if (c >= w[LOWER]) after = either(after, run);
            run = both(down(run), held);
        }
    }
    return after.a & 1;
}

// ---- a mark sought in a shape: for each number of its characters that is matched, its state, the row of the lengths
// of texts that lack it so far

// Which of the mark's starts each of them ends with, and the characters that lead from each to a state above 0.
static void mark_borders(const uint8_t *mark, size_t m, uint64_t *same, uint64_t *borders, uint64_t (*seen)[WORDS]) {
    for (size_t r = 0; r < m; r++) {
        same[r] = 0;
        for (size_t j = 0; j < m; j++) same[r] |= (uint64_t)(mark[j] == mark[r]) << j;
    }
    borders[0] = 1;
    for (size_t q = 1; q < m; q++) borders[q] = (borders[q - 1] & same[q - 1]) << 1 | 1;
    for (size_t q = 0; q < m; q++) {
        uint64_t shorter = borders[q] & ~(1ull << q);
        if (shorter) memcpy(seen[q], seen[63 - __builtin_clzll(shorter)], sizeof seen[q]);
        else memset(seen[q], 0, sizeof seen[q]);
        seen[q][mark[q] / 64] |= 1ull << (mark[q] % 64);
    }
}

static inline int leaves(const uint64_t *base, const uint64_t *seen) {
    return (base[0] & ~seen[0]) || (base[1] & ~seen[1]) || (base[2] & ~seen[2]) || (base[3] & ~seen[3]);
}

static uint64_t found(struct row hits, int lacks, size_t m) {
    if (!any(hits)) return 0;
    return lacks * 1000000ull + (first(hits) - m + 1) * 1000 + (last(hits) - m + 1);
}

// From each state to those that a character leads to, into other rows; where a run may end they are gathered in a third
// set of rows.
uint64_t spread_find(const uint64_t *s, size_t n, const uint8_t *mark, size_t m) {
    if (!plain_check(s, n) || m > 64) return 1000;
    if (m == 0) return 1001;
    uint64_t same[64], borders[64], seen[64][WORDS], on[64];
    mark_borders(mark, m, same, borders, seen);
    for (size_t q = 0; q < m; q++) { // of the borders with one next character the greatest
        on[q] = 0;
        for (uint64_t left = borders[q], gone = 0; left; left &= ~(1ull << (63 - __builtin_clzll(left)))) {
            int r = 63 - __builtin_clzll(left);
            if (!(gone >> r & 1)) on[q] |= 1ull << r;
            gone |= same[r];
        }
    }
    struct row rows[64], next[64], stops[64], hits = none;
    memset(rows, 0, m * sizeof *rows);
    rows[0].a = 1;
    for (size_t i = 0; i < n; i += BLOCK) {
        uint64_t to[64], allowed = 0;
        int back[64];
        for (size_t r = 0; r < m; r++) allowed |= (uint64_t)holds(s + i, mark[r]) << r;
        for (size_t q = 0; q < m; q++) to[q] = on[q] & allowed, back[q] = leaves(s + i, seen[q]);
        memset(stops, 0, m * sizeof *stops);
        for (uint64_t o = 0; o < s[i + UPPER]; o++) {
            if (o >= s[i + LOWER])
                for (size_t q = 0; q < m; q++) stops[q] = either(stops[q], rows[q]);
            memset(next, 0, m * sizeof *next);
            for (size_t q = 0; q < m; q++) {
                if (!any(rows[q])) continue;
                struct row one = up(rows[q]);
                for (uint64_t left = to[q]; left; left &= left - 1) {
                    size_t r = __builtin_ctzll(left) + 1;
                    if (r == m) hits = either(hits, one);
                    else next[r] = either(next[r], one);
                }
                if (back[q]) next[0] = either(next[0], one);
            }
            memcpy(rows, next, m * sizeof *rows);
        }
        for (size_t q = 0; q < m; q++) rows[q] = either(rows[q], stops[q]);
    }
    int lacks = 0;
    for (size_t q = 0; q < m; q++) lacks |= any(rows[q]);
    return found(hits, lacks, m);
}

static inline struct row gather(const struct row *rows, uint64_t w) {
    struct row r = none;
    for (; w; w &= w - 1) r = either(r, rows[__builtin_ctzll(w)]);
    return r;
}

// As the proved call: in place, each state from itself and the states above, those that have no length left out; where
// a run may end the rows stay as well.
uint64_t rows_find(const uint64_t *s, size_t n, const uint8_t *mark, size_t m) {
    if (!plain_check(s, n) || m > 64) return 1000;
    if (m == 0) return 1001;
    uint64_t falls[64], borders[64], seen[64][WORDS], live = 1;
    mark_borders(mark, m, falls, borders, seen);
    for (size_t r = 0; r < m; r++) {
        uint64_t same = falls[r];
        falls[r] = 0;
        for (size_t q = r + 1; q < m; q++) falls[r] |= (uint64_t)((borders[q] & same) >> r == 1) << q;
    }
    struct row rows[64], hits = none;
    memset(rows, 0, m * sizeof *rows);
    rows[0].a = 1;
    for (size_t i = 0; i < n; i += BLOCK) {
        uint64_t allowed = 0, back = 0;
        for (size_t q = 0; q < m; q++)
            allowed |= (uint64_t)holds(s + i, mark[q]) << q, back |= (uint64_t)leaves(s + i, seen[q]) << q;
        for (uint64_t o = 0; o < s[i + UPPER] && live; o++) {
            if (allowed >> (m - 1) & 1) hits = either(hits, up(rows[m - 1]));
            size_t end = 65 - __builtin_clzll(live);
            struct row last = none;
            uint64_t next = 0;
            for (size_t t = 0; t < (end < m ? end : m); t++) {
                struct row here = rows[t], come = none;
                if (t == 0) come = up(gather(rows, back & live));
                else if (allowed >> (t - 1) & 1) come = up(either(last, gather(rows, falls[t - 1] & live)));
                rows[t] = o >= s[i + LOWER] ? either(come, here) : come;
                next |= (uint64_t)any(rows[t]) << t;
                last = here;
            }
            live = next;
        }
    }
    return found(hits, live != 0, m);
}

// Each number d down, where d is 64, 128 or less than 64.
static inline __attribute__((always_inline)) struct row lower(struct row r, int d) {
    if (d == 64) return (struct row){r.b, r.c, r.d, 0};
    if (d == 128) return (struct row){r.c, r.d, 0, 0};
    return (struct row){r.a >> d | r.b << (64 - d), r.b >> d | r.c << (64 - d), r.c >> d | r.d << (64 - d), r.d >> d};
}

// Rows added as numbers; what goes past 255 is lost.
static inline struct row plus(struct row r, struct row s) {
    struct row t;
    uint64_t c = __builtin_add_overflow(r.a, s.a, &t.a), e = __builtin_add_overflow(r.b, s.b, &t.b);
    c = e | __builtin_add_overflow(t.b, c, &t.b);
    e = __builtin_add_overflow(r.c, s.c, &t.c);
    c = e | __builtin_add_overflow(t.c, c, &t.c);
    t.d = r.d + s.d + c;
    return t;
}

static inline struct row differ(struct row r, struct row s) {
    return (struct row){r.a ^ s.a, r.b ^ s.b, r.c ^ s.c, r.d ^ s.d};
}

// A shape laid out by position: of each block its positions, those where its run may end early (its zone), and the
// position past it; all zones in one.
struct laid {
    size_t blocks, total;
    struct row slots[32], zones[32], ends[32], free, stops;
    struct row spans[8]; // from where 1, 2, 4 .. free positions follow each other
    int count;           // of the spans, as many as the longest run of free positions wants
};

static void lay(const uint64_t *s, size_t n, struct laid *to) {
    size_t p = 0;
    size_t run = 0, most = 0, at = 0;
    to->free = to->stops = none;
    for (size_t j = 0; j < n / BLOCK; j++) {
        size_t lower = s[BLOCK * j + LOWER], upper = s[BLOCK * j + UPPER], e = p + upper;
        to->slots[j] = between(p, e);
        to->zones[j] = between(p + lower, e);
        to->free = either(to->free, to->zones[j]);
        to->ends[j] = single(e);
        if (lower < upper) {
            to->stops = either(to->stops, to->ends[j]);
            run = (p + lower == at ? run : 0) + upper - lower;
            at = e;
            if (run > most) most = run;
        }
        p = e;
    }
    to->blocks = n / BLOCK;
    to->total = p;
    to->count = 0;
    struct row span = to->free;
#define SPAN(d) \
    if (most > d) { \
        to->spans[to->count++] = span; \
        span = both(span, lower(span, d)); \
    }
    SPAN(1) SPAN(2) SPAN(4) SPAN(8) SPAN(16) SPAN(32) SPAN(64) SPAN(128)
}

// A row with the ends of the runs that may end in it: the carries of a sum go from a position of the row through free
// ones to where they stop.
static inline struct row forward(const struct laid *y, struct row r) {
    struct row x = both(r, y->free);
    return either(r, both(differ(differ(plus(x, y->free), x), y->free), y->stops));
}

// The same backwards, by twice as many positions each time; `quit` gathers the positions that are let in.
static inline struct row backward(const struct laid *y, struct row r, struct row *quit) {
    struct row g = both(down(both(r, y->stops)), y->free);
#define FALL(d, l) \
    if (y->count > l) g = either(g, both(lower(g, d), y->spans[l])); \
    else goto done;
    FALL(1, 0) FALL(2, 1) FALL(4, 2) FALL(8, 3) FALL(16, 4) FALL(32, 5) FALL(64, 6) FALL(128, 7)
done:
    *quit = either(*quit, g);
    return either(r, g);
}

// The positions of the blocks that share a character with these.
static inline struct row matching(struct row base, const uint64_t *y, const struct laid *laid) {
    struct row r = none;
    for (size_t j = 0; j < laid->blocks; j++) {
        const uint64_t *b = y + BLOCK * j;
        if ((base.a & b[0]) || (base.b & b[1]) || (base.c & b[2]) || (base.d & b[3])) r = either(r, laid->slots[j]);
    }
    return r;
}

// The least and the greatest count of each block: a run ends early at a position of `ended`, and is full if the block's
// last character is in `moved`.
static void lengths(const uint64_t *y, const struct laid *laid, struct row moved, struct row ended, uint64_t *out) {
    size_t p = 0;
    for (size_t j = 0; j < laid->blocks; j++) {
        uint64_t u = y[BLOCK * j + UPPER], least = u ? 251 : 0, most = 0;
        struct row early = both(ended, laid->slots[j]);
        if (any(early)) {
            least = first(early) - p;
            most = last(early) - p;
        }
        p += u;
        if (u && meet(moved, single(p - 1))) {
            if (u < least) least = u;
            most = u;
        }
        out[BLOCK * j + LOWER] = least;
        out[BLOCK * j + UPPER] = most;
    }
}

// The last row, where X has ended and Y alone goes on: by the ends of its runs, and over padding in every block that
// has it.
static struct row trail(uint64_t pad, const uint64_t *y, const struct laid *laid, struct row r) {
    for (size_t j = 0; j < laid->blocks; j++) {
        struct row here = both(r, laid->slots[j]);
        if (!any(here)) continue;
        if (y[BLOCK * j] & pad) r = either(r, without(either(laid->slots[j], laid->ends[j]), between(0, first(here))));
        else if (meet(here, laid->zones[j])) r = either(r, laid->ends[j]);
    }
    return r;
}

// The same backwards from Y's end; `quit` gathers the zones that are let in, `taken` the positions where padding is
// taken.
static struct row trail_back(uint64_t pad, const uint64_t *y, const struct laid *laid, struct row *quit,
                             struct row *taken) {
    struct row r = single(laid->total);
    for (size_t j = laid->blocks; j-- > 0;) {
        if (!meet(r, laid->ends[j])) continue;
        *quit = either(*quit, laid->zones[j]);
        if (y[BLOCK * j] & pad) *taken = either(*taken, laid->slots[j]);
        r = either(r, either(*quit, *taken));
    }
    return r;
}

// Where Y waits while block b of X takes a character: at its end, if that may be padding.
static inline struct row waiting(uint64_t pad, const uint64_t *b, const struct laid *laid) {
    return b[0] & pad ? single(laid->total) : none;
}

// Equality's first pass: for each position of X the row of the positions of Y that one text, but for padding, leads to
// from the starts. Answers whether it leads to both ends.
static int reach(uint64_t pad, const uint64_t *x, size_t nx, const uint64_t *y, const struct laid *laid,
                 struct row *mines, struct row *rows) {
    struct row r = single(0);
    for (size_t i = 0; i < nx / BLOCK; i++) {
        struct row mine = matching(row_of(x + BLOCK * i), y, laid), waits = waiting(pad, x + BLOCK * i, laid);
        struct row stopped = none;
        mines[i] = mine;
        for (uint64_t o = 0; o < x[BLOCK * i + UPPER]; o++) {
            r = forward(laid, r);
            *rows++ = r;
            if (o >= x[BLOCK * i + LOWER]) stopped = either(stopped, r);
            r = either(up(both(r, mine)), both(r, waits));
        }
        r = either(r, stopped);
    }
    *rows = trail(pad, y, laid, r);
    return meet(*rows, single(laid->total));
}

static inline void add(uint64_t *base, struct row more) { put(base, either(row_of(base), more)); }

// The characters that block b takes beside Y at the positions `used`, for it and for the blocks of Y. At Y's end it
// takes padding.
static void give(uint64_t pad, const uint64_t *b, const uint64_t *y, const struct laid *laid, struct row used,
                 uint64_t *own, uint64_t *other) {
    struct row base = row_of(b), taken = none;
    if (meet(used, single(laid->total))) taken.a = base.a & pad;
    for (size_t j = 0; j < laid->blocks; j++) {
        if (!meet(used, laid->slots[j])) continue;
        struct row shared = both(base, row_of(y + BLOCK * j));
        taken = either(taken, shared);
        add(other + BLOCK * j, shared);
    }
    put(own, taken);
}

// Equality's second pass, from the ends: its rows are not kept, since what each tells of the blocks is gathered on the
// way.
static void back(uint64_t pad, const uint64_t *x, size_t nx, const uint64_t *y, const struct laid *laid,
                 const struct row *mines, const struct row *rows, uint64_t *ox, uint64_t *oy) {
    size_t p = 0;
    for (size_t i = 0; i < nx; i += BLOCK) p += x[i + UPPER];
    struct row quit = none, taken = none, r = trail_back(pad, y, laid, &quit, &taken);
    struct row ended = both(rows[p], quit), moved = both(rows[p], taken);
    for (size_t j = 0; j < laid->blocks; j++) {
        struct row padding = none;
        if (meet(moved, laid->slots[j])) padding.a = y[BLOCK * j] & pad;
        put(oy + BLOCK * j, padding);
    }
    for (size_t i = nx / BLOCK; i-- > 0;) {
        uint64_t lower = x[BLOCK * i + LOWER], upper = x[BLOCK * i + UPPER], least = upper ? 251 : 0, most = 0;
        struct row mine = mines[i], waits = waiting(pad, x + BLOCK * i, laid), stop = r, used = none;
        for (uint64_t o = upper; o-- > 0;) {
            struct row f = rows[--p], step = either(both(down(r), mine), both(r, waits)), here = both(f, step);
            used = either(used, here);
            if (o + 1 == upper && any(here)) least = most = upper;
            r = step;
            if (o >= lower) {
                r = either(r, stop);
                if (meet(f, stop)) {
                    least = o;
                    if (most < o) most = o;
                }
            }
            quit = none;
            r = backward(laid, r, &quit);
            ended = either(ended, both(f, quit));
        }
        moved = either(moved, used);
        give(pad, x + BLOCK * i, y, laid, used, ox + BLOCK * i, oy);
        ox[BLOCK * i + LOWER] = least;
        ox[BLOCK * i + UPPER] = most;
    }
    lengths(y, laid, moved, ended, oy);
}

// X may have up to 64 blocks.
static uint64_t narrow_equal(uint64_t pad, const uint64_t *x, size_t nx, const uint64_t *y, size_t ny, uint64_t *ox,
                             uint64_t *oy) {
    struct laid laid;
    struct row mines[64], rows[251];
    lay(y, ny, &laid);
    if (!reach(pad, x, nx, y, &laid, mines, rows)) return 0;
    back(pad, x, nx, y, &laid, mines, rows, ox, oy);
    return 1;
}

// The pass from the ends that keeps its rows: for each position of X the row of the positions of Y from which one text
// leads to both ends. Answers whether one does from the starts.
static int from_ends(const uint64_t *x, size_t nx, const uint64_t *y, const struct laid *laid, struct row *mines,
                     struct row *rows) {
    size_t p = 0;
    for (size_t i = 0; i < nx; i += BLOCK) p += x[i + UPPER];
    struct row quit = none, r = backward(laid, single(laid->total), &quit);
    rows[p] = r;
    for (size_t i = nx / BLOCK; i-- > 0;) {
        struct row mine = matching(row_of(x + BLOCK * i), y, laid), stop = r;
        mines[i] = mine;
        for (uint64_t o = x[BLOCK * i + UPPER]; o-- > 0;) {
            r = both(down(r), mine);
            if (o >= x[BLOCK * i + LOWER]) r = either(r, stop);
            r = backward(laid, r, &quit);
            rows[--p] = r;
        }
    }
    return meet(r, single(0));
}

// One of two shapes while a common text is read: the positions that the text leads to, and those where its last
// character may stand.
struct side {
    const uint64_t *shape;
    struct laid laid;
    struct row row, takes;
};

static void start(struct side *s, const uint64_t *shape, size_t n) {
    s->shape = shape;
    lay(shape, n, &s->laid);
    s->row = forward(&s->laid, single(0));
}

// One character more; where it may stand is known if it is the same again.
static inline void read_on(struct side *s, int again, size_t c) {
    if (!again) s->takes = matching(single(c), s->shape, &s->laid);
    s->row = up(both(s->row, s->takes));
    s->row = forward(&s->laid, s->row);
}

// The least character that two bases share; CODES if there is none.
static inline size_t least_shared(struct row b, struct row s) { return meet(b, s) ? first(both(b, s)) : CODES; }

// The bases of Y at some of its positions, joined.
static inline struct row joined(const struct side *y, struct row here) {
    struct row s = none;
    for (size_t j = 0; j < y->laid.blocks; j++)
        if (meet(here, y->laid.slots[j])) s = either(s, row_of(y->shape + BLOCK * j));
    return s;
}

// What is found of the next character: the least so far, and the positions of X but for those seen to lead nowhere.
struct found {
    size_t code;
    struct row kept;
};

// Block i of X, position by position, until no character that it has and that is near, at a position of Y that the text
// leads to, would come sooner. What stands beside several positions is joined once.
static inline struct found weigh_block(size_t i, const struct side *x, const struct side *y, struct row near,
                                       const struct row *mines, const struct row *rows, struct found f) {
    struct row left = both(x->row, x->laid.slots[i]), open = both(y->row, mines[i]), seen = none;
    if (!any(left)) return f;
    struct row b = row_of(x->shape + BLOCK * i);
    size_t least = least_shared(b, near);
    for (; f.code > least && any(left); left = but_first(left)) {
        size_t p = first(left);
        struct row here = both(down(rows[p + 1]), open), new = without(here, seen);
        if (!any(here)) f.kept = without(f.kept, single(p));
        if (!any(new)) continue;
        size_t c = least_shared(b, joined(y, new));
        if (c < f.code) f.code = c;
        seen = either(seen, new);
    }
    return f;
}

// The earliest common text: from the positions that it leads to so far, the least character from which both ends are
// still reached.
static uint64_t earliest(const uint64_t *x, size_t nx, const uint64_t *y, size_t ny, uint8_t *out) {
    struct side own, other;
    struct row mines[32], rows[251];
    size_t at = 0;
    start(&own, x, nx);
    start(&other, y, ny);
    if (!from_ends(x, nx, y, &other.laid, mines, rows)) return 2000;
    struct row end = single(own.laid.total), other_end = single(other.laid.total);
    while (!meet(own.row, end) || !meet(other.row, other_end)) {
        struct found f = {CODES, own.row};
        struct row near = {~0ull, ~0ull, ~0ull, ~0ull}; // not asked for where there is one position to weigh
        if (any(but_first(own.row))) near = joined(&other, other.row);
        for (size_t i = 0; i < own.laid.blocks; i++) f = weigh_block(i, &own, &other, near, mines, rows, f);
        int again = at > 0 && out[at - 1] == f.code;
        own.row = f.kept;
        read_on(&own, again, f.code);
        read_on(&other, again, f.code);
        out[at++] = f.code;
    }
    return at;
}

// A stretch of one character in a fixed text, up to its place `to`, or the text's end: the character, those that part
// from it to the right side, at which positions of the shape one can stay with it or part from it, and whether a text
// may end here.
struct stretch {
    size_t to;
    struct row one, apart, stays, parts;
    int ends;
};

// The stretch of place q, with the sets of positions that hold all along it.
static struct stretch stretch_at(int upwards, int strict, const uint8_t *text, size_t m, size_t q, const uint64_t *x,
                                 const struct laid *laid) {
    struct stretch s = {m + 1, none, upwards ? between(0, CODES) : none, none, none, !strict};
    if (q < m) {
        size_t c = text[q];
        for (s.to = q + 1; s.to < m && text[s.to] == c;) s.to++;
        s.one = single(c);
        s.apart = upwards ? between(c + 1, CODES) : between(0, c);
        s.ends = !upwards;
    }
    s.stays = matching(s.one, x, laid);
    s.parts = matching(s.apart, x, laid);
    return s;
}

// Narrows one shape by a fixed text. The first pass keeps for each place of the text the row of the positions reached
// with exactly the characters before it matched, as far as any is; the second takes the rows of those from which some
// rest keeps to the right side. Past the least position where a text has parted, everything goes.
static uint64_t one_side(int upwards, int strict, const uint64_t *x, size_t nx, const uint8_t *text, size_t m,
                         uint64_t *out) {
    struct laid laid;
    struct stretch s[33];
    struct row rows[251], parted = none, moved = none, ended = none;
    size_t n = 0, q = 0;
    int some = 0;
    lay(x, nx, &laid);
    struct row end = single(laid.total), r = forward(&laid, single(0));
    while (q <= m && any(r)) {
        s[n] = stretch_at(upwards, strict, text, m, q, x, &laid);
        for (; q < s[n].to && any(r); q++) {
            rows[q] = r;
            parted = either(parted, both(r, s[n].parts));
            some |= s[n].ends && meet(r, end);
            r = forward(&laid, up(both(r, s[n].stays)));
        }
        n++;
    }
    if (!some && !any(parted)) return 0;
    for (size_t j = 0; j < laid.blocks; j++) put(out + BLOCK * j, none);
    r = none;
    while (n-- > 0) {
        struct row goal = s[n].ends ? either(s[n].parts, end) : s[n].parts, used = none, left = none;
        for (size_t from = n ? s[n - 1].to : 0; q > from;) {
            struct row f = rows[--q], step = both(down(r), s[n].stays), quit = none;
            used = either(used, both(f, step));
            left = either(left, both(f, s[n].parts));
            r = backward(&laid, either(step, goal), &quit);
            ended = either(ended, both(f, quit));
        }
        for (size_t j = 0; j < laid.blocks; j++) {
            if (meet(used, laid.slots[j])) add(out + BLOCK * j, s[n].one);
            if (meet(left, laid.slots[j])) add(out + BLOCK * j, s[n].apart);
        }
        moved = either(moved, used);
    }
    struct row open = any(parted) ? between(first(parted), laid.total) : none, past = up(open);
    for (size_t j = 0; j < laid.blocks; j++) {
        struct row base = row_of(x + BLOCK * j);
        put(out + BLOCK * j, meet(past, laid.slots[j]) ? base : both(base, row_of(out + BLOCK * j)));
        ended = either(ended, both(past, laid.zones[j]));
    }
    lengths(x, &laid, either(moved, open), ended, out);
    return 1;
}

// X by the greatest text of Y, Y by the least text of X.
static uint64_t narrow_order(int strict, const uint64_t *x, size_t nx, const uint64_t *y, size_t ny, uint64_t *ox,
                             uint64_t *oy) {
    uint8_t text[250];
    if (!one_side(0, strict, x, nx, text, plain_extreme(1, y, ny, text), ox)) return 0;
    return one_side(1, strict, y, ny, text, plain_extreme(0, x, nx, text), oy);
}

static uint64_t by_kind(uint64_t kind, const uint64_t *x, size_t nx, const uint64_t *y, size_t ny, uint8_t *t,
                        uint64_t *ox, uint64_t *oy) {
    (void)t; // the rows stand on the stack
    if (kind == 5) return run_any_case(by_kind, x, nx, y, ny, t, ox, oy);
    if (kind == 0 || kind == 4) return narrow_equal(kind == 0 ? BLANK : NOTHING, x, nx, y, ny, ox, oy);
    return narrow_order(kind == 2, x, nx, y, ny, ox, oy);
}

// The work buffer is not used, but handed back cleared as from every call.
static uint64_t narrow(uint64_t kind, const uint64_t *x, size_t nx, const uint64_t *y, size_t ny, uint8_t *t, size_t w,
                       uint64_t *ox, size_t a, uint64_t *oy, size_t b) {
    if (!plain_check(x, nx) || !plain_check(y, ny) || w < 63001 || a < nx || b < ny) return 1000;
    memset(t, 0, 63001);
    return by_kind(kind, x, nx, y, ny, t, ox, oy);
}

uint64_t rows_exact(const uint64_t *x, size_t nx, const uint64_t *y, size_t ny, uint8_t *t, size_t w, uint64_t *ox,
                    size_t a, uint64_t *oy, size_t b) {
    return narrow(4, x, nx, y, ny, t, w, ox, a, oy, b);
}

uint64_t rows_padded(const uint64_t *x, size_t nx, const uint64_t *y, size_t ny, uint8_t *t, size_t w, uint64_t *ox,
                     size_t a, uint64_t *oy, size_t b) {
    return narrow(0, x, nx, y, ny, t, w, ox, a, oy, b);
}

uint64_t rows_any_case(const uint64_t *x, size_t nx, const uint64_t *y, size_t ny, uint8_t *t, size_t w, uint64_t *ox,
                       size_t a, uint64_t *oy, size_t b) {
    return narrow(5, x, nx, y, ny, t, w, ox, a, oy, b);
}

uint64_t rows_at_most(const uint64_t *x, size_t nx, const uint64_t *y, size_t ny, uint8_t *t, size_t w, uint64_t *ox,
                      size_t a, uint64_t *oy, size_t b) {
    return narrow(1, x, nx, y, ny, t, w, ox, a, oy, b);
}

uint64_t rows_before(const uint64_t *x, size_t nx, const uint64_t *y, size_t ny, uint8_t *t, size_t w, uint64_t *ox,
                     size_t a, uint64_t *oy, size_t b) {
    return narrow(2, x, nx, y, ny, t, w, ox, a, oy, b);
}

uint64_t rows_join(const uint64_t *x, size_t nx, const uint64_t *y, size_t ny, const uint64_t *z, size_t nz, uint8_t *t,
                   size_t w, uint64_t *ox, size_t a, uint64_t *oy, size_t b, uint64_t *oz, size_t c) {
    if (!plain_check_join(x, nx, y, ny, z, nz, w, a, b, c)) return 1000;
    memset(t, 0, 63001);
    return run_join(by_kind, x, nx, y, ny, z, nz, t, ox, oy, oz);
}

uint64_t rows_common(const uint64_t *x, size_t nx, const uint64_t *y, size_t ny, uint8_t *t, size_t w, uint8_t *out,
                     size_t k) {
    if (!plain_check(x, nx) || !plain_check(y, ny) || w < 63001 || k < 250) return 1000;
    memset(t, 0, 63001);
    return earliest(x, nx, y, ny, out);
}

uint64_t rows_book(const uint64_t *counts, size_t texts, uint64_t *blocks, size_t nb, const uint64_t *rules, size_t nr,
                   uint8_t *t, size_t w, uint64_t *records, size_t nrec) {
    return run_book(by_kind, counts, texts, blocks, nb, rules, nr, t, w, records, nrec);
}

uint64_t rows_file(const uint8_t *file, size_t n, uint8_t *report, size_t k) {
    return run_file(by_kind, file, n, report, k);
}
