// The hand reader: calls least or greatest text on each case of standard input and prints a line for what came of it.
// The head of tests/second/second.py says what the lines hold. It tells how much stack the calls took, and fails where
// one took more than the reader has for it, or those on some number of blocks more than those on another.
#include "checking.h"

// What the reader has, and what is painted.
#define STACK 192
#define PAINTED 4096

#define LONGEST_INPUT 4194304
#define MOST_NUMBERS 320
#define BLOCK 6
#define MOST_BLOCKS 32
#define LONGEST_OUTPUT 512
#define REFUSED 1000

// A slice is a pointer and a length.
typedef uint64_t extreme(const uint64_t *shape, size_t n, uint8_t *out, size_t k);
extreme wedgeotter_least, wedgeotter_greatest;

__attribute__((noinline))
static uint64_t measured(extreme *call, const uint64_t *shape, size_t n, uint8_t *out, size_t k, size_t *used) {
    volatile uint64_t *top;
    uint64_t answer;
    STACK_TOP(top);
    MEASURED(top - PAINTED / 8, top, *used, answer = call(shape, n, out, k));
    return answer;
}

// The most that a call took: refused, and accepted with so many blocks, least and greatest text.
static size_t refused, taken[2][MOST_BLOCKS + 1];

static void note(size_t *most, size_t used) {
    if (used > *most) *most = used;
}

// Calls and prints the line.
static void run(int greatest, const uint64_t *shape, size_t n, size_t k) {
    static char line[2 * LONGEST_OUTPUT + 64];
    uint8_t out[LONGEST_OUTPUT];
    for (size_t i = 0; i < k; i++) out[i] = 0xa5;
    size_t used;
    uint64_t answer = measured(greatest ? wedgeotter_greatest : wedgeotter_least, shape, n, out, k, &used);
    char *to = line;
    if (answer == REFUSED) {
        note(&refused, used);
        to += snprintf(to, 32, "refused ");
    } else {
        if (n % BLOCK != 0 || n / BLOCK > MOST_BLOCKS) FAIL("a text of %zu numbers", n);
        note(&taken[greatest][n / BLOCK], used);
        to += snprintf(to, 32, "text %lu ", answer);
    }
    for (size_t i = 0; i < k; i++) to = hex_pair(to, out[i]);
    if (k == 0) *to++ = '-';
    *to++ = '\n', *to = 0;
    if (fputs(line, stdout) < 0 || fflush(stdout) != 0) FAIL("the lines cannot be written");
}

// Reads and runs the cases; answers how many.
static size_t cases(void) {
    static char input[LONGEST_INPUT + 1];
    size_t length = fread(input, 1, sizeof input, stdin), count = 0;
    if (ferror(stdin) || length == sizeof input) FAIL("too many cases, or they cannot be read");
    for (const char *at = input; at < input + length; at++) {
        uint64_t numbers[MOST_NUMBERS];
        size_t n = 0;
        char letter = *at++;
        while (*at == ' ' && n < MOST_NUMBERS)
            for (numbers[n++] = 0, at++; digit(*at) >= 0; at++) numbers[n - 1] = 16 * numbers[n - 1] + (uint64_t)digit(*at);
        count++;
        if ((letter != 'L' && letter != 'G') || n == 0 || numbers[0] > LONGEST_OUTPUT || *at != '\n')
            FAIL("case %zu cannot be read", count);
        run(letter == 'G', numbers + 1, n - 1, numbers[0]);
    }
    return count;
}

int main(void) {
    // Once before, since a first call may have to find what the C library has for it.
    uint64_t shape[BLOCK] = {0, 1, 0, 0, 1, 1};
    uint8_t out[250];
    if (wedgeotter_least(shape, BLOCK, out, 250) != 1 || wedgeotter_greatest(shape, BLOCK, out, 250) != 1)
        FAIL("the reader cannot call");

    size_t count = cases(), most = refused;
    for (int greatest = 0; greatest < 2; greatest++)
        for (size_t blocks = 1; blocks <= MOST_BLOCKS; blocks++) {
            size_t now = taken[greatest][blocks], one = taken[greatest][1];
            const char *which = greatest ? "greatest" : "least";
            if (now == 0) FAIL("no %s text of %zu blocks", which, blocks);
            if (now != one) FAIL("the %s text of %zu blocks took %zu bytes of stack, of 1 block %zu", which, blocks, now, one);
            note(&most, now);
        }
    if (refused == 0) FAIL("nothing was refused");
    if (most > STACK) FAIL("a call took %zu bytes of stack, and the reader has %d", most, STACK);
    fprintf(stderr, "check: %zu least and greatest texts, %zu and %zu bytes of stack on 1 block as on 32, %zu where refused\n", count,
            taken[0][1], taken[1][1], refused);
    return 0;
}
