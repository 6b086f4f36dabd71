// What the checking hosts share.
#include <stdint.h>
#include <stdio.h>
#include <stdlib.h>

#define FAIL(...) (fputs("check: ", stderr), fprintf(stderr, __VA_ARGS__), fputs("\n", stderr), exit(1))

static int digit(char c) { return c >= '0' && c <= '9' ? c - '0' : c >= 'a' && c <= 'f' ? c - 'a' + 10 : -1; }

static char *hex_pair(char *to, uint8_t byte) {
    *to++ = "0123456789abcdef"[byte >> 4];
    *to++ = "0123456789abcdef"[byte & 15];
    return to;
}

// Where the stack ends, in the function that asks.
#define STACK_TOP(top) __asm__ volatile("movq %%rsp, %0" : "=r"(top))

// Makes a call, with the stack from `low` to `top` painted before and looked at after: `used` becomes the bytes of it
// that the call took. The function that asks calls nothing else, so that nothing else is counted.
#define PAINT 0xa5c3e1870f2d4b69
#define MEASURED(low, top, used, call) \
    do { \
        volatile uint64_t *at; \
        for (at = (low); at < (top); at++) *at = PAINT; \
        call; \
        for (at = (low); at < (top) && *at == PAINT; at++) { \
        } \
        (used) = (size_t)((uintptr_t)(top) - (uintptr_t)at); \
    } while (0)
