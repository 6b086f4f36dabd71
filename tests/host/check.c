// The checking host: calls wedgeotter_run_file on each case of standard input and prints a line for what came of it.
// The head of tests/second/second.py says what the lines hold.
//
// Each case is called four times: with the first byte of its three buffers right behind memory that may not be touched,
// and with their last byte right before such memory; both over two fillings of report and work. The four lines have to
// be the same. Then two threads at once call all cases again, on stacks with no more room than the header asks for, and
// have to come to the same lines.
#include "checking.h"
#include "wedgeotter.h"
#include <pthread.h>
#include <signal.h>
#include <string.h>
#include <sys/mman.h>
#include <sys/wait.h>
#include <unistd.h>

// What there is room for.
#define LONGEST_INPUT 4194304
#define MOST_CASES 8192
#define LONGEST_BOOK 65536
#define LONGEST_REPORT 65536
#define LONGEST_WORK 131072

// Whole pages on every machine, whatever the size of its pages.
#define STEP 65536

// What the C library takes of a thread's stack for itself, and this program for what it does around a call.
#define THREAD 16384

// Memory with memory on both sides that may not be touched.
struct area {
    uint8_t *low;
    size_t size;
};

static struct area guarded(size_t least) {
    size_t size = (least + STEP - 1) / STEP * STEP;
    uint8_t *all = mmap(NULL, size + 3 * STEP, PROT_NONE, MAP_PRIVATE | MAP_ANONYMOUS, -1, 0);
    if (all == MAP_FAILED) FAIL("no memory");
    uint8_t *low = (uint8_t *)(((uintptr_t)all + 2 * STEP - 1) / STEP * STEP);
    if (mprotect(low, size, PROT_READ | PROT_WRITE) != 0) FAIL("no memory");
    return (struct area){low, size};
}

// Whether a child that reads this byte is killed for it.
static int kills(const volatile uint8_t *byte) {
    int status, child = fork();
    if (child == 0) {
        close(2); // an emulator says what kills
        (void)*byte;
        _exit(0);
    }
    if (child < 0 || waitpid(child, &status, 0) != child) FAIL("no child");
    if (WIFSIGNALED(status) && WTERMSIG(status) == SIGSEGV) return 1;
    if (!WIFEXITED(status) || WEXITSTATUS(status) != 0) FAIL("a child ended in another way: %d", status);
    return 0;
}

// Were one of the bytes outside to be had, a call that touches it would not be found out.
static void hold_to_guards(struct area area) {
    if (kills(area.low) || kills(area.low + area.size - 1)) FAIL("memory is kept from being touched that should not be");
    if (!kills(area.low - 1)) FAIL("the byte before a buffer may be touched");
    if (!kills(area.low + area.size)) FAIL("the byte past a buffer may be touched");
}

// The cases.
static struct one {
    size_t report, work, length;
    const uint8_t *book;
    const char *line; // what came of it first
} cases[MOST_CASES];
static size_t count;

// A length in hex and the blank behind it.
static size_t length_read(const char **at, size_t most) {
    size_t value = 0;
    const char *from = *at;
    for (; digit(**at) >= 0 && value <= most; ++*at) value = 16 * value + (size_t)digit(**at);
    if (*at == from || value > most || *(*at)++ != ' ') FAIL("case %zu cannot be read", count + 1);
    return value;
}

static void read_cases(void) {
    static char input[LONGEST_INPUT + 1];
    size_t length = fread(input, 1, sizeof input, stdin);
    if (ferror(stdin) || length == 0 || length == sizeof input) FAIL("no cases, or too many, or they cannot be read");
    struct area books = guarded(length);
    uint8_t *to = books.low;
    for (const char *at = input; at < input + length; at++) {
        if (count == MOST_CASES) FAIL("more than %d cases", MOST_CASES);
        struct one *one = &cases[count];
        one->report = length_read(&at, LONGEST_REPORT);
        one->work = length_read(&at, LONGEST_WORK);
        one->book = to;
        if (*at == '-') at++;
        else
            for (; digit(at[0]) >= 0 && digit(at[1]) >= 0; at += 2) *to++ = (uint8_t)(16 * digit(at[0]) + digit(at[1]));
        one->length = (size_t)(to - one->book);
        if (*at != '\n' || one->length > LONGEST_BOOK) FAIL("case %zu cannot be read", count + 1);
        count++;
    }
    // Two threads share them, and a call that writes to one is killed.
    if (mprotect(books.low, books.size, PROT_READ) != 0) FAIL("no memory");
}

// What report and work hold before a call, two fillings of each: never 0, and at no place the same in two of the four.
static uint8_t report_fills[2][LONGEST_REPORT], work_fills[2][LONGEST_WORK];

static void fill(uint8_t *bytes, size_t length, size_t number) {
    for (size_t i = 0; i < length; i++) bytes[i] = (uint8_t)(1 + (7 * i + 61 * number) % 255);
}

// What calls: its own memory for the buffers, its stack, and the line of its last call.
struct host {
    struct area book, report, work, stack;
    size_t stack_size;
    int measures, backwards;
    size_t stack_used;
    char line[2 * LONGEST_REPORT + 64];
};

static void prepare(struct host *host, size_t stack_size) {
    host->book = guarded(LONGEST_BOOK);
    host->report = guarded(LONGEST_REPORT);
    host->work = guarded(LONGEST_WORK);
    host->stack = guarded(stack_size);
    host->stack_size = stack_size;
    hold_to_guards(host->book), hold_to_guards(host->report), hold_to_guards(host->work), hold_to_guards(host->stack);
}

static void start(pthread_t *thread, void *(*body)(void *), struct host *host) {
    pthread_attr_t attributes;
    if (pthread_attr_init(&attributes) != 0 || pthread_attr_setstack(&attributes, host->stack.low, host->stack_size) != 0 ||
        pthread_create(thread, &attributes, body, host) != 0)
        FAIL("no thread");
}

static void finish(pthread_t thread) {
    if (pthread_join(thread, NULL) != 0) FAIL("no thread");
}

// So many bytes at the start of an area or at its end.
static uint8_t *placed(struct area area, size_t length, int at_end) { return at_end ? area.low + area.size - length : area.low; }

// The call, with the stack below measured.
__attribute__((noinline))
static int64_t measured(struct host *host, const uint8_t *book, const struct one *one, uint8_t *report, uint8_t *work) {
    volatile uint64_t *top;
    int64_t answer;
    size_t used;
    STACK_TOP(top);
    MEASURED((uint64_t *)host->stack.low, top, used, answer = wedgeotter_run_file(book, one->length, report, one->report, work, one->work));
    if (used > host->stack_used) host->stack_used = used;
    return answer;
}

// What became of the work. Document 01: after an accepted call its first 63,001 bytes are 0 and the rest untouched.
static const char *work_shown(const uint8_t *work, const uint8_t *found, size_t length) {
    static const uint8_t zeros[WEDGEOTTER_WORK];
    if (memcmp(work, found, length) == 0) return "kept";
    if (length < sizeof zeros || memcmp(work, zeros, sizeof zeros) != 0) return "changed";
    return memcmp(work + sizeof zeros, found + sizeof zeros, length - sizeof zeros) == 0 ? "zeroed" : "changed";
}

// Calls once and writes the line.
static void call(struct host *host, const struct one *one, const uint8_t *book, int at_end, int filling) {
    uint8_t *report = placed(host->report, one->report, at_end), *work = placed(host->work, one->work, at_end);
    const uint8_t *report_found = report_fills[filling], *work_found = work_fills[filling];
    memcpy(report, report_found, one->report);
    memcpy(work, work_found, one->work);
    int64_t answer = host->measures ? measured(host, book, one, report, work)
                                    : wedgeotter_run_file(book, one->length, report, one->report, work, one->work);
    // Of a number that is past the report's end all of the report is shown.
    size_t written = answer < 0 ? 0 : (uint64_t)answer > one->report ? one->report : (size_t)answer;
    int kept = memcmp(report + written, report_found + written, one->report - written) == 0;
    char *to = host->line + snprintf(host->line, 32, "%ld ", answer);
    for (size_t i = 0; i < written; i++) to = hex_pair(to, report[i]);
    if (written == 0) *to++ = '-';
    snprintf(to, 32, " %s %s", kept ? "kept" : "changed", work_shown(work, work_found, one->work));
}

static const char *line_kept(const char *line) {
    char *copy = malloc(strlen(line) + 1);
    if (copy == NULL) FAIL("no memory");
    return memcpy(copy, line, strlen(line) + 1);
}

// Each case four times, its book in memory of its own; prints the line.
static void *alone(void *lent) {
    struct host *host = lent;
    for (size_t n = 0; n < count; n++) {
        struct one *one = &cases[n];
        for (int turn = 0; turn < 4; turn++) {
            int at_end = turn % 2, filling = turn / 2;
            uint8_t *book = placed(host->book, one->length, at_end);
            if (mprotect(host->book.low, host->book.size, PROT_READ | PROT_WRITE) != 0) FAIL("no memory");
            memcpy(book, one->book, one->length);
            if (mprotect(host->book.low, host->book.size, PROT_READ) != 0) FAIL("no memory");
            call(host, one, book, at_end, filling);
            if (turn == 0) one->line = line_kept(host->line);
            else if (strcmp(host->line, one->line) != 0)
                FAIL("case %zu, buffers at the %s of their memory, filling %d:\n%s\nbut at the start, filling 1:\n%s", n + 1,
                     at_end ? "end" : "start", filling + 1, host->line, one->line);
        }
        // At once, so that it is seen which case kills this program.
        if (fputs(one->line, stdout) < 0 || fputs("\n", stdout) < 0 || fflush(stdout) != 0) FAIL("the lines cannot be written");
    }
    return NULL;
}

// All cases twice beside another thread: first both have one book at a time, then they go through the books from both
// ends.
static pthread_barrier_t abreast;
static void *together(void *lent) {
    struct host *host = lent;
    for (size_t turn = 0; turn < 2 * count; turn++) {
        size_t n = turn % count;
        if (turn < count) pthread_barrier_wait(&abreast);
        else if (host->backwards) n = count - 1 - n;
        call(host, &cases[n], cases[n].book, n % 2, n / 2 % 2);
        if (strcmp(host->line, cases[n].line) != 0)
            FAIL("case %zu, beside another thread:\n%s\nbut alone:\n%s", n + 1, host->line, cases[n].line);
    }
    return NULL;
}

int main(void) {
    static struct host first, both[2];
    pthread_t threads[2];
    read_cases();
    for (size_t k = 0; k < 2; k++) fill(report_fills[k], LONGEST_REPORT, k), fill(work_fills[k], LONGEST_WORK, 2 + k);
    // The measured stack has room for more than the header asks for, so that it can be told how much more a call takes.
    prepare(&first, 4 * WEDGEOTTER_STACK + THREAD);
    for (int k = 0; k < 2; k++) prepare(&both[k], WEDGEOTTER_STACK + THREAD);

    first.measures = 1;
    start(&threads[0], alone, &first);
    finish(threads[0]);
    if (first.stack_used > WEDGEOTTER_STACK)
        FAIL("a call took %zu bytes of stack, and the header says %d", first.stack_used, WEDGEOTTER_STACK);

    both[1].backwards = 1;
    if (pthread_barrier_init(&abreast, NULL, 2) != 0) FAIL("no barrier");
    for (int k = 0; k < 2; k++) start(&threads[k], together, &both[k]);
    for (int k = 0; k < 2; k++) finish(threads[k]);
    fprintf(stderr, "check: %zu cases, each called 4 times alone and twice in each of two threads\n", count);
    fprintf(stderr, "check: a call took at most %zu bytes of stack\n", first.stack_used);
    return 0;
}
