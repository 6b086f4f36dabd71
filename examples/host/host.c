// A host: reads a book from standard input, calls Wedgeotter and prints the report on standard output. A refused book
// is told on standard error, and the program ends with 1; with 2 where reading or writing fails.
#include "wedgeotter.h"
#include <stdio.h>

// One byte more than the largest book, so that a larger one is seen to be larger. The call wants some stack; these are
// not on it.
static uint8_t book[WEDGEOTTER_BOOK + 1];
static uint8_t report[WEDGEOTTER_REPORT];
static uint8_t work[WEDGEOTTER_WORK];

static const char *meaning(int64_t number) {
    switch (number) {
    case 2: return "a block's least count is above its greatest";
    case 3: return "the greatest counts of a text add to more than 250";
    case 4: return "the work buffer is too short";
    case 5: return "the report buffer is too short";
    case 6: return "no texts, a text of no blocks or of more than 32, or more or fewer blocks than the texts have together";
    case 7: return "a rule's kind, or a text that it names, is wrong";
    case 8: return "a line is not as it has to be, is missing, or is one too many";
    case 9: return "the book has more than 32,768 bytes";
    case 10: return "a block's greatest count is above 250";
    case 11: return "a block's characters and its greatest count disagree";
    case 12: return "a rule joins two texts whose greatest counts add to more than 250";
    default: return "a number that this host does not know";
    }
}

int main(void) {
    size_t length = fread(book, 1, sizeof book, stdin);
    if (ferror(stdin)) {
        perror("host: the book cannot be read");
        return 2;
    }
    int64_t answer = wedgeotter_run_file(book, length, report, sizeof report, work, sizeof work);
    if (answer < 0) {
        fprintf(stderr, "refused: %d, %s\n", (int)-answer, meaning(-answer));
        return 1;
    }
    if (fwrite(report, 1, (size_t)answer, stdout) != (size_t)answer || fflush(stdout) != 0) {
        perror("host: the report cannot be written");
        return 2;
    }
    return 0;
}
