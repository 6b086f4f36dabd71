/* Wedgeotter for a host in C: the bytes of a book in, the bytes of its report back. Link with
   target/staticlib/libdashed.a, which `tests/host/archives` writes, for x86-64 Linux. examples/README.md explains books
   and reports; examples/host/host.c is a small host. */
#ifndef WEDGEOTTER_H
#define WEDGEOTTER_H

#include <stddef.h>
#include <stdint.h>

#ifdef __cplusplus
extern "C" {
#endif

/* In bytes: the largest book, the least report buffer, the least work buffer, and the stack that a call wants. Books
   and reports were half as large before there were sections headed WIDE: a host that still lends a report buffer of
   16,384 bytes gets -5 for every book that it got a report for. */
#define WEDGEOTTER_BOOK 32768
#define WEDGEOTTER_REPORT 32768
#define WEDGEOTTER_WORK 63001
#define WEDGEOTTER_STACK 65536

/* Runs a book. Lent are the book's bytes, a report buffer and a work buffer, each as a pointer and its length in bytes.

   An accepted book gives the number of bytes written to the start of the report, which is above 0. They are those that
   the program `narrow` prints for the book. For each group of texts that rules link, named by its least text g, comes
   a line GROUP g STABLE count or GROUP g NONE count, the count of applications. Then come all texts, those of a group
   that is NONE as entered, their blocks under the heading that the book has, BLOCKS or WIDE. The rest of the report is
   as found. The first 63,001 bytes of work are 0 then, whatever they were, and any behind them as found.

   A refused book gives the refusal's number made negative; report and work are then as found. These are tried, in this
   order:

      -9   the book has more than 32,768 bytes
      -8   a line is not as it has to be, is missing, or is one too many; more than 8 texts, 256 blocks or 16 rules
      -6   no texts; a text of no blocks or of more than 32; more or fewer blocks than the texts have together
           then text by text, and in a text block by block:
      -2   a block's least count is above its greatest
     -10   a block's greatest count is above 250
     -11   a block has no characters and a greatest count above 0, or characters and the greatest count 0
      -3   the greatest counts of a text add to more than 250; tried once all its blocks are right
           then rule by rule:
      -7   a rule's kind is not 0, 1, 2, 3, 4 or 5, it names a text that is not there, or one text twice, or its kind is
           not 3 and its fourth number not 0
     -12   a rule of kind 3 joins two texts whose greatest counts add to more than 250
           and at last:
      -4   work is shorter than WEDGEOTTER_WORK
      -5   report is shorter than WEDGEOTTER_REPORT

   The number 1 is of other calls of the library; a file has whole blocks. This call tells no text and no place:
   `narrow` prints them for the same book, as `REFUSED number text place`.

   Every pointer has to be good for its length, which may be 0, and must not be null even then. The three must not
   overlap. The book is only read, and nothing is touched outside the three but the stack, of which WEDGEOTTER_STACK
   bytes have to be free. The call keeps nothing from one time to the next, allocates nothing and asks nothing of the
   system. Several threads may call at once, each with a report and a work of its own; they may share the book. */
int64_t wedgeotter_run_file(const uint8_t *book, size_t book_length, uint8_t *report, size_t report_length,
                            uint8_t *work, size_t work_length);

#ifdef __cplusplus
}
#endif

#endif
