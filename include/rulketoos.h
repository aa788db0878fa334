/*
 * Rulketoos for C and for languages that call C: pyhyeon scripts' trees and
 * modules, checked, lowered, put in order, cut down, read, listed, counted and run
 * by proved code.
 *
 * Link crates/exports/out/libexports.a, which `rt lib` in crates/exports writes.
 * A slice is a pointer and a length; the caller owns all memory, nothing is
 * kept after a call, and no call allocates. A length of 0 may come with any
 * pointer. Slices that a call writes to must not overlap others.
 *
 * A refusal is the number of the first question that is answered no (README.md
 * has the questions in words). Where a call has nothing to count, 0 means that
 * none is.
 * docs/FORMAT.md has both records byte by byte; strings in them are UTF-8, names
 * ASCII.
 */
#ifndef RULKETOOS_H
#define RULKETOOS_H

#include <stddef.h>
#include <stdint.h>

#ifdef __cplusplus
extern "C" {
#endif

/* Questions 2 to 13, 33 and 36 of a tree record: 0, or the refusal. Reads only. */
uint32_t rulketoos_check(const uint8_t *tree, size_t tree_len);

/* The least length of each work area of both lowerings, of rulketoos_order and of rulketoos_cut, in numbers. */
enum { RULKETOOS_AREA = 16384 };

/*
 * The sets of limits that question 15 uses: at most so many functions, symbols,
 * strings, classes and instructions. Every number but 0 is the console.
 */
enum {
    RULKETOOS_OFFICE = 0, /* 256, 1,024, 512, 64, 8,192 */
    RULKETOOS_CONSOLE = 1 /*  64,   256, 512, 64, 2,048 */
};
#define RULKETOOS_OFFICE RULKETOOS_OFFICE
#define RULKETOOS_CONSOLE RULKETOOS_CONSOLE

/* What is added to the count of bytes that a call answers which writes some. */
#define RULKETOOS_WROTE (UINT64_C(1) << 32)

/*
 * Lowers a tree record to a module record, which it writes to out from the
 * first byte on; what is past it is left as it was. Answers RULKETOOS_WROTE plus
 * the count of bytes written; or, below RULKETOOS_WROTE, the refusal, 1 to 16,
 * 33 or 36, with out left as it was. limits says by which set question 15 is asked.
 * With the same lengths of areas and out, what the console takes gives the
 * office the very same bytes, and what the office refuses the console refuses:
 * by the same number, or by 15 where the office's is 16.
 *
 * area1 and area2 are room to work in, whatever is in them before. Both are all
 * zero afterwards, over their whole length and after a refusal too; but refusal
 * 1, which says that one of them is shorter than RULKETOOS_AREA, leaves both as
 * they were. No module is longer than 524,288 bytes.
 */
uint64_t rulketoos_lower(const uint8_t *tree, size_t tree_len, uint32_t limits,
                         uint32_t *area1, size_t area1_len,
                         uint32_t *area2, size_t area2_len,
                         uint8_t *out, size_t out_len);

/*
 * Lowers a tree record as rulketoos_lower does, by measured lengths: it counts how
 * many instructions each part will have before it writes the part, and writes every
 * jump as it stays (docs/LOWERING.md reads it). Parameters, answer, bytes and areas
 * are those of rulketoos_lower, on every input and for both sets of limits.
 */
uint64_t rulketoos_lower_measured(const uint8_t *tree, size_t tree_len, uint32_t limits,
                                  uint32_t *area1, size_t area1_len,
                                  uint32_t *area2, size_t area2_len,
                                  uint8_t *out, size_t out_len);

/*
 * Which of two tree records comes first. Every `pass` statement and every class
 * attribute is taken out of each, counts and header are mended, and the bytes of
 * the rests are compared, unsigned, a proper beginning first: so a shorter rest
 * comes first. Answers RULKETOOS_WROTE where the first tree comes before the
 * second, RULKETOOS_WROTE + 1 where they are equal, RULKETOOS_WROTE + 2 where it
 * comes after; or, below RULKETOOS_WROTE, the refusal, 1 to 15, 33 or 36: the
 * first tree's, or, where that has none, the second's. The trees are only read.
 *
 * limits, area1 and area2 are as in rulketoos_lower. Equal trees have equal
 * modules.
 */
uint64_t rulketoos_order(const uint8_t *first, size_t first_len,
                         const uint8_t *second, size_t second_len, uint32_t limits,
                         uint32_t *area1, size_t area1_len,
                         uint32_t *area2, size_t area2_len);

/* What rulketoos_cut answers where the tree isn't refused. */
#define RULKETOOS_NOT_REFUSED (UINT64_C(1) << 33)

/*
 * Cuts a refused tree record down. Of a tree that is refused by 7 to 15, 33 or 36
 * it writes the fewest consecutive top statements, as a tree record of their own,
 * that are refused by the same question, the earliest of equals: no shorter run
 * of them is so refused. The record goes to out from the first byte on; what is
 * past it is left as it was. Answers
 *   RULKETOOS_WROTE plus the count of bytes written, which is no more than tree_len;
 *   RULKETOOS_NOT_REFUSED, with out left as it was, where the tree is accepted;
 *   or, below RULKETOOS_WROTE, the refusal, with out left as it was: 1, 38 (out is
 *     shorter than the tree), then 2 to 6.
 * The question itself is what rulketoos_lower answers. 16 isn't asked.
 *
 * limits, area1 and area2 are as in rulketoos_lower. A tree of thousands of top
 * statements that is refused by 15 may take seconds.
 */
uint64_t rulketoos_cut(const uint8_t *tree, size_t tree_len, uint32_t limits,
                       uint32_t *area1, size_t area1_len,
                       uint32_t *area2, size_t area2_len,
                       uint8_t *out, size_t out_len);

/* Questions 17 to 21 of a module record: 0, or the refusal. Reads only. */
uint32_t rulketoos_read(const uint8_t *module, size_t module_len);

/* The least length of the work area of rulketoos_heights, in numbers. */
#define RULKETOOS_HEIGHTS_AREA 131072

/*
 * Checks the stack heights of a module record that wasn't lowered here: 0, or the
 * refusal, 1 (area is shorter than RULKETOOS_HEIGHTS_AREA), 17 to 21 or 37. With 0
 * every place of every function that some answers bring a run to is always met at
 * one height, has values enough for what it pops, and leaves no more than the
 * number in the function's record; with 37 some such place has two heights, too few
 * values or leaves more. Every module that is lowered passes.
 *
 * The number stands in the two bytes, the higher first, that begin four bytes before
 * the function's code (rulketoos_code).
 *
 * area is room to work in, whatever is in it before. It is all zero afterwards,
 * over its whole length and after a refusal too; but refusal 1 leaves it.
 */
uint32_t rulketoos_heights(const uint8_t *module, size_t module_len, uint32_t *area, size_t area_len);

/*
 * Where the code of a function is in a module record: its start times 2^32
 * plus its length, both in bytes; or, below 2^32, the refusal, 17 to 22.
 * Reads only.
 */
uint64_t rulketoos_code(const uint8_t *module, size_t module_len, uint64_t function);

/*
 * Writes the code listing of a module record, for printing, to out from the
 * first byte on; what is past it is left as it was. Each line has 52 characters
 * and a line feed: function, place, instruction and operands of an instruction,
 * with a page line before each 50 of them (docs/FORMAT.md). Answers
 * RULKETOOS_WROTE plus the count of bytes written; or, below RULKETOOS_WROTE, the
 * refusal, 17 to 21 or 31 (the listing doesn't fit out), with out left as it was.
 *
 * The listing of n instructions has 53 * (n + (n + 49) / 50) bytes, and n is less
 * than module_len.
 */
uint64_t rulketoos_list(const uint8_t *module, size_t module_len, uint8_t *out, size_t out_len);

/*
 * Writes the count sheet of a module record to out from the first byte on; what
 * is past it is left as it was. Each line has 40 characters and a line feed:
 * number, instructions, conditional jumps and calls of a function, and at last
 * the totals (docs/FORMAT.md). Answers RULKETOOS_WROTE plus the count of bytes
 * written; or, below RULKETOOS_WROTE, the refusal, 17 to 21 or 32 (the sheet
 * doesn't fit out), with out left as it was.
 *
 * The sheet of n functions has 41 * (n + 1) bytes, and 10 * n is less than
 * module_len.
 */
uint64_t rulketoos_count_sheet(const uint8_t *module, size_t module_len, uint8_t *out, size_t out_len);

/* The least length of the work area of rulketoos_reach, in numbers. */
#define RULKETOOS_REACH_AREA 131072

/* What rulketoos_reach answers where no answers bring a run to the place. */
#define RULKETOOS_NONE (UINT64_C(1) << 33)

/*
 * Finds a list of answers, each 0 or 1, with which the run of a function meets a
 * place: it counts the instruction there as a step. The list is written to answers
 * from the first byte on; what is past it is left as it was. Answers
 *   RULKETOOS_WROTE plus the list's length, which is no more than the function's
 *     conditional jumps are many;
 *   RULKETOOS_NONE, with answers left as it was, where no list brings a run to the
 *     place under any budget;
 *   or, below RULKETOOS_WROTE, the refusal, with answers left as it was: 1 (area is
 *     shorter than RULKETOOS_REACH_AREA), 17 to 22, 34 (the place isn't in the
 *     function), 35 (answers is shorter than the function's conditional jumps are
 *     many).
 *
 * With the list a budget of as many steps as the function has instructions is
 * enough. Which list it is, where several bring a run there, is left open. A
 * conditional jump is met only with an answer of its own.
 *
 * area is room to work in, whatever is in it before. It is all zero afterwards,
 * over its whole length and after a refusal too; but refusal 1 leaves it.
 */
uint64_t rulketoos_reach(const uint8_t *module, size_t module_len, uint64_t function, uint64_t place,
                         uint32_t *area, size_t area_len, uint8_t *answers, size_t answers_len);

/* What rulketoos_run leaves in numbers. */
enum {
    RULKETOOS_ENDING = 0, /* 1 returned, 2 no answer left, 3 budget spent */
    RULKETOOS_STEPS = 1,
    RULKETOOS_USED = 2,   /* answers used */
    RULKETOOS_BYTES = 3,  /* bytes of events */
    RULKETOOS_NUMBERS = 4
};

/*
 * Runs a function of a module record on answers, each 0 or 1, with at most
 * budget steps. Answers 0 with the events from the start of events (what is past
 * them is left as it was) and four numbers; or the refusal, 17 to 24, with events
 * left as it was and four zeros. Where numbers is shorter than four it is left
 * as it was.
 */
uint32_t rulketoos_run(const uint8_t *module, size_t module_len, uint64_t function,
                       const uint8_t *answers, size_t answers_len, uint64_t budget,
                       uint8_t *events, size_t events_len,
                       uint64_t *numbers, size_t numbers_len);

#ifdef __cplusplus
}
#endif

#endif
