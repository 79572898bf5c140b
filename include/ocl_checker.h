/*
 * The rule checker's calls, for C and C++. Link with libchecker.a; docs/USING.md says how, and what a call needs.
 *
 * What a call does depends on the text, the numbers and the lengths that it is given, and on nothing else; an edit also on its own
 * bytes and on the board and verdicts that it is lent. A call keeps nothing of its own between calls, calls nothing but the C
 * library's memset, memcpy and memmove, and can fail only by the number that it returns. So calls may run in several threads at a
 * time, each with memory of its own; several may share a text. A call takes up to 192 KiB of stack (docs/USING.md, section 5).
 *
 * What is lent to each call:
 *
 *   text            a sheet (docs/SHEETS.md). It is only read.
 *   words0 .. 2     working memory: three slices of 64-bit words, OCL_LEAST_WORDS or more each. What they hold before
 *                   does not matter.
 *   output          where the answer is written, OCL_LEAST_OUTPUT bytes or more.
 *
 * Each is a pointer and a length, counted in elements: bytes of the text and the output, words of the rest. A pointer leads
 * to that many elements and is aligned for them. It may be null only where its length is 0. No slice overlaps another one.
 * While the call runs nothing else writes to any of them, or reads the words and the output. Floating point is in the state in
 * which a program starts: it rounds to nearest and keeps subnormal numbers.
 *
 * What the memory holds afterwards:
 *
 *   number          words                                           output
 *   0               the first OCL_LEAST_WORDS of each slice are 0,  the answer in front, `length` bytes; the rest
 *                   the others as they were                         as it was
 *   1               as they were                                    as it was
 *   any other       as after 0                                      as it was
 *
 * What is written is ASCII and not NUL-terminated.
 *
 * A board (ocl_make_board, ocl_edit_board) is two more slices, in place of the output, that keep what they hold between calls:
 *
 *   board           OCL_LEAST_BOARD words or more: the values of the sheet with the edits so far made. Only the library knows how
 *                   they lie there; words beyond the first OCL_LEAST_BOARD are never touched.
 *   verdicts        OCL_LEAST_VERDICTS bytes or more: in front the report on these values, `length` bytes of the last answer.
 *
 *   number          board and verdicts
 *   0               the board as it is now; the verdicts in front, `length` bytes, the rest as it was
 *   any other       both as they were
 */
#ifndef OCL_CHECKER_H
#define OCL_CHECKER_H

#include <stddef.h>
#include <stdint.h>

#ifdef __cplusplus
extern "C" {
#endif

/* This header's version, as the file VERSION has it; docs/RELEASE.md says what each part means. */
#define OCL_CHECKER_VERSION_MAJOR 1
#define OCL_CHECKER_VERSION_MINOR 0
#define OCL_CHECKER_VERSION_PATCH 0
#define OCL_CHECKER_VERSION "1.0.0"

#define OCL_LEAST_WORDS 8192    /* the fewest words of each word slice */
#define OCL_LEAST_OUTPUT 2560   /* the fewest bytes of an output: every value, and the types of all rules, fit */
#define OCL_LEAST_BOARD 8192    /* the fewest words of a board */
#define OCL_LEAST_VERDICTS 2560 /* the fewest bytes for a board's verdicts */
#define OCL_LONGEST_TEXT 49152  /* the most bytes of a sheet */
#define OCL_REPORT_OUTPUT 65536 /* the bytes that the program ocl_report lends for a report */
#define OCL_MOST_STEPS 1000000  /* the most steps of an evaluation */

/* What a call returns. */
typedef struct ocl_answer {
    uint64_t number; /* OCL_ANSWERED, or why there is no answer: one of enum ocl_number */
    uint64_t steps;  /* of ocl_evaluate_rule, after a stop too; of ocl_edit_board, all that it took; of the other calls 0 */
    uint64_t place;  /* the line that is to blame, counted from 1; 0 where there is none */
    uint64_t length; /* bytes written to the output, or all verdicts' on a board; 0 unless the number is 0 */
} ocl_answer;

/*
 * The numbers. In brackets: which calls give it (R read, F read held to the profile, E evaluate, P report, W rows, U undefined,
 * M make, C edit, a correction), and whether it comes with a place.
 */
enum ocl_number {
    OCL_ANSWERED = 0,            /* an answer (RFEPWUMC) */
    OCL_SHORT_SLICE = 1,         /* a lent slice, other than the text, is too short; nothing was touched (RFEPWUMC) */
    OCL_SHEET_TOO_LONG = 2,      /* the text is longer than a sheet may be (RFEPWUMC) */
    OCL_BAD_LINE = 3,            /* a line is misspelled: fields, letter, form, number, line feed (RFEPWUMC, place) */
    OCL_OUT_OF_LIMITS = 4,       /* a number, count, size or nesting is outside its limits (RFEPWUMC, place) */
    OCL_OUT_OF_ORDER = 5,        /* lines, numbers or members out of order; a name or variable twice (RFEPWUMC, place) */
    OCL_UNKNOWN_REFERENCE = 6,   /* a class, row or object that the sheet does not have by then (RFEPWUMC, place) */
    OCL_VALUE_MISMATCH = 7,      /* a value that its row, or a row that its object, does not take (RFEPWUMC, place) */
    OCL_MALFORMED_TREE = 8,      /* the nodes of a rule or a definition make no tree, or one too deep (RFEPWUMC, place) */
    OCL_UNBOUND_VARIABLE = 9,    /* a variable that nothing binds (RFEPWUMC, place) */
    OCL_NO_COMMON_TYPE = 10,     /* two types without a common one; a cast between unrelated classes (RFEPWUMC, place) */
    OCL_WRONG_OPERAND_TYPE = 11, /* a form does not take an operand of this type (RFEPWUMC, place) */
    OCL_NO_ATTRIBUTE = 12,       /* the class has no attribute of this name (RFEPWUMC, place) */
    OCL_TYPE_TOO_DEEP = 13,      /* a type would be over three deep (RFEPWUMC, place) */
    OCL_NOT_FOUND = 14,          /* the sheet has no such rule, or no such object (E) */
    OCL_OTHER_CLASS = 15,        /* the rule does not apply to objects of this class (E) */
    OCL_STEP_STOP = 16,          /* stopped: over OCL_MOST_STEPS steps are due (E, with the steps) */
    OCL_SIZE_STOP = 17,          /* stopped: a value of a size over 128 would be formed (E, with the steps) */
    OCL_REPORT_TOO_LONG = 18,    /* the output is too short for the report, the rows or the lines, or the verdict bytes are (PWUMC) */
    OCL_OVER_RANGE = 19,         /* stopped: a result of Integers leaves their range, or one of Reals is infinite (E, with the steps) */
    OCL_NOT_A_SENTENCE = 20,     /* the text of a rule is no sentence (RFEPWUMC, place) */
    OCL_BOARD_FULL = 21,         /* over 1,024 values after the edit, or over size 2,048 of all together (C, place) */
    OCL_OUTSIDE_PROFILE = 22,    /* a rule is outside the free-numbering profile (F, place) */
    OCL_CALL_UPWARD = 23,        /* a definition calls itself or a larger one (RFEPWUMC, place) */
    OCL_UNKNOWN_DEFINITION = 24  /* a rule calls a definition that the sheet does not have (RFEPWUMC, place) */
};

/*
 * Reads a sheet, types its definitions and then all its rules, in order, and writes the rules' types, one a line, as `Bool` or
 * `S(#2)`, with a line feed at the end of each. A sheet is accepted only if all its definitions and rules have a type. The other
 * calls read and type it too, and refuse it with the same number and place.
 */
ocl_answer ocl_read_sheet(
    const uint8_t *text, size_t text_length,
    uint64_t *words0, size_t words0_length,
    uint64_t *words1, size_t words1_length,
    uint64_t *words2, size_t words2_length,
    uint8_t *output, size_t output_length);

/*
 * Does what ocl_read_sheet does, and holds the sheet to the free-numbering profile: one that is accepted is refused with
 * OCL_OUTSIDE_PROFILE where a rule, or a definition that a rule reaches, has an `iter`, an `asSequence`, or a `union`, `including`
 * or `collect` on a type `Q(..)`, run or not. The place is the lowest line of such a node. What rules in the profile answer does
 * not depend on how the objects are numbered (docs/SHEETS.md, section 8).
 */
ocl_answer ocl_read_free_numbering(
    const uint8_t *text, size_t text_length,
    uint64_t *words0, size_t words0_length,
    uint64_t *words1, size_t words1_length,
    uint64_t *words2, size_t words2_length,
    uint8_t *output, size_t output_length);

/*
 * Evaluates a rule for an object, both counted from 0 as on the sheet, and writes the value, as `t` or `S(@1,@4)`; `u` is
 * undefined. A number that is no Integer is written as `r` and the 16 hexadecimal digits of its binary64 bits. The sheet is
 * read and typed first: one with a rule or a definition that has no type is refused, whichever rule is asked for.
 */
ocl_answer ocl_evaluate_rule(
    const uint8_t *text, size_t text_length,
    uint64_t rule, uint64_t object,
    uint64_t *words0, size_t words0_length,
    uint64_t *words1, size_t words1_length,
    uint64_t *words2, size_t words2_length,
    uint8_t *output, size_t output_length);

/*
 * Evaluates each rule for every object of its class or below, and writes a line for each: rule, object, value and steps, with
 * single spaces between them and a line feed at the end. A stop is written in its line as `!16`, `!17` or `!19`.
 */
ocl_answer ocl_report(
    const uint8_t *text, size_t text_length,
    uint64_t *words0, size_t words0_length,
    uint64_t *words1, size_t words1_length,
    uint64_t *words2, size_t words2_length,
    uint8_t *output, size_t output_length);

/*
 * Writes for each rule a line with the rows that it sees: the rule, then the rows, ascending, with single spaces between them and
 * a line feed at the end. A rule sees a row if one of its nodes, or of a definition that it reaches, reads the row, whether that
 * node is ever run or not. The values of all other rows can change nothing in what the rule answers (docs/ROWS.md).
 */
ocl_answer ocl_rows(
    const uint8_t *text, size_t text_length,
    uint64_t *words0, size_t words0_length,
    uint64_t *words1, size_t words1_length,
    uint64_t *words2, size_t words2_length,
    uint8_t *output, size_t output_length);

/*
 * Writes where undefined came from: for each undefined verdict of the report, in the report's order, a line with the rule, the object,
 * the line of the sheet and the step at which undefined arose, with single spaces between them and a line feed at the end. Other
 * verdicts have no line. The step is counted as ocl_evaluate_rule counts: the rule's root begins at step 1 (docs/UNDEFINED.md).
 */
ocl_answer ocl_undefined(
    const uint8_t *text, size_t text_length,
    uint64_t *words0, size_t words0_length,
    uint64_t *words1, size_t words1_length,
    uint64_t *words2, size_t words2_length,
    uint8_t *output, size_t output_length);

/*
 * Makes a board of a sheet: the board holds its values, and the verdicts are its report, as ocl_report writes it. What both slices
 * hold before does not matter. Steps are 0.
 */
ocl_answer ocl_make_board(
    const uint8_t *text, size_t text_length,
    uint64_t *words0, size_t words0_length,
    uint64_t *words1, size_t words1_length,
    uint64_t *words2, size_t words2_length,
    uint64_t *board, size_t board_length,
    uint8_t *verdicts, size_t verdicts_length);

/*
 * Edits a board of the sheet. The edit is one V line with its line feed, which sets a value, or one with `-` for the value, which
 * clears it and changes nothing where there is none. The verdicts are then the report on the sheet with all edits made. Only rules
 * that see the row (ocl_rows) are evaluated again, for all their objects, and the steps are theirs together.
 *
 * Text, board and verdicts are those of the last call on this board that answered, and nothing was written to the board, nor to the
 * bytes of the verdicts, in between. Where that is not so, the call still ends and touches nothing that it is not lent, and what it
 * answers means nothing.
 *
 * The sheet's own refusals come first, with places in the sheet; then those of the edit, BAD_LINE to VALUE_MISMATCH and BOARD_FULL,
 * each with the place 1; then REPORT_TOO_LONG, where the verdicts would be longer than their bytes.
 */
ocl_answer ocl_edit_board(
    const uint8_t *text, size_t text_length,
    const uint8_t *edit, size_t edit_length,
    uint64_t *words0, size_t words0_length,
    uint64_t *words1, size_t words1_length,
    uint64_t *words2, size_t words2_length,
    uint64_t *board, size_t board_length,
    uint8_t *verdicts, size_t verdicts_length);

#ifdef __cplusplus
}
#endif

/* The library is compiled for 64-bit lengths and for an answer of four words. */
#if defined(__cplusplus) && __cplusplus >= 201103L
static_assert(sizeof(size_t) == 8 && sizeof(ocl_answer) == 32, "libchecker.a is for x86-64");
#elif defined(__STDC_VERSION__) && __STDC_VERSION__ >= 201112L
_Static_assert(sizeof(size_t) == 8 && sizeof(ocl_answer) == 32, "libchecker.a is for x86-64");
#endif

#endif
