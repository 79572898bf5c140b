/*
 * Lends the calls too little, nothing at all, or just enough, and looks at all that they leave behind: 1 leaves everything as
 * it was; else the first OCL_LEAST_WORDS words of each slice are 0, and nothing but an answer's own bytes is written.
 */
#include <inttypes.h>
#include <stdio.h>
#include <string.h>

#include "ocl_checker.h"

/* Words and bytes behind what is lent, which no call may touch. */
#define MARGIN 16
#define WORD UINT64_C(0x7e7e7e7e7e7e7e7e)
#define BYTE 0x7e

enum call { READ, PROFILE, EVALUATE, REPORT, ROWS, UNDEFINED };
static const char *const names[] = {"read", "profile", "evaluate", "report", "rows", "undefined"};

static uint64_t words[3][OCL_LEAST_WORDS + MARGIN];
static uint8_t output[OCL_LEAST_OUTPUT + MARGIN];
static size_t lengths[3];
static size_t room;
static int cases, failures;

/* Lends slices of these lengths, by a null pointer where one is 0. */
static ocl_answer call(enum call which, const void *text, size_t text_length)
{
    uint64_t *w[3];
    uint8_t *out = room == 0 ? NULL : output;
    memset(words, BYTE, sizeof words);
    memset(output, BYTE, sizeof output);
    for (int i = 0; i < 3; i++) {
        w[i] = lengths[i] == 0 ? NULL : words[i];
    }
    switch (which) {
    case READ:
        return ocl_read_sheet(text, text_length, w[0], lengths[0], w[1], lengths[1], w[2], lengths[2], out, room);
    case PROFILE:
        return ocl_read_free_numbering(
            text, text_length, w[0], lengths[0], w[1], lengths[1], w[2], lengths[2], out, room);
    case EVALUATE:
        return ocl_evaluate_rule(
            text, text_length, 0, 0, w[0], lengths[0], w[1], lengths[1], w[2], lengths[2], out, room);
    case REPORT:
        return ocl_report(text, text_length, w[0], lengths[0], w[1], lengths[1], w[2], lengths[2], out, room);
    case ROWS:
        return ocl_rows(text, text_length, w[0], lengths[0], w[1], lengths[1], w[2], lengths[2], out, room);
    default:
        return ocl_undefined(text, text_length, w[0], lengths[0], w[1], lengths[1], w[2], lengths[2], out, room);
    }
}

/* The first so many words of each slice are 0 and the others untouched; the output is untouched from so many bytes on. */
static int left(size_t zeros, size_t written)
{
    for (int i = 0; i < 3; i++) {
        for (size_t j = 0; j < OCL_LEAST_WORDS + MARGIN; j++) {
            if (words[i][j] != (j < zeros ? 0 : WORD)) {
                return 0;
            }
        }
    }
    for (size_t j = written; j < sizeof output; j++) {
        if (output[j] != BYTE) {
            return 0;
        }
    }
    return 1;
}

static void expect(enum call which, const void *text, size_t text_length, uint64_t number, const char *written)
{
    ocl_answer answer = call(which, text, text_length);
    size_t length = strlen(written);
    int good = answer.number == number && answer.length == length && memcmp(output, written, length) == 0 &&
               left(number == OCL_SHORT_SLICE ? 0 : OCL_LEAST_WORDS, length);
    cases++;
    if (!good) {
        failures++;
        printf("%s with %zu, %zu, %zu words and %zu bytes: %" PRIu64 " and not %" PRIu64 ", or the memory is wrong\n",
            names[which], lengths[0], lengths[1], lengths[2], room, answer.number, number);
    }
}

static void lend(size_t length0, size_t length1, size_t length2, size_t bytes)
{
    lengths[0] = length0;
    lengths[1] = length1;
    lengths[2] = length2;
    room = bytes;
}

/* A board and its verdicts, which outlast a call, and what they held before it. */
static uint64_t board[OCL_LEAST_BOARD + MARGIN], board_before[OCL_LEAST_BOARD + MARGIN];
static uint8_t verdicts[OCL_LEAST_VERDICTS + MARGIN], verdicts_before[OCL_LEAST_VERDICTS + MARGIN];
static size_t board_length = OCL_LEAST_BOARD, verdicts_length = OCL_LEAST_VERDICTS;

/* Makes the board, or edits it; a refusal leaves it, and an answer writes its verdicts and no word behind the board's. */
static void expect_board(const char *text, const char *edit, uint64_t number, uint64_t steps, uint64_t place, const char *written)
{
    uint64_t *b = board_length == 0 ? NULL : board;
    uint8_t *v = verdicts_length == 0 ? NULL : verdicts;
    size_t length = strlen(written);
    memset(words, BYTE, sizeof words);
    memset(output, BYTE, sizeof output);
    memcpy(board_before, board, sizeof board);
    memcpy(verdicts_before, verdicts, sizeof verdicts);
    ocl_answer answer =
        edit == NULL
            ? ocl_make_board((const uint8_t *)text, strlen(text), words[0], lengths[0], words[1], lengths[1], words[2], lengths[2], b,
                  board_length, v, verdicts_length)
            : ocl_edit_board((const uint8_t *)text, strlen(text), (const uint8_t *)edit, strlen(edit), words[0], lengths[0], words[1],
                  lengths[1], words[2], lengths[2], b, board_length, v, verdicts_length);
    size_t changed = number == OCL_ANSWERED ? OCL_LEAST_BOARD : 0;
    int good = answer.number == number && answer.steps == steps && answer.place == place && answer.length == length &&
               memcmp(verdicts, written, length) == 0 &&
               memcmp(verdicts + length, verdicts_before + length, sizeof verdicts - length) == 0 &&
               memcmp(board + changed, board_before + changed, sizeof board - changed * sizeof *board) == 0 &&
               left(number == OCL_SHORT_SLICE ? 0 : OCL_LEAST_WORDS, 0);
    cases++;
    if (!good) {
        failures++;
        printf("a board, edit %s: %" PRIu64 " and not %" PRIu64 ", or the memory is wrong\n", edit == NULL ? "none" : edit,
            answer.number, number);
    }
}

/* Boards of the least lengths, too short, edited and refused. */
static void boards(void)
{
    static const char sheet[] = "C\t0\t-\nA\t0\t0\t5\tInt\nA\t1\t0\t6\tInt\nO\t0\t0\nV\t0\t0\t9\n"
                                "R\t0\t0\nX\tself.a5 < 12\nR\t1\t0\nX\tself.a6\n";
    static const char set[] = "V\t0\t0\t12\n";
    static const size_t little[] = {0, 1, OCL_LEAST_BOARD - 1};
    memset(board, BYTE, sizeof board);
    memset(verdicts, BYTE, sizeof verdicts);
    lend(OCL_LEAST_WORDS, OCL_LEAST_WORDS, OCL_LEAST_WORDS, 0);
    for (size_t i = 0; i < 3; i++) {
        board_length = little[i];
        expect_board(sheet, NULL, OCL_SHORT_SLICE, 0, 0, "");
        expect_board(sheet, set, OCL_SHORT_SLICE, 0, 0, "");
    }
    board_length = OCL_LEAST_BOARD;
    for (verdicts_length = 0; verdicts_length < OCL_LEAST_VERDICTS; verdicts_length += OCL_LEAST_VERDICTS - 1) {
        expect_board(sheet, NULL, OCL_SHORT_SLICE, 0, 0, "");
        expect_board(sheet, set, OCL_SHORT_SLICE, 0, 0, "");
    }
    verdicts_length = OCL_LEAST_VERDICTS;
    lend(OCL_LEAST_WORDS, OCL_LEAST_WORDS - 1, OCL_LEAST_WORDS, 0);
    expect_board(sheet, NULL, OCL_SHORT_SLICE, 0, 0, "");
    expect_board(sheet, set, OCL_SHORT_SLICE, 0, 0, "");
    lend(OCL_LEAST_WORDS, OCL_LEAST_WORDS, OCL_LEAST_WORDS, 0);
    expect_board("C\t0\t-\nC\t1\t1\n", NULL, OCL_UNKNOWN_REFERENCE, 0, 2, "");
    expect_board("C\t0\t-\nC\t1\t1\n", set, OCL_UNKNOWN_REFERENCE, 0, 2, "");
    expect_board(sheet, NULL, OCL_ANSWERED, 0, 0, "0 0 t 4\n1 0 u 2\n");
    expect_board(sheet, set, OCL_ANSWERED, 4, 0, "0 0 f 4\n1 0 u 2\n");
    expect_board(sheet, "V\t0\t1\t100\n", OCL_ANSWERED, 2, 0, "0 0 f 4\n1 0 100 2\n");
    expect_board(sheet, "", OCL_BAD_LINE, 0, 1, "");
    expect_board(sheet, "V\t0\t0\t7", OCL_BAD_LINE, 0, 1, "");
    expect_board(sheet, "V\t0\t0\t2147483648\n", OCL_OUT_OF_LIMITS, 0, 1, "");
    expect_board(sheet, "V\t0\t0\tS(2,1)\n", OCL_OUT_OF_ORDER, 0, 1, "");
    expect_board(sheet, "V\t1\t0\t-\n", OCL_UNKNOWN_REFERENCE, 0, 1, "");
    expect_board(sheet, "V\t0\t0\tt\n", OCL_VALUE_MISMATCH, 0, 1, "");
    /* shorter verdicts leave what stood behind them */
    expect_board(sheet, "V\t0\t1\t-\n", OCL_ANSWERED, 2, 0, "0 0 f 4\n1 0 u 2\n");
    expect_board(sheet, "V\t0\t0\t-\n", OCL_ANSWERED, 3, 0, "0 0 u 3\n1 0 u 2\n");
}

int main(void)
{
    static const char sheet[] = "C\t0\t-\nO\t0\t0\nR\t0\t0\nN\t0\ttrue\n";
    static const char bad[] = "C\t0\t-\nC\t1\t1\n";
    static const char untyped[] = "C\t0\t-\nO\t0\t0\nR\t0\t0\nN\t0\ttrue\nR\t1\t0\nN\t0\tvar\t1\n";
    static const char called[] = "C\t0\t-\nO\t0\t0\nD\t0\t0\tBool\nN\t0\ttrue\nR\t0\t0\nN\t0\tself\nN\t1\tcall\t0\t0\n";
    static const char upward[] = "C\t0\t-\nD\t0\t0\tBool\nN\t0\tself\nN\t1\tcall\t0\t0\n";
    static const char unknown[] = "C\t0\t-\nR\t0\t0\nN\t0\tself\nN\t1\tcall\t0\t0\n";
    static const char body[] = "C\t0\t-\nO\t0\t0\nD\t0\t0\tBool\nN\t0\tself\nR\t0\t0\nN\t0\ttrue\n";
    static const char real[] = "C\t0\t-\nO\t0\t0\nR\t0\t0\nN\t0\tint\t3\nN\t1\tint\t2\nN\t2\tover\t0\t1\n";
    static const char whole[] = "C\t0\t-\nR\t0\t0\nN\t0\treal\tr3ff0000000000000\n";
    static const char infinity[] = "C\t0\t-\nR\t0\t0\nN\t0\treal\tr7ff0000000000000\n";
    static const char text[] = "C\t0\t-\nO\t0\t0\nR\t0\t0\nX\tnot (1 = 2)\n";
    static const char no_sentence[] = "C\t0\t-\nO\t0\t0\nR\t0\t0\nX\t1 = 2 = 3\n";
    static const char behind[] = "C\t0\t-\nO\t0\t0\nR\t0\t0\nX\ttrue\nN\t0\ttrue\n";
    static const char row[] = "C\t0\t-\nA\t0\t0\t5\tInt\nA\t1\t0\t6\tInt\nO\t0\t0\nV\t0\t1\t9\n"
                              "D\t0\t0\tInt\nN\t0\tself\nN\t1\tattr\t0\t5\n"
                              "R\t0\t0\nX\t8 < self.a6 or true\n"
                              "R\t1\t0\nX\tif self.a6 = 0 then self.d0() else 7 endif\n";
    static const char sequence[] = "C\t0\t-\nO\t0\t0\nR\t0\t0\nX\t#0.allInstances()->asSequence()\n";
    /* undefined on the left of two sides, on line 9; in a called body, on line 7; and a stop, which has no line */
    static const char blank[] = "C\t0\t-\nA\t0\t0\t5\tInt\nO\t0\t0\n"
                                "D\t0\t0\tInt\nN\t0\tint\t1\nN\t1\tint\t0\nN\t2\tdiv\t0\t1\n"
                                "R\t0\t0\nX\tself.a5 = 1 or self.d0() = 1\n"
                                "R\t1\t0\nX\t1 + self.d0()\n"
                                "R\t2\t0\nX\t2147483647 + 1\n";
    static const uint8_t longer[OCL_LONGEST_TEXT + 1];
    static const size_t little[] = {0, 1, OCL_LEAST_WORDS - 1};
    const size_t most = OCL_LEAST_WORDS, sheet_length = sizeof sheet - 1;

    for (enum call which = READ; which <= UNDEFINED; which++) {
        for (size_t i = 0; i < 3; i++) {
            lend(little[i], most, most, OCL_LEAST_OUTPUT);
            expect(which, sheet, sheet_length, OCL_SHORT_SLICE, "");
            lend(most, little[i], most, OCL_LEAST_OUTPUT);
            expect(which, sheet, sheet_length, OCL_SHORT_SLICE, "");
            lend(most, most, little[i], OCL_LEAST_OUTPUT);
            expect(which, sheet, sheet_length, OCL_SHORT_SLICE, "");
        }
        lend(0, 0, 0, 0);
        expect(which, NULL, 0, OCL_SHORT_SLICE, "");
        /* a short slice comes before a sheet that is too long */
        lend(most, most, most - 1, OCL_LEAST_OUTPUT);
        expect(which, longer, sizeof longer, OCL_SHORT_SLICE, "");
        lend(most, most, most, 0);
        expect(which, sheet, sheet_length, OCL_SHORT_SLICE, "");
        lend(most, most, most, OCL_LEAST_OUTPUT - 1);
        expect(which, sheet, sheet_length, OCL_SHORT_SLICE, "");
        /* enough for the longest value, and still too little */
        lend(most, most, most, 2288);
        expect(which, sheet, sheet_length, OCL_SHORT_SLICE, "");
    }
    for (enum call which = READ; which <= UNDEFINED; which++) {
        static const char *const written[] = {"Bool\n", "Bool\n", "t", "0 0 t 1\n", "0\n", ""};
        static const char *const of_call[] = {"Bool\n", "Bool\n", "t", "0 0 t 3\n", "0\n", ""};
        static const char *const of_text[] = {"Bool\n", "Bool\n", "t", "0 0 t 4\n", "0\n", ""};
        static const char *const of_real[] = {
            "Real\n", "Real\n", "r3ff8000000000000", "0 0 r3ff8000000000000 3\n", "0\n", ""};
        static const char *const of_row[] = {
            "Bool\nInt\n", "Bool\nInt\n", "t", "0 0 t 5\n1 0 7 6\n", "0 1\n1 0 1\n", ""};
        static const char *const of_sequence[] = {"Q(#0)\n", "", "Q(@0)", "0 0 Q(@0) 2\n", "0\n", ""};
        static const char *const of_blank[] = {
            "Bool\nInt\nInt\n", "Bool\nInt\nInt\n", "u", "0 0 u 10\n1 0 u 7\n2 0 !19 3\n", "0 0\n1\n2\n", "0 0 9 3\n1 0 7 5\n"};
        lend(most, most, most, OCL_LEAST_OUTPUT);
        expect(which, sheet, sheet_length, OCL_ANSWERED, written[which]);
        expect(which, bad, sizeof bad - 1, OCL_UNKNOWN_REFERENCE, "");
        /* every call types all rules */
        expect(which, untyped, sizeof untyped - 1, OCL_UNBOUND_VARIABLE, "");
        /* and all definitions, called or not */
        expect(which, called, sizeof called - 1, OCL_ANSWERED, of_call[which]);
        expect(which, upward, sizeof upward - 1, OCL_CALL_UPWARD, "");
        expect(which, unknown, sizeof unknown - 1, OCL_UNKNOWN_DEFINITION, "");
        expect(which, body, sizeof body - 1, OCL_WRONG_OPERAND_TYPE, "");
        expect(which, real, sizeof real - 1, OCL_ANSWERED, of_real[which]);
        expect(which, whole, sizeof whole - 1, OCL_BAD_LINE, "");
        expect(which, infinity, sizeof infinity - 1, OCL_OUT_OF_LIMITS, "");
        expect(which, text, sizeof text - 1, OCL_ANSWERED, of_text[which]);
        expect(which, row, sizeof row - 1, OCL_ANSWERED, of_row[which]);
        /* what is outside the profile is so to one call alone */
        expect(which, sequence, sizeof sequence - 1, which == PROFILE ? OCL_OUTSIDE_PROFILE : OCL_ANSWERED, of_sequence[which]);
        expect(which, blank, sizeof blank - 1, OCL_ANSWERED, of_blank[which]);
        expect(which, no_sentence, sizeof no_sentence - 1, OCL_NOT_A_SENTENCE, "");
        expect(which, behind, sizeof behind - 1, OCL_OUT_OF_ORDER, "");
        expect(which, longer, sizeof longer, OCL_SHEET_TOO_LONG, "");
        /* the text of no bytes is a sheet without rules */
        expect(which, NULL, 0, which == EVALUATE ? OCL_NOT_FOUND : OCL_ANSWERED, "");
    }
    boards();
    if (failures == 0) {
        printf("misuse: %d cases\n", cases);
    }
    return failures != 0;
}
