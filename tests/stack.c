/*
 * stack SHEET..: how much stack the calls take. Each call runs on a stack of its own, painted before, on every sheet, rule and
 * object, and an edit with every V line of the sheet; the most bytes that each call took, its arguments among them, are printed with
 * the sheet, and so are the sheets whose report is refused.
 */
#include "painted.h"

#include <inttypes.h>
#include <stdio.h>

#include "ocl_checker.h"

enum call { READ, PROFILE, EVALUATE, REPORT, ROWS, UNDEFINED, MAKE, EDIT, CALLS };
static const char *const names[] = {
    "read_sheet", "read_free_numbering", "evaluate_rule", "report", "rows", "undefined", "make_board", "edit_board"};
static uint64_t board[OCL_LEAST_BOARD];
static size_t edit_start, edit_length;

static uint8_t text[OCL_LONGEST_TEXT + 1];
static uint64_t words[3][OCL_LEAST_WORDS];
static uint8_t output[OCL_REPORT_OUTPUT];
static size_t text_length;

/* The call that is to be run, and what it answers. */
static enum call which;
static uint64_t rule, object;
static ocl_answer answer;

static size_t most[CALLS];
static const char *most_in[CALLS];
static uint64_t runs;

#define TEXT text, text_length
#define WORDS words[0], OCL_LEAST_WORDS, words[1], OCL_LEAST_WORDS, words[2], OCL_LEAST_WORDS
#define OUTPUT output, sizeof output

static void run(void)
{
    NOTE_FRAME();
    switch (which) {
    case READ:
        answer = ocl_read_sheet(TEXT, WORDS, OUTPUT);
        break;
    case PROFILE:
        answer = ocl_read_free_numbering(TEXT, WORDS, OUTPUT);
        break;
    case EVALUATE:
        answer = ocl_evaluate_rule(TEXT, rule, object, WORDS, OUTPUT);
        break;
    case REPORT:
        answer = ocl_report(TEXT, WORDS, OUTPUT);
        break;
    case ROWS:
        answer = ocl_rows(TEXT, WORDS, OUTPUT);
        break;
    case UNDEFINED:
        answer = ocl_undefined(TEXT, WORDS, OUTPUT);
        break;
    case MAKE:
        answer = ocl_make_board(TEXT, WORDS, board, OCL_LEAST_BOARD, OUTPUT);
        break;
    case EDIT:
        answer = ocl_edit_board(TEXT, text + edit_start, edit_length, WORDS, board, OCL_LEAST_BOARD, OUTPUT);
        break;
    case CALLS:
        break;
    }
}

/* Runs a call on the painted stack; its number. */
static uint64_t measure(enum call call, const char *sheet)
{
    which = call;
    size_t used = stack_used(run);
    if (used > most[call]) {
        most[call] = used;
        most_in[call] = sheet;
    }
    runs++;
    return answer.number;
}

/* Makes a board, and edits it with each V line of the sheet; a sheet that is refused is read by an edit too. */
static void measure_board(const char *sheet)
{
    if (measure(MAKE, sheet) != OCL_ANSWERED) {
        edit_length = 0;
        measure(EDIT, sheet);
        return;
    }
    for (size_t start = 0, end = 0; end < text_length; end++) {
        if (text[end] == '\n') {
            edit_start = start;
            edit_length = end + 1 - start;
            if (text[start] == 'V') {
                measure(EDIT, sheet);
            }
            start = end + 1;
        }
    }
}

static void measure_sheet(const char *sheet)
{
    if (measure(REPORT, sheet) != OCL_ANSWERED) {
        printf("refused %s\n", sheet);
    }
    measure(ROWS, sheet);
    measure(PROFILE, sheet);
    measure(UNDEFINED, sheet);
    measure_board(sheet);
    rule = 0;
    object = 0;
    measure(EVALUATE, sheet);
    if (measure(READ, sheet) != OCL_ANSWERED) {
        return;
    }
    uint64_t rules = 0;
    for (uint64_t i = 0; i < answer.length; i++) {
        rules += output[i] == '\n'; /* a line for each rule */
    }
    for (; rule < rules; rule++) {
        for (object = 0; measure(EVALUATE, sheet) != OCL_NOT_FOUND; object++) {
        }
    }
}

int main(int argc, char **argv)
{
    for (int i = 1; i < argc; i++) {
        FILE *file = fopen(argv[i], "rb");
        if (file == NULL) {
            perror(argv[i]);
            return 2;
        }
        text_length = fread(text, 1, sizeof text, file);
        fclose(file);
        measure_sheet(argv[i]);
    }
    for (int i = READ; i < CALLS; i++) {
        printf("%s %zu %s\n", names[i], most[i], most_in[i] == NULL ? "-" : most_in[i]);
    }
    printf("runs %" PRIu64 "\n", runs);
    return 0;
}
