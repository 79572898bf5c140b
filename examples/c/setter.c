/*
 * setter SHEET: a setter corrects values at the machine. The program makes a board of a job sheet and prints its verdicts. Then it reads
 * edits from standard input, each a V line or one with `-` for the value. For each it prints the steps that it took and the verdicts that
 * changed, or the number and the place of its refusal. It shows ocl_make_board and ocl_edit_board of include/ocl_checker.h. All memory is
 * static.
 *
 *     cc -std=c11 -Wall -Wextra -Werror -Iinclude examples/c/setter.c target/staticlib/libchecker.a -o target/setter
 *     target/setter examples/cap.sheet <examples/cap.edits
 *
 * With a release, in place of -Iinclude and the library: $(pkg-config --cflags --libs ocl-checker).
 *
 * Its exit status is 0 at the end of the edits, 1 if the sheet is refused and 2 if the file could not be read.
 */
#include <inttypes.h>
#include <stdio.h>
#include <string.h>

#include "ocl_checker.h"

/* A byte more than a sheet may have, so that a longer file is refused and not cut short. */
static uint8_t text[OCL_LONGEST_TEXT + 1];
static size_t text_length;
static uint64_t words[3][OCL_LEAST_WORDS];
/* The board, its verdicts, and the verdicts before the last edit. */
static uint64_t board[OCL_LEAST_BOARD];
static uint8_t verdicts[OCL_REPORT_OUTPUT];
static uint8_t before[OCL_REPORT_OUTPUT];
/* No edit is longer than this: the longest value takes 2,288 bytes. */
static char edit[4096];

#define TEXT text, text_length
#define WORDS words[0], OCL_LEAST_WORDS, words[1], OCL_LEAST_WORDS, words[2], OCL_LEAST_WORDS
#define BOARD board, OCL_LEAST_BOARD, verdicts, sizeof verdicts

static void print_refusal(ocl_answer answer)
{
    printf("refused: %" PRIu64 " at %" PRIu64 "\n", answer.number, answer.place);
}

/* Prints the lines that differ from those before; there are as many of them. */
static void print_changed(size_t old_length, size_t length)
{
    for (size_t old = 0, new = 0; old < old_length && new < length;) {
        size_t old_end = old, end = new;
        while (before[old_end++] != '\n') {
        }
        while (verdicts[end++] != '\n') {
        }
        if (old_end - old != end - new || memcmp(before + old, verdicts + new, end - new) != 0) {
            fwrite(verdicts + new, 1, end - new, stdout);
        }
        old = old_end;
        new = end;
    }
}

static int load(const char *path)
{
    FILE *file = fopen(path, "rb");
    if (file == NULL) {
        return 0;
    }
    text_length = fread(text, 1, sizeof text, file);
    int failed = ferror(file);
    fclose(file);
    return !failed;
}

int main(int argc, char **argv)
{
    if (argc != 2) {
        fprintf(stderr, "usage: setter SHEET\n");
        return 2;
    }
    if (!load(argv[1])) {
        perror(argv[1]);
        return 2;
    }
    ocl_answer answer = ocl_make_board(TEXT, WORDS, BOARD);
    if (answer.number != OCL_ANSWERED) {
        print_refusal(answer);
        return 1;
    }
    size_t length = (size_t)answer.length;
    fwrite(verdicts, 1, length, stdout);
    while (fgets(edit, sizeof edit, stdin) != NULL) {
        memcpy(before, verdicts, length);
        answer = ocl_edit_board(TEXT, (const uint8_t *)edit, strlen(edit), WORDS, BOARD);
        if (answer.number != OCL_ANSWERED) {
            print_refusal(answer);
            continue;
        }
        printf("%" PRIu64 " steps\n", answer.steps);
        print_changed(length, (size_t)answer.length);
        length = (size_t)answer.length;
    }
    return 0;
}
