/*
 * check SHEET: reads a job sheet from a file and prints each rule's type, what the rule comes to for each of its objects, the
 * rows that each rule sees, whether the sheet is in the free-numbering profile, where undefined came from, and the report. A sheet
 * that is refused gets the reason in words. It shows the calls of include/ocl_checker.h, but for those on a board, which setter.c
 * has. All memory is static.
 *
 *     cc -std=c11 -Wall -Wextra -Werror -Iinclude examples/c/check.c target/staticlib/libchecker.a -o target/check
 *     target/check examples/cap.sheet
 *
 * With a release, in place of -Iinclude and the library: $(pkg-config --cflags --libs ocl-checker).
 *
 * Its exit status is 0 after a report, 1 after a refusal and 2 if the file could not be read.
 */
#include <inttypes.h>
#include <stdio.h>

#include "ocl_checker.h"

/* A byte more than a sheet may have, so that a longer file is refused and not cut short. */
static uint8_t text[OCL_LONGEST_TEXT + 1];
static size_t text_length;
static uint64_t words[3][OCL_LEAST_WORDS];
static uint8_t output[OCL_REPORT_OUTPUT];
/* The rules' types have an output of their own, so that they last while the rules are evaluated. */
static uint8_t types[OCL_LEAST_OUTPUT];

/* What calls are lent. */
#define TEXT text, text_length
#define WORDS words[0], OCL_LEAST_WORDS, words[1], OCL_LEAST_WORDS, words[2], OCL_LEAST_WORDS
#define OUTPUT output, sizeof output

/* Every refusal's trade word and what it says. A call gives no other number. */
static const char *const meanings[][2] = {
    [OCL_SHORT_SLICE] = {"short bench", "a lent slice is too short"},
    [OCL_SHEET_TOO_LONG] = {"long sheet", "the text is longer than a sheet may be"},
    [OCL_BAD_LINE] = {"bad line", "the line is misspelled"},
    [OCL_OUT_OF_LIMITS] = {"over measure", "a number, count, size or nesting is outside its limits"},
    [OCL_OUT_OF_ORDER] = {"out of row", "something is out of order, or there twice"},
    [OCL_UNKNOWN_REFERENCE] = {"unknown part", "the sheet has no such class, row or object"},
    [OCL_VALUE_MISMATCH] = {"wrong thread", "the value does not suit its row, or the row its object"},
    [OCL_MALFORMED_TREE] = {"broken tree", "the nodes make no tree, or one that is too deep"},
    [OCL_UNBOUND_VARIABLE] = {"loose end", "nothing binds the variable"},
    [OCL_NO_COMMON_TYPE] = {"no match", "there is no common type, or the cast is between unrelated classes"},
    [OCL_WRONG_OPERAND_TYPE] = {"wrong piece", "the form does not take an operand of this type"},
    [OCL_NO_ATTRIBUTE] = {"no such mark", "the class has no attribute of this name"},
    [OCL_TYPE_TOO_DEEP] = {"too many layers", "the type would be over three deep"},
    [OCL_NOT_FOUND] = {"not listed", "the sheet has no such rule or object"},
    [OCL_OTHER_CLASS] = {"other class", "the object is not of the rule's class or below"},
    [OCL_STEP_STOP] = {"step stop", "more steps are due than an evaluation may take"},
    [OCL_SIZE_STOP] = {"size stop", "a value of a size over 128 would be formed"},
    [OCL_REPORT_TOO_LONG] = {"slip too long", "what is to be written is longer than the output"},
    [OCL_OVER_RANGE] = {"over the range", "a result of Integers leaves their range, or one of Reals is infinite"},
    [OCL_NOT_A_SENTENCE] = {"not a sentence", "the text of the rule is no sentence"},
    [OCL_BOARD_FULL] = {"board full", "there would be too many values, or too large ones"},
    [OCL_OUTSIDE_PROFILE] = {"outside the profile", "what the rule says may follow the objects' numbers"},
    [OCL_CALL_UPWARD] = {"call upward", "the definition calls itself or a larger one"},
    [OCL_UNKNOWN_DEFINITION] = {"unknown definition", "the sheet has no such definition"},
};

static void print_refusal(ocl_answer answer)
{
    if (answer.place != 0) {
        printf("line %" PRIu64 ": ", answer.place);
    }
    printf("%s (%" PRIu64 ")", meanings[answer.number][0], answer.number);
    if (answer.steps != 0) {
        printf(" after %" PRIu64 " steps", answer.steps);
    }
    printf(": %s\n", meanings[answer.number][1]);
}

/* Prints what the rule comes to for each object it applies to. */
static void evaluate_for_all(uint64_t rule)
{
    for (uint64_t object = 0;; object++) {
        ocl_answer answer = ocl_evaluate_rule(TEXT, rule, object, WORDS, OUTPUT);
        if (answer.number == OCL_NOT_FOUND) {
            return; /* the object before this one was the last */
        }
        if (answer.number == OCL_OTHER_CLASS) {
            continue;
        }
        printf("  object %" PRIu64 ": ", object);
        if (answer.number == OCL_ANSWERED) {
            printf("%.*s, %" PRIu64 " steps\n", (int)answer.length, (const char *)output, answer.steps);
        } else {
            print_refusal(answer);
        }
    }
}

/* Prints each rule's type, and what the rule comes to. The types take this many bytes, a line for each rule. */
static void print_rules(uint64_t length)
{
    uint64_t rule = 0, start = 0;
    for (uint64_t end = 0; end < length; end++) {
        if (types[end] == '\n') {
            printf("rule %" PRIu64 ": %.*s\n", rule, (int)(end - start), (const char *)types + start);
            evaluate_for_all(rule);
            rule++;
            start = end + 1;
        }
    }
}

/* Prints what a call has written, or its refusal. Returns whether there was an answer. */
static int print_lines(const char *what, ocl_answer answer)
{
    if (answer.number != OCL_ANSWERED) {
        print_refusal(answer);
        return 0;
    }
    printf("%s:\n", what);
    fwrite(output, 1, (size_t)answer.length, stdout);
    return 1;
}

static int load(const char *path)
{
    FILE *file = fopen(path, "rb");
    if (file == NULL) {
        return 0;
    }
    text_length = fread(text, 1, sizeof text, file);
    int failed = ferror(file);
    fclose(file);
    return !failed;
}

int main(int argc, char **argv)
{
    if (argc != 2) {
        fprintf(stderr, "usage: check SHEET\n");
        return 2;
    }
    if (!load(argv[1])) {
        perror(argv[1]);
        return 2;
    }
    ocl_answer answer = ocl_read_sheet(TEXT, WORDS, types, sizeof types);
    if (answer.number != OCL_ANSWERED) {
        print_refusal(answer);
        return 1;
    }
    print_rules(answer.length);
    if (!print_lines("rows", ocl_rows(TEXT, WORDS, OUTPUT))) {
        return 1;
    }
    answer = ocl_read_free_numbering(TEXT, WORDS, OUTPUT);
    printf("free numbering: ");
    if (answer.number == OCL_ANSWERED) {
        printf("yes\n");
    } else {
        print_refusal(answer);
    }
    if (!print_lines("undefined", ocl_undefined(TEXT, WORDS, OUTPUT))) {
        return 1;
    }
    return print_lines("report", ocl_report(TEXT, WORDS, OUTPUT)) ? 0 : 1;
}
