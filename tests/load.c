/*
 * Hands the calls of thread_load.h records and texts of many kinds and looks at all that they leave behind: a record after each
 * length is what the lengths make it, a length that is not taken changes nothing, nothing beside the record and behind the
 * printed line is written, and no call takes more than 1 KiB of stack.
 */
#include "painted.h"

#include <stdio.h>
#include <string.h>

#include "thread_load.h"

#define ENOUGH 1024
#define BYTE 0x7e

static struct {
    uint8_t before[16];
    load_window window;
    uint8_t after[16];
} lent;
static uint8_t output[LOAD_LINE + 16];
static const char *text;
static uint16_t length;
static size_t text_length, printed, deepest;
static bool taken;
static int cases, failures;

static void push(void)
{
    NOTE_FRAME();
    taken = load_push(&lent.window, length);
}

static void print(void)
{
    NOTE_FRAME();
    printed = load_text((const uint8_t *)text, text_length, output);
}

/* Runs a call on a painted stack. */
static void run(void (*call)(void))
{
    size_t used = stack_used(call);
    deepest = used > deepest ? used : deepest;
}

static void expect(bool holds, const char *what, uint64_t number)
{
    cases++;
    if (!holds) {
        failures++;
        printf("load: %s, %llu\n", what, (unsigned long long)number);
    }
}

static bool untouched(const uint8_t *bytes, size_t count)
{
    for (size_t i = 0; i < count; i++) {
        if (bytes[i] != BYTE) {
            return false;
        }
    }
    return true;
}

/* Lengths 0, 7, 14 .. modulo 1,001: each record against sums taken anew. */
static void check_run(uint64_t width)
{
    uint64_t lengths[300], largest = 0, first = 0;
    memset(&lent, BYTE, sizeof lent);
    lent.window = (load_window){.width = width};
    for (uint64_t count = 1; count <= 300; count++) {
        uint64_t sum = 0;
        length = (uint16_t)(lengths[count - 1] = (count - 1) * 7 % 1001);
        run(push);
        for (uint64_t i = count < width ? 0 : count - width; i < count; i++) {
            sum += lengths[i];
        }
        if (count >= width && (first == 0 || sum > largest)) {
            largest = sum;
            first = count - width + 1;
        }
        expect(taken && lent.window.width == width && lent.window.count == count && lent.window.sum == sum, "count and sum", count);
        expect(lent.window.largest == largest && lent.window.first == first, "the best run", count);
        expect(lent.window.recent[(count - 1) % 64] == length, "the ring", count);
    }
    expect(untouched(lent.before, 16) && untouched(lent.after, 16), "beside the record", width);
}

/* What is not taken changes nothing, in records that no lengths lead to as well. */
static void check_refused(uint64_t count, uint64_t width, uint16_t pushed)
{
    memset(&lent, BYTE, sizeof lent);
    lent.window.count = count;
    lent.window.width = width;
    load_window before = lent.window;
    length = pushed;
    run(push);
    expect(!taken && memcmp(&before, &lent.window, sizeof before) == 0, "a length that is not taken", pushed);
    expect(untouched(lent.before, 16) && untouched(lent.after, 16), "beside the record", width);
}

static void check_text(const char *given, const char *line)
{
    memset(output, BYTE, sizeof output);
    text = given;
    text_length = strlen(given);
    run(print);
    expect(printed == strlen(line) && memcmp(output, line, printed) == 0, line, printed);
    expect(untouched(output + printed, sizeof output - printed), "behind the line", printed);
}

int main(void)
{
    check_run(1);
    check_run(64);
    check_refused(0, 1, LOAD_LONGEST + 1);
    check_refused(5, 64, UINT16_MAX);
    check_refused(LOAD_MOST, 1, 0);
    check_refused(UINT64_MAX, UINT64_MAX, 0);
    check_refused(0, 0, 1);
    check_text("3\n5\n2\n7\n7\n1\n0\n9\n", "16 2\n");
    check_text("", "! 3 1\n");
    check_text("1\n1001\n", "! 4 2\n");
    check_text("2\n1\n", "! 25 0\n");
    expect(deepest <= ENOUGH, "bytes of stack", deepest);
    printf("load: %d cases, %d failed\n", cases, failures);
    return failures != 0;
}
