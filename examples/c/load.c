/*
 * load FILE: the thread load of a run of stitch lengths. It hands the lengths to a running record one by one, as a controller
 * does while the machine sews, and prints the load each time it grows; then it prints what the program thread_load prints.
 *
 *     cc -std=c11 -Wall -Wextra -Werror -Iinclude examples/c/load.c target/staticlib/libload.a -o target/load
 *     target/load examples/leaves.run
 *
 * With a release, in place of -Iinclude and the library: $(pkg-config --cflags --libs thread-load).
 *
 * Its exit status is 0 after a load, 1 after a refusal and 2 where the file could not be read.
 */
#include <inttypes.h>
#include <stdio.h>

#include "thread_load.h"

/* A window's line and the lines of as many lengths as a run may have, and a byte more. */
static uint8_t text[3 + 5 * LOAD_MOST + 1];

/* Hands on each length up to a line that is none; load_text says what is wrong with that one. */
static void sew(FILE *file)
{
    load_window window = {.width = 0};
    unsigned length;
    if (fscanf(file, "%" SCNu64, &window.width) != 1) {
        return;
    }
    while (fscanf(file, "%u", &length) == 1 && length <= LOAD_LONGEST) {
        uint64_t before = window.first;
        if (!load_push(&window, (uint16_t)length)) {
            return;
        }
        if (window.first != before) {
            printf("after stitch %" PRIu64 ": %" PRIu64 " from stitch %" PRIu64 " on\n", window.count, window.largest,
                window.first);
        }
    }
}

int main(int count, char **arguments)
{
    uint8_t line[LOAD_LINE];
    FILE *file = count == 2 ? fopen(arguments[1], "rb") : NULL;
    size_t length = file == NULL ? 0 : fread(text, 1, sizeof text, file);
    if (file == NULL || length == sizeof text) {
        fprintf(stderr, "usage: load FILE, a file that can be read and is no longer than a run\n");
        return 2;
    }
    rewind(file);
    sew(file);
    fclose(file);
    fwrite(line, 1, load_text(text, length, line), stdout);
    return line[0] == '!';
}
