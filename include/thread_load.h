/*
 * Thread load along a run of stitches, for C99 or later and C++: the largest sum of as many neighbouring stitch lengths as the
 * window is wide, and the stitch at which it first begins. Link with libload.a; docs/USING.md says how. docs/LOAD.md says what the
 * numbers mean.
 *
 * A record takes one length at a time, as the machine sews. It is plain data: it may be copied, and each copy goes on by
 * itself. A new one is all zero but for its width:
 *
 *     load_window window = {.width = 8};              in C
 *     load_window window = {}; window.width = 8;      in C++
 *
 * The calls keep nothing, take some hundred bytes of stack, and call nothing but the C library's memset, memcpy and memmove.
 * They may run in several threads at a time, each with a record of its own.
 */
#ifndef THREAD_LOAD_H
#define THREAD_LOAD_H

#include <stddef.h>
#include <stdint.h>
#ifndef __cplusplus
#include <stdbool.h>
#endif

#ifdef __cplusplus
extern "C" {
#endif

/* This header's version, as the file VERSION has it; docs/RELEASE.md says what each part means. */
#define THREAD_LOAD_VERSION_MAJOR 1
#define THREAD_LOAD_VERSION_MINOR 0
#define THREAD_LOAD_VERSION_PATCH 0
#define THREAD_LOAD_VERSION "1.0.0"

#define LOAD_WIDEST 64    /* the widest window */
#define LOAD_LONGEST 1000 /* the longest stitch */
#define LOAD_MOST 1000000 /* the most lengths of a run */
#define LOAD_LINE 64      /* the bytes lent for a printed line; every line fits */

/* The running record, 168 bytes. */
typedef struct load_window {
    uint64_t width;      /* how many neighbours are summed, 1 to LOAD_WIDEST */
    uint64_t count;      /* lengths taken */
    uint16_t recent[64]; /* the last of them: length number n, from 0, stands at n modulo 64 */
    uint64_t sum;        /* of the last `width` lengths, of all while they are fewer */
    uint64_t largest;    /* the largest sum of `width` neighbours so far */
    uint64_t first;      /* the number, from 1, of the first length of the earliest such sum; 0 while there is none */
} load_window;

/*
 * Takes one length more and returns whether it did. A length over LOAD_LONGEST, or one after LOAD_MOST others, is not taken,
 * and nothing changes. A record of another width, or one that no lengths lead to, is safe to hand in; what it says is then
 * of no use.
 */
bool load_push(load_window *window, uint16_t length);

/*
 * What the program thread_load prints for a text: sum and first stitch, or `!` with number and place. The line, which ends in
 * a line feed, stands at the front of the output; its length is returned. The bytes after it stay as they were.
 */
size_t load_text(const uint8_t *text, size_t text_length, uint8_t output[LOAD_LINE]);

#ifdef __cplusplus
}
#endif

/* The library is compiled for 64-bit lengths and for a record of 168 bytes. */
#if defined(__cplusplus) && __cplusplus >= 201103L
static_assert(sizeof(size_t) == 8 && sizeof(load_window) == 168, "libload.a is for x86-64");
#elif defined(__STDC_VERSION__) && __STDC_VERSION__ >= 201112L
_Static_assert(sizeof(size_t) == 8 && sizeof(load_window) == 168, "libload.a is for x86-64");
#endif

#endif
