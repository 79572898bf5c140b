/* How much stack a call takes: it runs on a stack of its own, painted before. */
#define _XOPEN_SOURCE 700
#include <stddef.h>
#include <stdint.h>
#include <ucontext.h>

#define PAINT UINT64_C(0xa5c3a5c3a5c3a5c3)
#define STACK_WORDS (512 * 1024 / 8)
static uint64_t stack[STACK_WORDS];

/* Where the frame of the function that calls begins: this function notes it first. */
static uintptr_t frame;
#define NOTE_FRAME() (frame = (uintptr_t)__builtin_frame_address(0))

/* Runs the function; the bytes of stack below its frame that were used. */
static size_t stack_used(void (*calling)(void))
{
    static ucontext_t here, there;
    for (size_t i = 0; i < STACK_WORDS; i++) {
        stack[i] = PAINT;
    }
    getcontext(&there);
    there.uc_stack.ss_sp = stack;
    there.uc_stack.ss_size = sizeof stack;
    there.uc_link = &here;
    makecontext(&there, calling, 0);
    swapcontext(&here, &there);
    size_t lowest = 0;
    while (stack[lowest] == PAINT) {
        lowest++;
    }
    return frame - (uintptr_t)&stack[lowest];
}
