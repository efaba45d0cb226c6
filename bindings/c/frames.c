/* What the wrappers of the exports leave on the stack (bindings/wiping). A function in the place of a proved one fills its
 * frame with a known byte. A wrapper calls it on a stack of this program, which is searched for that byte afterwards.
 *
 *     frames            ends with 1 if a byte is left
 *     frames unwiped    ends with 1 if none is left, over the `clear_stack` that clears nothing */
#define _XOPEN_SOURCE 600
#include "../wiping/wipe.h"

#include <stdint.h>
#include <stdio.h>
#include <string.h>
#include <ucontext.h>

#define KNOWN 0xb7
#define ANSWER 1
#define FRAME 2048
#define CLEARED 8192

static uint8_t stack[1 << 16] __attribute__((aligned(16)));
static ucontext_t here, there;

/* In the place of a proved function. */
static __attribute__((noinline)) unsigned fill(void)
{
    volatile uint8_t frame[FRAME];
    for (size_t at = 0; at < sizeof frame; at++)
        frame[at] = KNOWN;
    return frame[FRAME / 2] == KNOWN ? ANSWER : 0;
}

/* A wrapper, as in bindings/wiping/exports.c. */
static __attribute__((noinline)) unsigned padded(void)
{
    unsigned answer;
    BELOW_PAD(answer = fill());
    clear_stack(CLEARED);
    return answer;
}

/* One without the pad: `clear_stack` then has its frame where `fill` had its own. */
static __attribute__((noinline)) unsigned unpadded(void)
{
    unsigned answer = fill();
    clear_stack(CLEARED);
    return answer;
}

static unsigned (*wrapper)(void);
static volatile unsigned answered;

/* Runs a wrapper, far enough below the top of the stack that what ends this function does not write there. */
static void run(void)
{
    volatile uint8_t above[1024];
    above[0] = 0;
    answered = wrapper();
    (void)above[0];
}

/* How many known bytes are left after a wrapper. */
static size_t left_by(unsigned (*tried)(void))
{
    size_t left = 0;
    memset(stack, 0, sizeof stack);
    wrapper = tried;
    answered = 0;
    if (getcontext(&there) != 0)
        return sizeof stack;
    there.uc_stack.ss_sp = stack;
    there.uc_stack.ss_size = sizeof stack;
    there.uc_link = &here;
    makecontext(&there, run, 0);
    if (swapcontext(&here, &there) != 0 || answered != ANSWER)
        return sizeof stack;
    for (size_t at = 0; at < sizeof stack; at++)
        left += stack[at] == KNOWN;
    return left;
}

int main(int words, char **word)
{
    int unwiped = words == 2 && strcmp(word[1], "unwiped") == 0;
    size_t left = left_by(padded), without = left_by(unpadded);
    printf("known bytes left on the stack: %lu, without the pad %lu\n", (unsigned long)left, (unsigned long)without);
    return unwiped ? left < FRAME || left == sizeof stack : left != 0;
}
