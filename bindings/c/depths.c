/* Measures how much of the stack each export uses, and compares that with how much the library clears after it
 * (bindings/wiping/depths.h). The calls of every_call.h run on a thread whose stack is painted before each call, and
 * are those of the library that clears nothing.
 *
 * Prints a line for each export. Ends with 1 if the library clears less than the export uses and MARGIN, or more than
 * MOST, if an export is not called, or if nothing is left free between it and its wrapper (`BELOW_PAD`).
 *
 *     depths write    prints the lines of depths.h that fit */
#define _POSIX_C_SOURCE 200112L
#include "every_call.h"
#include "../wiping/wipe.h"

#include <pthread.h>
#include <stdio.h>

/* For the C library, the registers that the loader saves when it first binds a function of that, and paths that no
 * login here takes. */
#define MARGIN 4096
#define MOST (96 * 1024)
#define ROUND 1024
#define PAINT 0xb7
/* (the frames of the functions here and of a wrapper with a copy of a struct, and what is left of the stack at its end) */
#define OWN 896
#define END 65536
/* (what is left of a pad below OWN, of a wrapper with a small frame) */
#define FREE (PAD / 8)

#define DEPTH(name, bytes) {#name, bytes, 0, PAD},
static struct measured {
    const char *name;
    size_t cleared, used, free;
} depths[] = {
#include "../wiping/depths.h"
};
#define EXPORTS (sizeof depths / sizeof *depths)

static uint8_t stack[1 << 20] __attribute__((aligned(4096)));
static const uint8_t *painted;

/* Paints the stack below the frame of this function. */
static __attribute__((noinline)) void before(const char *name)
{
    volatile uint8_t here;
    uint8_t *end = (uint8_t *)((uintptr_t)&here - OWN);
    (void)name;
    painted = end;
    memset(stack + END, PAINT, (size_t)(end - (stack + END)));
}

static __attribute__((noinline)) void after(const char *name)
{
    volatile uint8_t here;
    const uint8_t *top = (const uint8_t *)(uintptr_t)&here, *at = stack + END, *pad = painted;
    struct measured *one = depths;
    while (at < top && *at == PAINT)
        at++;
    while (pad > at && pad[-1] == PAINT)
        pad--;
    while (one < depths + EXPORTS && strcmp(one->name, name) != 0)
        one++;
    if (one == depths + EXPORTS) {
        printf("%s is not in depths.h\n", name);
        differences++;
        return;
    }
    if ((size_t)(top - at) > one->used)
        one->used = (size_t)(top - at);
    if ((size_t)(painted - pad) < one->free)
        one->free = (size_t)(painted - pad);
}

static void *run(void *unused)
{
    static const uint32_t versions[] = {FE2O3_SHA_1, FE2O3_SHA_256, FE2O3_SHA_512};
    for (size_t which = 0; which < 3; which++)
        every_call(versions[which]);
    return unused;
}

static size_t due(const struct measured *one) { return (one->used + MARGIN + ROUND - 1) / ROUND * ROUND; }

/* Whether what is cleared fits. */
static int fits(const struct measured *one)
{
    int holds = one->used > 0 && one->used + MARGIN <= one->cleared && one->cleared <= MOST;
    printf("%s: %lu bytes, cleared %lu%s%s\n", one->name, (unsigned long)one->used, (unsigned long)one->cleared,
        holds ? "" : ", DIFFERS: make depths", one->free >= FREE ? "" : ", DIFFERS: there is no pad");
    return holds && one->free >= FREE;
}

int main(int words, char **word)
{
    int writes = words == 2 && strcmp(word[1], "write") == 0;
    pthread_t thread;
    pthread_attr_t attributes;
    if (pthread_attr_init(&attributes) != 0 || pthread_attr_setstack(&attributes, stack, sizeof stack) != 0
        || pthread_create(&thread, &attributes, run, NULL) != 0 || pthread_join(thread, NULL) != 0) {
        puts("no thread");
        return 2;
    }
    if (writes)
        puts("/* How many bytes of the stack are cleared after each export. Written by `make depths`. */");
    for (size_t at = 0; at < EXPORTS; at++) {
        if (writes)
            printf("DEPTH(%s, %lu)\n", depths[at].name, (unsigned long)due(&depths[at]));
        else
            differences += !fits(&depths[at]);
    }
    return differences != 0;
}
