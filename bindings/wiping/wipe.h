/* What the wrappers of the exports use. */
#ifndef FE2O3_SASL_WIPE_H
#define FE2O3_SASL_WIPE_H

#include <stddef.h>

/* How many bytes of the stack are cleared after each export: an enumerator `depth_NAME`. */
#define DEPTH(name, bytes) depth_##name = (bytes),
enum depth {
#include "depths.h"
};
#undef DEPTH

/* Zeroes that many bytes of the stack below its own frame, and the registers that a call may change. */
void clear_stack(size_t depth);

/* How many bytes a wrapper leaves free between its own frame and the function that it calls. (volatile, so that a compiler
 * cannot know the size, and allocates and frees the pad where it is declared) */
enum { PAD = 1024 };
extern const volatile size_t pad_len;

/* Makes a call below a pad. The pad is free again when `clear_stack` is called, whose own frame then lies in it. That
 * frame has bytes that nothing writes, and so would keep what the call has left there. */
#define BELOW_PAD(call) \
    do { \
        volatile unsigned char pad[pad_len]; \
        pad[0] = 0; \
        call; \
        (void)pad[0]; \
    } while (0)

#if defined(__x86_64__) && defined(__GNUC__)
#include <cpuid.h>

/* Whether the processor and the system have the vector registers 16 to 31 of AVX-512. Asked once, since it is slow. */
static inline int has_upper_vectors(void)
{
    static int known;
    int has = __atomic_load_n(&known, __ATOMIC_RELAXED);
    if (has == 0) {
        unsigned eax, ebx, ecx, edx, enabled = 0;
        if (__get_cpuid(1, &eax, &ebx, &ecx, &edx) && (ecx >> 27 & 1) != 0)
            __asm__ volatile("xgetbv" : "=a"(enabled), "=d"(edx) : "c"(0));
        has = (enabled & 0xe6) == 0xe6 && __get_cpuid_count(7, 0, &eax, &ebx, &ecx, &edx) && ebx >> 31 != 0 ? 2 : 1;
        __atomic_store_n(&known, has, __ATOMIC_RELAXED);
    }
    return has == 2;
}
#endif

#endif
