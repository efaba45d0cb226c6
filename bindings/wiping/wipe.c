/* Overwriting memory and registers in a way that no compiler drops. */
#include "../c/fe2o3_sasl.h"
#include "wipe.h"

#include <string.h>

/* (a compiler cannot know what a volatile pointer points to, so it keeps the call) */
static void *(*const volatile set)(void *, int, size_t) = memset;

void fe2o3_wipe(void *memory, size_t len)
{
    if (len != 0)
        set(memory, 0, len);
}

const volatile size_t pad_len = PAD;

#ifdef LEAVE_STACK

/* (for the tests that compare) */
void clear_stack(size_t depth) { (void)depth; }

#else

/* Zeroes the vector registers 16 to 31 of AVX-512. The code of the library does not use them, but memcpy of the C
 * library may copy through them. */
static void clear_upper_vectors(void)
{
#if defined(__x86_64__) && defined(__GNUC__)
    if (has_upper_vectors())
        __asm__ volatile("vpxord %xmm16, %xmm16, %xmm16; vpxord %xmm17, %xmm17, %xmm17;"
                         "vpxord %xmm18, %xmm18, %xmm18; vpxord %xmm19, %xmm19, %xmm19;"
                         "vpxord %xmm20, %xmm20, %xmm20; vpxord %xmm21, %xmm21, %xmm21;"
                         "vpxord %xmm22, %xmm22, %xmm22; vpxord %xmm23, %xmm23, %xmm23;"
                         "vpxord %xmm24, %xmm24, %xmm24; vpxord %xmm25, %xmm25, %xmm25;"
                         "vpxord %xmm26, %xmm26, %xmm26; vpxord %xmm27, %xmm27, %xmm27;"
                         "vpxord %xmm28, %xmm28, %xmm28; vpxord %xmm29, %xmm29, %xmm29;"
                         "vpxord %xmm30, %xmm30, %xmm30; vpxord %xmm31, %xmm31, %xmm31");
#endif
}

/* (GCC 11 and Clang 15 have the attribute, which zeroes the other registers that a call may change) */
#ifdef __has_attribute
#if __has_attribute(zero_call_used_regs)
__attribute__((zero_call_used_regs("all")))
#endif
#endif
void clear_stack(size_t depth)
{
    unsigned char room[depth];
    set(room, 0, depth);
    clear_upper_vectors();
}

#endif
