/* Sets each struct of the header to its FE2O3_.._INIT, and ends with 1 unless all bytes are zeros. `make callers` compiles
 * it as C99, C++11, C++17 and C++20, without a warning. inits.h has `INIT(NAME, STRUCT)` for each struct. */
#include "fe2o3_sasl.h"

#include <stdio.h>
#include <string.h>

#define INIT(name, struct_name) static const struct_name name = FE2O3_##name##_INIT;
#include "inits.h"
#undef INIT

static int differs(const char *name, const void *value, size_t size)
{
    const unsigned char *bytes = (const unsigned char *)value;
    size_t at;
    for (at = 0; at < size; at++) {
        if (bytes[at] != 0) {
            printf("%s: byte %lu is not zero\n", name, (unsigned long)at);
            return 1;
        }
    }
    return 0;
}

/* (as two arguments, and in an initializer) */
static uint32_t empty_text(struct fe2o3_text text)
{
    return fe2o3_external_verify(text.bytes, text.bytes_len, FE2O3_NONE);
}

int main(void)
{
    const struct fe2o3_text none = {FE2O3_NONE};
    int failed = empty_text(none) != FE2O3_SERVER_AUTHENTICATION_FAILED;
#define INIT(name, struct_name) failed |= differs(#name, &name, sizeof name);
#include "inits.h"
    return failed;
}
