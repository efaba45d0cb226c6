/* How the cost of a call grows with one input. */
#ifndef GROW_H
#define GROW_H
#include <stddef.h>

enum { SIZES = 5 };
struct growth {
    const char *name, *input;
    size_t sizes[SIZES];
    void (*fill)(size_t size);
    size_t (*run)(size_t size, int call); /* without `call`, the preparation alone */
};
extern const struct growth growths[];
extern const int growths_len;
#endif
