/* The heap of a driver program, which refuses one request for memory in each answer. The driver marks its calls by the
 * sizes of blocks (crates/test_rows/src/rows.rt): of the REFUSE_CALL-th call of an answer the REFUSE_NTH-th request is
 * refused. The driver then makes the calls of the answer again, and none of them is refused. At the end a line of counts
 * goes to the file REFUSE_COUNTS. It is loaded by LD_PRELOAD, over glibc. */
#include <fcntl.h>
#include <stdio.h>
#include <stdlib.h>
#include <unistd.h>

enum { BEGIN = 700001, BEGIN_FREE = 700003, END = 700005, AGREED = 700007 };

void *__libc_malloc(size_t size);
void *__libc_realloc(void *block, size_t size);
void __libc_free(void *block);

/* In which call of the answer the program is, and at which request of the call; whether the answer was refused one. */
static enum { OUTSIDE, INSIDE, INSIDE_FREE } place;
static long call, request, is_spared;
/* What is counted: the most calls of an answer, refused requests, requests of calls that need none, blocks that are left. */
static long most, refused, needless, blocks;

static long number(const char *name)
{
    const char *text = getenv(name);
    return text == NULL ? 0 : strtol(text, NULL, 10);
}

__attribute__((destructor)) static void tell(void)
{
    char line[100];
    int file = open(getenv("REFUSE_COUNTS"), O_WRONLY | O_TRUNC);
    int len = snprintf(line, sizeof line, "%ld %ld %ld %ld\n", most, refused, needless, blocks);
    if (write(file, line, (size_t)len) != len)
        _exit(99);
}

static int is_mark(size_t size)
{
    if (size < BEGIN || size > AGREED || size % 2 == 0)
        return 0;
    place = size == BEGIN ? INSIDE : size == BEGIN_FREE ? INSIDE_FREE : OUTSIDE;
    call = size == AGREED ? 0 : call + (size == BEGIN);
    most = call > most ? call : most;
    is_spared = is_spared && size != AGREED;
    request = 0;
    return 1;
}

static int is_refusal(void)
{
    needless += place == INSIDE_FREE;
    request += place == INSIDE;
    if (place != INSIDE || is_spared || call != number("REFUSE_CALL") || request != number("REFUSE_NTH"))
        return 0;
    refused++;
    return is_spared = 1;
}

void *malloc(size_t size)
{
    void *block = !is_mark(size) && is_refusal() ? NULL : __libc_malloc(size);
    blocks += block != NULL;
    return block;
}

void *realloc(void *block, size_t size)
{
    void *other = is_refusal() ? NULL : __libc_realloc(block, size);
    blocks += block == NULL && other != NULL;
    return other;
}

void free(void *block)
{
    blocks -= block != NULL;
    __libc_free(block);
}
