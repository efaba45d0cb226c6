/* Searches the memory of this program for secrets, after each call of every_call.h. It looks at all memory that can be
 * written: the stack, the heap with what was freed, and all variables. It also looks at the registers that a call may
 * change, and at the end at all memory that can be read. The program hides its own copies before each search.
 *
 * The secrets are the passwords, SaltedPasswords, ClientKeys, StoredKeys and ServerKeys, of which it searches for parts
 * of eight bytes (secrets.py).
 *
 *     secrets            ends with 1 if it finds a secret
 *     secrets unwiped    ends with 1 if it finds none in the heap, none on the stack, or none in registers
 *
 * It prints for each call in how many places it found parts. It reads /proc/self/maps, so it needs Linux. */
#include "every_call.h"
#include "../wiping/wipe.h"

#include <fcntl.h>
#include <stdio.h>
#include <stdlib.h>
#include <unistd.h>

enum region { HEAP, STACK, REGISTERS, ELSEWHERE, REGIONS };
static const char *const region_names[REGIONS] = {"heap", "stack", "registers", "elsewhere"};

#define PIECES (sizeof pieces / sizeof *pieces)

/* The pieces by the low 16 bits of their masked values: numbers of pieces, plus one. */
static uint16_t by_hash[65536];
static uint16_t next_piece[PIECES];

/* What was found after the calls of a name. */
static struct found {
    const char *name;
    unsigned long counts[REGIONS];
} found[64];
static unsigned long totals[REGIONS];

static char maps[65536];

/* The registers after a call that it may change, those of AVX-512 among them if there are some. */
static struct {
    uint64_t general[8];
    uint8_t vectors[16][16];
    uint8_t upper_vectors[16][64];
} registers;

#define SAVE(number) "movups %%xmm" #number ", " #number "*16(%0);"
#define SAVE_UPPER(number) "vmovdqu64 %%zmm" #number ", (" #number "-16)*64(%0);"

static void save_registers(void)
{
#if defined(__x86_64__) && defined(__GNUC__)
    __asm__ volatile("movq %%rcx, 0(%0); movq %%rdx, 8(%0); movq %%rsi, 16(%0); movq %%r8, 24(%0);"
                     "movq %%r9, 32(%0); movq %%r10, 40(%0); movq %%r11, 48(%0)"
                     :
                     : "a"(registers.general)
                     : "memory");
    __asm__ volatile(SAVE(0) SAVE(1) SAVE(2) SAVE(3) SAVE(4) SAVE(5) SAVE(6) SAVE(7) SAVE(8) SAVE(9) SAVE(10) SAVE(11)
                         SAVE(12) SAVE(13) SAVE(14) SAVE(15)
                     :
                     : "a"(registers.vectors)
                     : "memory");
    if (has_upper_vectors())
        __asm__ volatile(SAVE_UPPER(16) SAVE_UPPER(17) SAVE_UPPER(18) SAVE_UPPER(19) SAVE_UPPER(20) SAVE_UPPER(21)
                             SAVE_UPPER(22) SAVE_UPPER(23) SAVE_UPPER(24) SAVE_UPPER(25) SAVE_UPPER(26) SAVE_UPPER(27)
                                 SAVE_UPPER(28) SAVE_UPPER(29) SAVE_UPPER(30) SAVE_UPPER(31)
                         :
                         : "a"(registers.upper_vectors)
                         : "memory");
#endif
}

/* Masks or unmasks what the calls read and wrote. (byte by byte, which leaves nothing in vector registers) */
static void hide(void)
{
    volatile uint8_t *bytes = (volatile uint8_t *)&all;
    for (size_t at = 0; at < sizeof all; at++)
        bytes[at] ^= MASK;
}

static void count(struct found *of, const uint8_t *at, enum region region)
{
    const uint8_t *saved = (const uint8_t *)&registers;
    if (at >= saved && at < saved + sizeof registers)
        region = REGISTERS;
    of->counts[region]++;
    totals[region]++;
}

static void search(struct found *of, const uint8_t *from, const uint8_t *to, enum region region)
{
    for (const uint8_t *at = from; at + 8 <= to; at++) {
        uint64_t masked = 0;
        for (uint16_t one = by_hash[(at[0] ^ MASK) | (at[1] ^ MASK) << 8]; one != 0; one = next_piece[one - 1]) {
            masked = 0;
            for (int byte = 7; byte >= 0; byte--)
                masked = masked << 8 | (uint8_t)(at[byte] ^ MASK);
            if (masked == pieces[one - 1].masked)
                count(of, at, region);
        }
    }
}

/* Searches each mapping that can be read and, unless `whole`, also written. */
static void search_all(struct found *of, int whole)
{
    int file = open("/proc/self/maps", O_RDONLY);
    size_t len = 0;
    ssize_t some;
    char *line, *end;
    while (file >= 0 && (some = read(file, maps + len, sizeof maps - 1 - len)) > 0)
        len += (size_t)some;
    close(file);
    maps[len] = '\0';
    if (len == 0 || len == sizeof maps - 1) {
        puts("/proc/self/maps cannot be read");
        exit(2);
    }
    for (line = maps; (end = strchr(line, '\n')) != NULL; line = end + 1) {
        char *rest;
        unsigned long from = strtoul(line, &rest, 16), to = strtoul(rest + 1, &rest, 16);
        int is_heap = 0, is_stack = 0;
        *end = '\0';
        is_heap = strstr(rest, "[heap]") != NULL || strchr(rest, '/') == NULL;
        is_stack = strstr(rest, "[stack]") != NULL;
        if (rest[1] == 'r' && (whole || rest[2] == 'w') && strstr(rest, "[v") == NULL)
            search(of, (const uint8_t *)from, (const uint8_t *)to, is_stack ? STACK : is_heap ? HEAP : ELSEWHERE);
    }
}

static struct found *found_after(const char *name)
{
    size_t at = 0;
    while (found[at].name != NULL && strcmp(found[at].name, name) != 0)
        at++;
    found[at].name = name;
    return &found[at];
}

static void before(const char *name) { (void)name; }

static void after(const char *name)
{
    save_registers();
    hide();
    search_all(found_after(name), 0);
    hide();
}

static void told(const struct found *one)
{
    printf("%s:", one->name);
    for (int region = 0; region < REGIONS; region++)
        if (one->counts[region] > 0)
            printf(" %s %lu", region_names[region], one->counts[region]);
    puts(one->counts[HEAP] + one->counts[STACK] + one->counts[REGISTERS] + one->counts[ELSEWHERE] > 0 ? "" : " none");
}

int main(int words, char **word)
{
    static const uint32_t versions[] = {FE2O3_SHA_1, FE2O3_SHA_256, FE2O3_SHA_512};
    int unwiped = words == 2 && strcmp(word[1], "unwiped") == 0;
    for (size_t piece = 0; piece < PIECES; piece++) {
        uint16_t *first = &by_hash[pieces[piece].masked & 0xffff];
        next_piece[piece] = *first;
        *first = (uint16_t)(piece + 1);
    }
    for (size_t which = 0; which < 3; which++) {
        every_call(versions[which]);
        fe2o3_wipe(&all, sizeof all);
        search_all(found_after("after all calls"), 1);
    }
    for (struct found *one = found; one->name != NULL; one++)
        told(one);
    printf("parts of secrets found: heap %lu, stack %lu, registers %lu, elsewhere %lu\n", totals[HEAP], totals[STACK],
        totals[REGISTERS], totals[ELSEWHERE]);
    if (differences > 0) {
        printf("%d calls did not end as they have to\n", differences);
        return 1;
    }
    return unwiped ? totals[HEAP] == 0 || totals[STACK] == 0 || totals[REGISTERS] == 0
                   : totals[HEAP] + totals[STACK] + totals[REGISTERS] + totals[ELSEWHERE] > 0;
}
