/* driver time [ROUNDS [PREFIX]]  least and median of interleaved rounds, and the library's share of each peer
   driver count [PREFIX]          under callgrind: a dump of the instructions of each job of each peer
   driver allocs                  requests for memory of each call
   driver refuse                  refuses each request for memory of each call in turn
   driver grow [PREFIX]           under callgrind: a dump for each input and size */
#include "grow.h"
#include "jobs.h"
#include "memory.h"
#include "peers.h"
#include <stdio.h>
#include <stdlib.h>
#include <string.h>
#if __has_include(<valgrind/callgrind.h>)
#include <valgrind/callgrind.h>
#else
#define CALLGRIND_START_INSTRUMENTATION (void)0
#define CALLGRIND_STOP_INSTRUMENTATION (void)0
#define CALLGRIND_DUMP_STATS_AT(name) (void)(name)
#endif

static int begins(const char *name, const char *prefix) { return !strncmp(name, prefix, strlen(prefix)); }

/* Time: of the job, and of its preparation alone, which is taken off. */
struct round {
    double whole, none;
};
static struct round timed_run(const struct job *job, enum who who, int *good)
{
    struct round round = {0, 0};
    own_time = -1;
    copies = job->times;
    double start = thread_time();
    size_t all = job->run(job, who, job->times);
    round.whole = own_time >= 0 ? own_time : thread_time() - start;
    *good = *good && all < REFUSED;
    if (own_time >= 0)
        return round;
    start = thread_time();
    job->run(job, who, 0);
    round.none = thread_time() - start;
    return round;
}
static int compare(const void *a, const void *b)
{
    double x = *(const double *)a, y = *(const double *)b;
    return x < y ? -1 : x > y;
}
static int same_answer(const struct job *job, enum who who, const struct text *wanted)
{
    if (who == BLOCKS || who == BLOCKS_SOFT || who >= POSTGRES)
        return 1;
    return !begins(job->name, "h") || !memcmp(wanted->bytes, answered.bytes, digest_len(job->which));
}
/* The least, or the median, of a unit: each of the whole and of the preparation by itself. */
static double of_rounds(const struct job *job, const struct round *all, int rounds, int place)
{
    double *whole = own_memory(rounds * sizeof *whole), *none = own_memory(rounds * sizeof *none);
    for (int r = 0; r < rounds; r++)
        whole[r] = all[r].whole, none[r] = all[r].none;
    qsort(whole, rounds, sizeof *whole, compare);
    qsort(none, rounds, sizeof *none, compare);
    return (whole[place] - none[place]) / job->times / job->units;
}
static int time_job(const struct job *job, int rounds)
{
    struct round *all = own_memory(WHOS * rounds * sizeof *all);
    struct text wanted = {0};
    int good = 1;
    for (int round = 0; round < rounds; round++)
        for (int who = 0; who < WHOS && good; who++) {
            if (!has(job, who))
                continue;
            all[who * rounds + round] = timed_run(job, who, &good);
            if (who == LIBRARY)
                wanted = answered;
            good = good && same_answer(job, who, &wanted);
            if (!good)
                fprintf(stderr, "%s by %s: refused, or another answer\n", job->name, who_names[who]);
        }
    for (int who = 0; who < WHOS && good; who++) {
        if (!has(job, who))
            continue;
        double least = of_rounds(job, all + who * rounds, rounds, 0);
        double median = of_rounds(job, all + who * rounds, rounds, rounds / 2);
        printf("%-28s %-18s %-10s %12.1f %12.1f %8.2f\n", job->name, who_names[who], job->unit, least, median,
            of_rounds(job, all, rounds, 0) / least);
    }
    fflush(stdout);
    return good;
}
static int time_all(int rounds, const char *prefix)
{
    int good = 1;
    printf("%-28s %-18s %-10s %12s %12s %8s\n", "job", "who", "a", "least ns", "median ns", "ours/it");
    for (int j = 0; j < jobs_len; j++)
        if (begins(jobs[j].name, prefix))
            good = time_job(&jobs[j], rounds) && good;
    return good ? 0 : 1;
}

/* Instructions. */
static size_t counted(const char *mark, const struct job *job, enum who who, uint32_t times)
{
    char name[200];
    snprintf(name, sizeof name, "%s %s %d %.0f", mark, who_names[who], (int)times, job->units);
    job->run(job, who, 0); /* so that the heap before each count is alike */
    CALLGRIND_START_INSTRUMENTATION;
    size_t answer = job->run(job, who, times);
    CALLGRIND_STOP_INSTRUMENTATION;
    CALLGRIND_DUMP_STATS_AT(name);
    return answer;
}
/* Valgrind shows no SHA instructions, so that these would be counted twice. */
static int is_counted_as_another(enum who who)
{
    return who == OPENSSL_SOFT || who == RUST_SOFT || who == HAND_SOFT || who == BLOCKS_SOFT;
}
static int count_all(const char *prefix)
{
    int status = 0;
    for (int j = 0; j < jobs_len; j++)
        for (int who = 0; who < WHOS; who++) {
            const struct job *job = &jobs[j];
            int is_hi = begins(job->name, "hi-");
            if (!begins(job->name, prefix) || !has(job, who) || is_counted_as_another(who))
                continue;
            if (who == POSTGRES || (who == GSASL && !is_hi))
                continue;
            job->run(job, who, is_hi ? 0 : 1);
            if (counted(job->name, job, who, 0) >= REFUSED || counted(job->name, job, who, 1) >= REFUSED) {
                fprintf(stderr, "%s by %s: refused\n", job->name, who_names[who]);
                status = 1;
            }
        }
    return status;
}
static int grow_all(const char *prefix)
{
    for (int g = 0; g < growths_len; g++) {
        const struct growth *growth = &growths[g];
        if (!begins(growth->name, prefix))
            continue;
        for (int s = 0; s < SIZES && growth->sizes[s]; s++) {
            size_t size = growth->sizes[s];
            growth->fill(size);
            growth->run(size, 0); /* so that the heap of the two runs below is alike */
            for (int call = 0; call < 2; call++) {
                char name[200];
                snprintf(name, sizeof name, "%s %zu %d %s", growth->name, size, call, growth->input);
                long before = requests;
                size_t asked = bytes_asked;
                CALLGRIND_START_INSTRUMENTATION;
                growth->run(size, call);
                CALLGRIND_STOP_INSTRUMENTATION;
                CALLGRIND_DUMP_STATS_AT(name);
                printf("%s %zu %d %ld %zu\n", growth->name, size, call, requests - before, bytes_asked - asked);
                fflush(stdout);
            }
        }
    }
    return 0;
}

/* Memory. */
/* The preparation of `hi` is a shorter one, which is taken off where time and instructions are counted. */
static int prepares(const struct job *job) { return !begins(job->name, "hi-"); }
static void requests_of(const struct job *job, enum who who, uint32_t times, long *count, size_t *bytes)
{
    long before = requests;
    size_t asked = bytes_asked;
    job->run(job, who, times);
    *count = requests - before;
    *bytes = bytes_asked - asked;
}
static int allocs(void)
{
    for (int j = 0; j < jobs_len; j++)
        for (int who = 0; who < WHOS; who++) {
            long none, one;
            size_t none_bytes, one_bytes;
            const struct job *job = &jobs[j];
            if (!has(job, who) || who == POSTGRES || who == GSASL || who == BLOCKS)
                continue;
            if (is_counted_as_another(who))
                continue;
            job->run(job, who, 1);
            requests_of(job, who, 0, &none, &none_bytes);
            requests_of(job, who, 1, &one, &one_bytes);
            printf("%s %s %ld\n", job->name, who_names[who], prepares(job) ? one - none : one);
        }
    static const char *const calls[] = {"client-first", "server-first", "client-final", "server-final", "validate"};
    gsasl_login(256);
    if (gsasl_login(256))
        for (int k = 0; k < 5; k++)
            printf("%s gsasl %ld\n", calls[k], gsasl_requests[k]);
    return 0;
}
static const char *answer_name(size_t answer)
{
    return answer == WANT ? "out of memory" : answer == REFUSED ? "another refusal" : "an answer";
}
/* Each request of one call in turn, those of its preparation too: how many answers were wrong. */
static int refuse_job(const struct job *job)
{
    int wrong = 0;
    long number = 0, reached = 1;
    size_t whole = job->run(job, LIBRARY, 1);
    if (whole >= REFUSED)
        return 1;
    while (reached) {
        long before = held;
        requests = 0;
        refused_at = ++number;
        size_t answer = job->run(job, LIBRARY, 1);
        reached = requests >= number;
        refused_at = 0;
        if (answer != (reached ? WANT : whole)) {
            wrong++;
            printf("%s: request %ld refused, and the answer is %s\n", job->name, number, answer_name(answer));
        }
        if (held != before) {
            wrong++;
            printf("%s: request %ld refused, and %ld blocks are not given back\n", job->name, number, held - before);
        }
    }
    long none;
    size_t bytes;
    requests_of(job, LIBRARY, 0, &none, &bytes);
    if (!prepares(job))
        none = 0;
    printf("%-28s %4ld requests refused in turn, %ld of them in its preparation: %s\n", job->name, number - 1, none,
        wrong ? "WRONG" : "out of memory each time, nothing lost");
    return wrong;
}
static int refuse(void)
{
    int wrong = 0, calls = 0;
    for (int j = 0; j < jobs_len; j++) {
        if (begins(jobs[j].name, "view"))
            continue;
        wrong += refuse_job(&jobs[j]);
        calls++;
    }
    printf("%d calls, %d wrong answers\n", calls, wrong);
    return wrong ? 1 : 0;
}

int main(int argc, char **argv)
{
    const char *mode = argc > 1 ? argv[1] : "", *prefix = argc > 2 ? argv[2] : "";
    make_inputs();
    if (!strcmp(mode, "grow"))
        return grow_all(prefix);
    if (!strcmp(mode, "refuse"))
        return refuse();
    load_peers();
    if (!strcmp(mode, "time"))
        return time_all(argc > 2 ? atoi(argv[2]) : 31, argc > 3 ? argv[3] : "");
    if (!strcmp(mode, "count"))
        return count_all(prefix);
    if (!strcmp(mode, "allocs"))
        return allocs();
    fprintf(stderr, "usage: driver time [ROUNDS [PREFIX]] | count [PREFIX] | allocs | refuse | grow [PREFIX]\n");
    return 2;
}
