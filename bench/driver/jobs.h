/* The jobs: one call of the library each, and the same work by the peers that have it. */
#ifndef JOBS_H
#define JOBS_H
#include "inputs.h"

enum who {
    LIBRARY,
    OPENSSL,
    OPENSSL_SOFT,
    RUST,
    RUST_SOFT,
    HAND,
    HAND_SOFT,
    POSTGRES,
    GSASL,
    PROTON,
    BLOCKS,
    BLOCKS_SOFT,
    WHOS
};
extern const char *const who_names[WHOS];

/* `run` prepares, and then does the job so many times: what it costs is the difference of two runs. It
   answers WANT or REFUSED where a call does. */
struct job {
    const char *name, *unit;
    double units; /* of one time */
    uint32_t times; /* of one timed run */
    uint32_t which; /* a version, or a frame */
    unsigned whos;
    size_t (*run)(const struct job *, enum who, uint32_t times);
};
extern const struct job jobs[];
extern const int jobs_len;
extern uint32_t copies; /* of a machine, which can do most calls but once: no less than `times` */
extern double own_time; /* of a job that takes its time itself; else negative */
extern struct text answered; /* by the last job */
int has(const struct job *job, enum who who);
#endif
