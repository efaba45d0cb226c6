/* What a client of Cyrus SASL asks of its application: by prompts, or by callbacks. */
#ifndef FE2O3_PROMPTS_H
#define FE2O3_PROMPTS_H

#include <sasl/sasl.h>
#include <sasl/saslplug.h>
#include <stddef.h>

/* What the application is asked, and its answer. */
struct question {
    unsigned long id;
    const char *prompt, *text;
    size_t len;
};

/* How many questions there are at once. */
enum { QUESTIONS = 3 };

/* Asks everything: SASL_OK with each answer in its place, SASL_INTERACT with prompts that are to be answered, which
 * take the place of those that were, or why there is no answer. Only the authorization name may have none. */
int ask_all(const sasl_utils_t *utils, sasl_interact_t **prompts, struct question asked[QUESTIONS]);

#endif
