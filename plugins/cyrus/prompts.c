#include "prompts.h"

#include <string.h>

static int answered(struct question *one, const char *text, size_t len)
{
    one->text = text;
    one->len = text ? len : 0;
    return text || one->id == SASL_CB_USER ? SASL_OK : SASL_BADPARAM;
}

/* Takes the answer to a prompt, or else that of a callback. */
static int ask(const sasl_utils_t *utils, const sasl_interact_t *prompts, struct question *one)
{
    sasl_callback_ft callback = NULL;
    sasl_secret_t *word = NULL;
    const char *text = NULL;
    void *context = NULL;
    int code;
    for (; prompts && prompts->id != SASL_CB_LIST_END; prompts++)
        if (prompts->id == one->id)
            return answered(one, prompts->result, prompts->len);
    code = utils->getcallback(utils->conn, one->id, &callback, &context);
    if (code != SASL_OK)
        return code == SASL_FAIL && one->id == SASL_CB_USER ? SASL_OK : code;
    if (one->id == SASL_CB_PASS)
        code = ((sasl_getsecret_t *)(void (*)(void))callback)(utils->conn, context, SASL_CB_PASS, &word);
    else
        code = ((sasl_getsimple_t *)(void (*)(void))callback)(context, (int)one->id, &text, NULL);
    if (code != SASL_OK)
        return code;
    return word ? answered(one, (const char *)word->data, word->len) : answered(one, text, text ? strlen(text) : 0);
}

int ask_all(const sasl_utils_t *utils, sasl_interact_t **prompts, struct question asked[QUESTIONS])
{
    sasl_interact_t open[QUESTIONS + 1] = {{.id = SASL_CB_LIST_END}};
    unsigned count = 0;
    int code = SASL_OK;
    for (int i = 0; code == SASL_OK && i < QUESTIONS; i++) {
        code = ask(utils, prompts ? *prompts : NULL, &asked[i]);
        if (code == SASL_INTERACT && prompts) {
            open[count++] = (sasl_interact_t){.id = asked[i].id, .prompt = asked[i].prompt};
            code = SASL_OK;
        }
    }
    if (prompts && *prompts) {
        utils->free(*prompts);
        *prompts = NULL;
    }
    if (code != SASL_OK || count == 0)
        return code;
    *prompts = utils->malloc(sizeof open);
    if (*prompts)
        memcpy(*prompts, open, sizeof open);
    return *prompts ? SASL_INTERACT : SASL_NOMEM;
}
