/* Under callgrind: a dump of the instructions of one call of each export, with the texts and the bodies of
   ../driver/inputs.c. Each call is made once before it is counted, so that the heap is as it will be, and counted
   twice. A dump is named JOB WHICH, and WHICH is 1 or 2. */
#include "../../bindings/c/fe2o3_sasl.h"
#include <stdio.h>
#include <stdlib.h>
#include <string.h>
#include <valgrind/callgrind.h>

#define TEXT(words) (const uint8_t *)(words), sizeof(words) - 1
#define GIVEN(text) (text).bytes, (text).len
#define ROOM(text) (text).bytes, sizeof((text).bytes), &(text).len

enum { VERSIONS = 3, FRAMES = 5 };
struct text {
    uint8_t bytes[1024];
    size_t len;
};
static const uint32_t versions[VERSIONS] = {FE2O3_SHA_1, FE2O3_SHA_256, FE2O3_SHA_512};
static uint8_t client_nonce[32], server_nonce[32], salt[32];
static const struct fe2o3_scram_rules no_rules = FE2O3_SCRAM_RULES_INIT;

/* What a login of each version is made of, and comes to: the structs before each call, and its texts. */
static struct login {
    struct fe2o3_login who;
    struct fe2o3_scram_record record;
    struct fe2o3_scram_keys keys;
    struct fe2o3_scram_client started, answered, complete;
    struct fe2o3_scram_server open;
    struct text client_first, server_first, client_final, server_final, record_text, line;
} logins[VERSIONS];

/* What the calls write. */
static struct fe2o3_scram_client client;
static struct fe2o3_scram_server server;
static struct fe2o3_scram_record record;
static struct fe2o3_scram_keys keys;
static struct fe2o3_sasl_frame_view view = FE2O3_SASL_FRAME_VIEW_INIT;
static struct text out;
static size_t line;

static void need(uint32_t status, const char *what)
{
    if (status == FE2O3_OK)
        return;
    fprintf(stderr, "%s answers %u\n", what, (unsigned)status);
    exit(2);
}

/* A call, whose structs are set before each time. */
#define COUNT(job, set, call) \
    do { \
        for (int which = 0; which < 3; which++) { \
            char name[100]; \
            uint32_t status; \
            snprintf(name, sizeof name, "%s %d", job, which); \
            set; \
            if (which > 0) \
                CALLGRIND_START_INSTRUMENTATION; \
            status = (call); \
            if (which > 0) { \
                CALLGRIND_STOP_INSTRUMENTATION; \
                CALLGRIND_DUMP_STATS_AT(name); \
            } \
            need(status, job); \
        } \
    } while (0)

static void make_login(struct login *login, uint32_t version)
{
    login->who = (struct fe2o3_login){version, 0, FE2O3_TYPED, 1, UINT32_MAX, TEXT("user"), FE2O3_NONE, TEXT("pencil"),
        &login->keys, 0, 0, 0, 0, 0, {0}};
    need(fe2o3_scram_record_make(version, FE2O3_TYPED, TEXT("pencil"), salt, sizeof salt, 1, &login->record),
        "a record");
    need(fe2o3_scram_keys_make(version, FE2O3_TYPED, TEXT("pencil"), salt, sizeof salt, 1, &login->keys), "keys");
    need(fe2o3_scram_client_first(&login->who, &client, client_nonce, ROOM(login->client_first)), "client-first");
    login->started = client;
    need(fe2o3_scram_server_first(&no_rules, &login->record, &server, server_nonce, GIVEN(login->client_first),
             ROOM(login->server_first)),
        "server-first");
    login->open = server;
    need(fe2o3_scram_client_final(&login->who, &client, GIVEN(login->server_first), ROOM(login->client_final)),
        "client-final");
    login->answered = client;
    need(fe2o3_scram_server_final(&no_rules, &login->record, &server, GIVEN(login->client_final),
             ROOM(login->server_final)),
        "server-final");
    need(fe2o3_scram_client_verify(&login->who, &client, GIVEN(login->server_final)), "verify");
    login->complete = client;
    need(fe2o3_scram_record_text(&login->record, ROOM(login->record_text)), "the text of a record");
    need(fe2o3_scram_line(TEXT("user"), &login->record, ROOM(login->line)), "a line");
}

static void messages(struct login *login, uint32_t version)
{
    char job[40];
    struct fe2o3_login by_keys = login->who;
    by_keys.secret = 1;
#define JOB(name) (snprintf(job, sizeof job, "%s-sha%u", name, (unsigned)version), job)
    COUNT(JOB("client-first"), client = login->complete,
        fe2o3_scram_client_first(&login->who, &client, client_nonce, ROOM(out)));
    COUNT(JOB("client-first-by-keys"), client = login->complete,
        fe2o3_scram_client_first(&by_keys, &client, client_nonce, ROOM(out)));
    COUNT(JOB("server-first"), memset(&server, 0, sizeof server),
        fe2o3_scram_server_first(&no_rules, &login->record, &server, server_nonce, GIVEN(login->client_first),
            ROOM(out)));
    COUNT(JOB("client-final"), client = login->started,
        fe2o3_scram_client_final(&login->who, &client, GIVEN(login->server_first), ROOM(out)));
    COUNT(JOB("client-final-by-keys"), client = login->started,
        fe2o3_scram_client_final(&by_keys, &client, GIVEN(login->server_first), ROOM(out)));
    COUNT(JOB("server-final"), server = login->open,
        fe2o3_scram_server_final(&no_rules, &login->record, &server, GIVEN(login->client_final), ROOM(out)));
    COUNT(JOB("verify"), client = login->answered,
        fe2o3_scram_client_verify(&login->who, &client, GIVEN(login->server_final)));
    COUNT(JOB("verify-by-keys"), client = login->answered,
        fe2o3_scram_client_verify(&by_keys, &client, GIVEN(login->server_final)));
}

static void records(struct login *login)
{
    COUNT("record-make", (void)0,
        fe2o3_scram_record_make(FE2O3_SHA_256, FE2O3_TYPED, TEXT("pencil"), salt, sizeof salt, 1, &record));
    COUNT("record-write", (void)0, fe2o3_scram_record_text(&login->record, ROOM(out)));
    COUNT("record-read", (void)0, fe2o3_scram_record_parse(GIVEN(login->record_text), &record));
    COUNT("record-verify", (void)0, fe2o3_scram_record_verify(&login->record, FE2O3_TYPED, TEXT("pencil")));
    COUNT("record-of-nobody", (void)0,
        fe2o3_scram_record_mock(FE2O3_SHA_256, salt, sizeof salt, TEXT("nobody"), 32, 1, &record));
    COUNT("keys-make", (void)0,
        fe2o3_scram_keys_make(FE2O3_SHA_256, FE2O3_TYPED, TEXT("pencil"), salt, sizeof salt, 1, &keys));
    COUNT("client-keys", (void)0, fe2o3_scram_client_get_keys(&login->complete, &keys));
    COUNT("server-user", (void)0, fe2o3_scram_server_claimed_user(&no_rules, GIVEN(login->client_first), ROOM(out)));
    COUNT("lines-find", (void)0,
        fe2o3_scram_lines_find(GIVEN(login->line), TEXT("user"), FE2O3_SHA_256, &line, &record));
    COUNT("line-write", (void)0, fe2o3_scram_line(TEXT("user"), &login->record, ROOM(out)));
}

static void views(void)
{
    static const char *const names[FRAMES] = {"mechanisms", "init", "challenge", "response", "outcome"};
    static const char *const heads[FRAMES] = {"\x02\x01\0\0\0\x53\x40\xc0\x13\x01\xe0\x10\x01\xa3\x0dSCRAM-SHA-256",
        "\x02\x01\0\0\0\x53\x41\xc0\x4a\x02\xa3\x0dSCRAM-SHA-256\xa0\x38", "\x02\x01\0\0\0\x53\x42\xc0\x93\x01\xa0\x90",
        "\x02\x01\0\0\0\x53\x43\xc0\x93\x01\xa0\x90", "\x02\x01\0\0\0\x53\x44\xc0\x33\x02\x50\0\xa0\x2e"};
    static const size_t head[FRAMES] = {28, 27, 12, 12, 14}, data[FRAMES] = {0, 56, 144, 144, 46};
    static struct text bodies[FRAMES];
    for (int k = 0; k < FRAMES; k++) {
        char job[40];
        memcpy(bodies[k].bytes, heads[k], head[k]);
        memset(bodies[k].bytes + head[k], 'A', data[k]);
        bodies[k].len = head[k] + data[k];
        snprintf(job, sizeof job, "view-%s", names[k]);
        COUNT(job, (void)0, fe2o3_sasl_view_frame(GIVEN(bodies[k]), &view));
    }
}

int main(void)
{
    memset(client_nonce, 1, 32);
    memset(server_nonce, 2, 32);
    memset(salt, 3, 32);
    for (int k = 0; k < VERSIONS; k++)
        make_login(&logins[k], versions[k]);
    for (int k = 0; k < VERSIONS; k++)
        messages(&logins[k], versions[k]);
    records(&logins[1]);
    views();
    return 0;
}
