/* Calls whose secrets are marked as undefined for valgrind's memcheck. It then reports each conditional jump and each
 * address that depends on a secret. constant_time.py runs this program for each call and hash.
 *
 *     constant_time                 prints the names of the calls
 *     constant_time CALL VERSION    makes the call with this hash, and ends with 1 if it returns another status
 *
 * Passwords, salted passwords, keys and the 32 bytes of a mock secret are secrets. Names, nonces, salts, iteration
 * counts and all lengths are not. The two calls `self_test` compare keys in this file, one of them only up to the first
 * difference. */
#include "fe2o3_sasl.h"

#include <stdio.h>
#include <stdlib.h>
#include <string.h>
#include <valgrind/memcheck.h>

#define TEXT(words) (const uint8_t *)(words), sizeof(words) - 1
#define GIVEN(text) (text).bytes, (text).len
#define ROOM(text) (text).bytes, sizeof((text).bytes), &(text).len
#define HIDE(bytes) (void)VALGRIND_MAKE_MEM_UNDEFINED((bytes), sizeof(bytes))
#define HIDE_TEXT(text) (void)VALGRIND_MAKE_MEM_UNDEFINED((text).bytes, (text).len)
#define SHOW(value) (void)VALGRIND_MAKE_MEM_DEFINED(&(value), sizeof(value))
#define ITERATIONS 3

struct text {
    uint8_t bytes[512];
    size_t len;
};

static const uint8_t client_nonce[32] = {1}, server_nonce[32] = {2}, salt[16] = {3};
static const struct fe2o3_scram_rules no_rules = FE2O3_SCRAM_RULES_INIT;

/* What the calls read and write. The client and the server are those of before client_final and server_final, and
 * `answered` is the client after client_final. */
static struct {
    uint32_t version;
    uint8_t secret[32];
    struct text password, prepared, long_password, salted;
    struct fe2o3_scram_record record, prepared_record, salted_record, made;
    struct fe2o3_scram_keys keys, no_keys, made_keys;
    struct fe2o3_login login;
    struct fe2o3_scram_client client, answered;
    struct fe2o3_scram_server server;
    struct text client_first, server_first, client_final, server_final, plain, out;
} all;

static void set(struct text *text, const char *words)
{
    text->len = strlen(words);
    memcpy(text->bytes, words, text->len);
}

static size_t digest_len(void) { return all.version == FE2O3_SHA_1 ? 20 : all.version == FE2O3_SHA_256 ? 32 : 64; }

static uint32_t make_record(uint32_t form, const struct text *password, struct fe2o3_scram_record *record)
{
    return fe2o3_scram_record_make(all.version, form, GIVEN(*password), salt, sizeof salt, ITERATIONS, record);
}

static uint32_t make_keys(uint32_t form, const struct text *password, struct fe2o3_scram_keys *keys)
{
    return fe2o3_scram_keys_make(all.version, form, GIVEN(*password), salt, sizeof salt, ITERATIONS, keys);
}

static uint32_t make_salted_record(struct fe2o3_scram_record *record)
{
    return fe2o3_scram_record_of_salted(all.version, GIVEN(all.salted), salt, sizeof salt, ITERATIONS, record);
}

/* Makes the records and keys, and a whole login, with nothing marked. */
static uint32_t prepare(uint32_t version)
{
    uint32_t failed;
    struct fe2o3_scram_server server;
    all.version = version;
    memset(all.secret, 4, sizeof all.secret);
    set(&all.password, "correct horse, battery staple");
    set(&all.prepared, "p\xc3\xa9ncil \xe2\x82\xac \xf0\x9f\x94\x91, battery staple");
    memset(all.long_password.bytes, 'x', all.long_password.len = 200);
    memset(all.salted.bytes, 5, all.salted.len = digest_len());
    all.login = (struct fe2o3_login){.version = version,
        .min_iterations = 1,
        .max_iterations = 100,
        .username = TEXT("user"),
        .acts_for = FE2O3_NONE,
        .password = GIVEN(all.password),
        .keys = &all.no_keys};
    failed = make_record(FE2O3_TYPED, &all.password, &all.record);
    failed |= make_record(FE2O3_PREPARED, &all.prepared, &all.prepared_record);
    failed |= make_salted_record(&all.salted_record);
    failed |= make_keys(FE2O3_TYPED, &all.password, &all.keys);
    failed |= fe2o3_scram_client_first(&all.login, &all.client, client_nonce, ROOM(all.client_first));
    failed |= fe2o3_scram_server_first(&no_rules, &all.record, &all.server, server_nonce, GIVEN(all.client_first),
        ROOM(all.server_first));
    all.answered = all.client;
    server = all.server;
    failed |= fe2o3_scram_client_final(&all.login, &all.answered, GIVEN(all.server_first), ROOM(all.client_final));
    failed |=
        fe2o3_scram_server_final(&no_rules, &all.record, &server, GIVEN(all.client_final), ROOM(all.server_final));
    failed |= fe2o3_plain_message(FE2O3_NONE, TEXT("user"), GIVEN(all.password), ROOM(all.plain));
    return failed;
}

static void hide_keys(struct fe2o3_scram_record *record)
{
    HIDE(record->stored_key);
    HIDE(record->server_key);
}

static void hide_passwords(void)
{
    HIDE_TEXT(all.password);
    HIDE_TEXT(all.prepared);
    HIDE_TEXT(all.long_password);
}

/* Changes the first character of the value of an attribute, which stays base64. */
static void spoil(struct text *message, const char *attribute)
{
    size_t at = message->len;
    while (at > 2 && memcmp(message->bytes + at - 2, attribute, 2) != 0)
        at--;
    message->bytes[at] = message->bytes[at] == 'A' ? 'B' : 'A';
}

static uint32_t record_make_typed(void)
{
    hide_passwords();
    return make_record(FE2O3_TYPED, &all.password, &all.made);
}

static uint32_t record_make_prepared(void)
{
    hide_passwords();
    return make_record(FE2O3_PREPARED, &all.prepared, &all.made);
}

/* A password that HMAC hashes first, since it is longer than a block. */
static uint32_t record_make_long(void)
{
    hide_passwords();
    return make_record(FE2O3_PREPARED, &all.long_password, &all.made);
}

static uint32_t keys_make_typed(void)
{
    hide_passwords();
    return make_keys(FE2O3_TYPED, &all.password, &all.made_keys);
}

static uint32_t keys_make_prepared(void)
{
    hide_passwords();
    return make_keys(FE2O3_PREPARED, &all.prepared, &all.made_keys);
}

static uint32_t client_final(void)
{
    return fe2o3_scram_client_final(&all.login, &all.client, GIVEN(all.server_first), ROOM(all.out));
}

static uint32_t client_final_typed(void)
{
    hide_passwords();
    return client_final();
}

static uint32_t client_final_prepared(void)
{
    all.login.form = FE2O3_PREPARED;
    all.login.password = all.prepared.bytes;
    all.login.password_len = all.prepared.len;
    hide_passwords();
    return client_final();
}

static uint32_t client_final_keys(void)
{
    all.login.secret = FE2O3_BY_KEYS;
    all.login.password_len = 0;
    all.login.keys = &all.keys;
    HIDE(all.keys.client_key);
    HIDE(all.keys.server_key);
    return client_final();
}

static uint32_t server_final_right(void)
{
    hide_keys(&all.record);
    return fe2o3_scram_server_final(&no_rules, &all.record, &all.server, GIVEN(all.client_final), ROOM(all.out));
}

static uint32_t server_final_wrong(void)
{
    spoil(&all.client_final, "p=");
    return server_final_right();
}

static uint32_t client_verify_right(void)
{
    HIDE(all.answered.signature);
    HIDE(all.answered.keys.client_key);
    HIDE(all.answered.keys.server_key);
    return fe2o3_scram_client_verify(&all.login, &all.answered, GIVEN(all.server_final));
}

static uint32_t client_verify_wrong(void)
{
    spoil(&all.server_final, "v=");
    return client_verify_right();
}

static uint32_t record_verify_right(void)
{
    hide_keys(&all.record);
    return fe2o3_scram_record_verify(&all.record, FE2O3_TYPED, GIVEN(all.password));
}

static uint32_t record_verify_wrong(void)
{
    hide_keys(&all.record);
    return fe2o3_scram_record_verify(&all.record, FE2O3_TYPED, GIVEN(all.long_password));
}

static uint32_t record_verify_typed(void)
{
    hide_passwords();
    return fe2o3_scram_record_verify(&all.record, FE2O3_TYPED, GIVEN(all.password));
}

static uint32_t record_verify_prepared(void)
{
    hide_passwords();
    return fe2o3_scram_record_verify(&all.prepared_record, FE2O3_PREPARED, GIVEN(all.prepared));
}

static uint32_t record_of_salted(void)
{
    HIDE_TEXT(all.salted);
    return make_salted_record(&all.made);
}

static uint32_t record_verify_salted(void)
{
    HIDE_TEXT(all.salted);
    return fe2o3_scram_record_verify_salted(&all.salted_record, GIVEN(all.salted));
}

/* (of the password, so it is another one) */
static uint32_t record_verify_salted_wrong(void)
{
    HIDE_TEXT(all.salted);
    hide_keys(&all.record);
    return fe2o3_scram_record_verify_salted(&all.record, GIVEN(all.salted));
}

static uint32_t keys_of_salted(void)
{
    HIDE_TEXT(all.salted);
    return fe2o3_scram_keys_of_salted(all.version, GIVEN(all.salted), salt, sizeof salt, ITERATIONS, &all.made_keys);
}

static uint32_t record_mock(void)
{
    HIDE(all.secret);
    return fe2o3_scram_record_mock(all.version, all.secret, sizeof all.secret, TEXT("user"), sizeof salt, ITERATIONS,
        &all.made);
}

static uint32_t record_text(void)
{
    hide_keys(&all.record);
    return fe2o3_scram_record_text(&all.record, ROOM(all.out));
}

static uint32_t plain_verify_right(void)
{
    hide_keys(&all.record);
    return fe2o3_plain_verify(&all.record, 1, FE2O3_PLAIN_PASSWORDS_TYPED, ITERATIONS, 0, FE2O3_NONE, GIVEN(all.plain));
}

static uint32_t plain_verify_wrong(void)
{
    all.plain.bytes[all.plain.len - 1] ^= 1;
    return plain_verify_right();
}

static uint32_t plain_verify_typed(void)
{
    (void)VALGRIND_MAKE_MEM_UNDEFINED(all.plain.bytes + all.plain.len - all.password.len, all.password.len);
    return fe2o3_plain_verify(&all.record, 1, FE2O3_PLAIN_PASSWORDS_TYPED, ITERATIONS, 0, FE2O3_NONE, GIVEN(all.plain));
}

static uint32_t plain_verify_prepared(void)
{
    (void)fe2o3_plain_message(FE2O3_NONE, TEXT("user"), GIVEN(all.prepared), ROOM(all.plain));
    (void)VALGRIND_MAKE_MEM_UNDEFINED(all.plain.bytes + all.plain.len - all.prepared.len, all.prepared.len);
    return fe2o3_plain_verify(&all.prepared_record, 1, FE2O3_PLAIN_PASSWORDS_PREPARED, ITERATIONS, 0, FE2O3_NONE,
        GIVEN(all.plain));
}

__attribute__((noinline)) static int same_whole(const uint8_t *left, const uint8_t *right, size_t len)
{
    uint8_t turned = 0;
    for (size_t at = 0; at < len; at++)
        turned |= left[at] ^ right[at];
    return turned == 0;
}

__attribute__((noinline)) static int same_early(const uint8_t *left, const uint8_t *right, size_t len)
{
    for (size_t at = 0; at < len; at++)
        if (left[at] != right[at])
            return 0;
    return 1;
}

static uint32_t self_test_whole(void)
{
    struct fe2o3_scram_record copy = all.record;
    hide_keys(&all.record);
    if (!same_whole(all.record.stored_key, copy.stored_key, digest_len()))
        return FE2O3_SERVER_AUTHENTICATION_FAILED;
    all.out.len = 1;
    return FE2O3_OK;
}

static uint32_t self_test_early(void)
{
    struct fe2o3_scram_record copy = all.record;
    hide_keys(&all.record);
    if (!same_early(all.record.stored_key, copy.stored_key, digest_len()))
        return FE2O3_SERVER_AUTHENTICATION_FAILED;
    all.out.len = 1;
    return FE2O3_OK;
}

static const struct {
    const char *name;
    uint32_t (*run)(void);
    uint32_t status;
} calls[] = {
    {"record_make:typed", record_make_typed, FE2O3_OK},
    {"record_make:prepared", record_make_prepared, FE2O3_OK},
    {"record_make:long", record_make_long, FE2O3_OK},
    {"record_verify:right", record_verify_right, FE2O3_OK},
    {"record_verify:wrong", record_verify_wrong, FE2O3_OTHER_PASSWORD},
    {"record_verify:typed", record_verify_typed, FE2O3_OK},
    {"record_verify:prepared", record_verify_prepared, FE2O3_OK},
    {"record_of_salted", record_of_salted, FE2O3_OK},
    {"record_verify_salted:right", record_verify_salted, FE2O3_OK},
    {"record_verify_salted:wrong", record_verify_salted_wrong, FE2O3_OTHER_PASSWORD},
    {"record_mock", record_mock, FE2O3_OK},
    {"record_text", record_text, FE2O3_OK},
    {"keys_make:typed", keys_make_typed, FE2O3_OK},
    {"keys_make:prepared", keys_make_prepared, FE2O3_OK},
    {"keys_of_salted", keys_of_salted, FE2O3_OK},
    {"client_final:typed", client_final_typed, FE2O3_OK},
    {"client_final:prepared", client_final_prepared, FE2O3_OK},
    {"client_final:keys", client_final_keys, FE2O3_OK},
    {"client_verify:right", client_verify_right, FE2O3_OK},
    {"client_verify:wrong", client_verify_wrong, FE2O3_CLIENT_SERVER_SIGNATURE_MISMATCH},
    {"server_final:right", server_final_right, FE2O3_OK},
    {"server_final:wrong", server_final_wrong, FE2O3_SERVER_AUTHENTICATION_FAILED},
    {"plain_verify:right", plain_verify_right, FE2O3_OK},
    {"plain_verify:wrong", plain_verify_wrong, FE2O3_SERVER_AUTHENTICATION_FAILED},
    {"plain_verify:typed", plain_verify_typed, FE2O3_OK},
    {"plain_verify:prepared", plain_verify_prepared, FE2O3_OK},
    {"self_test:whole", self_test_whole, FE2O3_OK},
    {"self_test:early", self_test_early, FE2O3_OK},
};

int main(int count, char **words)
{
    uint32_t status;
    if (count == 1)
        for (size_t at = 0; at < sizeof calls / sizeof calls[0]; at++)
            puts(calls[at].name);
    if (count != 3)
        return count != 1;
    if (prepare((uint32_t)strtoul(words[2], NULL, 10)) != FE2O3_OK) {
        printf("nothing was marked: a call of the preparation failed\n");
        return 1;
    }
    for (size_t at = 0; at < sizeof calls / sizeof calls[0]; at++)
        if (strcmp(calls[at].name, words[1]) == 0) {
            status = calls[at].run();
            SHOW(status);
            printf("status %u\n", (unsigned)status);
            return status != calls[at].status;
        }
    printf("no such call\n");
    return 1;
}
