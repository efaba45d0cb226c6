/* Logins in which each request for memory is refused in turn. A call that finds no memory says so, has changed nothing,
 * and is done when it is made again; what it took it has given back. Prints a line for each call, and ends with 1 where
 * one of them is not so. The linker puts the functions below in the place of those of C (`--wrap`). */
#include "fe2o3_sasl.h"

#include <stdio.h>
#include <stdlib.h>
#include <string.h>

#define TEXT(words) (const uint8_t *)(words), sizeof(words) - 1
#define GIVEN(text) (text).bytes, (text).len
#define ROOM(text) (text).bytes, sizeof((text).bytes), &(text).len

void *__real_malloc(size_t size);
void *__real_realloc(void *block, size_t size);
void __real_free(void *block);
void *__wrap_malloc(size_t size);
void *__wrap_realloc(void *block, size_t size);
void __wrap_free(void *block);

/* How many requests are granted yet, or -1 for all; whether one was refused; how many blocks are out. */
static long granted = -1, blocks;
static int was_refused;

static int refuses(void)
{
    was_refused |= granted == 0;
    return granted > 0 ? (granted--, 0) : granted == 0;
}

void *__wrap_malloc(size_t size)
{
    void *block = refuses() ? NULL : __real_malloc(size);
    blocks += block != NULL;
    return block;
}

void *__wrap_realloc(void *block, size_t size)
{
    void *other = refuses() ? NULL : __real_realloc(block, size);
    blocks += block == NULL && other != NULL;
    return other;
}

void __wrap_free(void *block)
{
    blocks -= block != NULL;
    __real_free(block);
}

struct text {
    uint8_t bytes[2048];
    size_t len;
};

/* All that the calls write, so that it can be compared. */
static struct {
    struct fe2o3_scram_record record, read, mock;
    struct fe2o3_scram_keys keys;
    struct fe2o3_scram_client client;
    struct fe2o3_scram_server server;
    struct fe2o3_sasl_client client_side;
    struct fe2o3_sasl_server server_side;
    struct text out, client_first, server_first, client_final, server_final, user, line, password;
    size_t taken, line_number;
    uint32_t number;
} all;

static struct fe2o3_scram_keys no_keys;
static const uint8_t nonce[32] = {1}, salt[16] = {4}, secret[32] = {3};
static struct fe2o3_login login;

/* The two sides of a connection, and what has come to the one that is called. */
static struct fe2o3_sasl_login sasl_login;
static struct fe2o3_sasl_server_config config;
static struct text came;

static int differences;

/* Makes a call with no memory from its first request on, from its second, and so on until it is done. */
static void tried(const char *name, uint32_t (*call)(void))
{
    static uint8_t before[sizeof all];
    long requests = 0;
    uint32_t status;
    int holds = 1;
    memcpy(before, &all, sizeof all);
    do {
        was_refused = 0;
        granted = requests;
        status = call();
        granted = -1;
        if (was_refused)
            holds &= status == FE2O3_OUT_OF_MEMORY && memcmp(before, &all, sizeof all) == 0;
        holds &= blocks == 0;
        requests++;
    } while (was_refused && requests < 10000);
    holds &= status == FE2O3_OK;
    printf("%s: %ld requests, %s\n", name, requests - 1, holds ? "ok" : "DIFFERS");
    differences += !holds;
}

static uint32_t make(void)
{
    return fe2o3_scram_record_make(FE2O3_SHA_256, FE2O3_TYPED, TEXT("pencil"), salt, 16, 4096, &all.record);
}
static uint32_t spell(void) { return fe2o3_scram_record_text(&all.record, ROOM(all.out)); }
static uint32_t parse(void) { return fe2o3_scram_record_parse(GIVEN(all.out), &all.read); }
static uint32_t verify_password(void) { return fe2o3_scram_record_verify(&all.record, FE2O3_TYPED, TEXT("pencil")); }
static uint32_t make_keys(void)
{
    return fe2o3_scram_keys_make(FE2O3_SHA_256, FE2O3_TYPED, TEXT("pencil"), salt, 16, 4096, &all.keys);
}
static uint32_t prepare(void)
{
    return fe2o3_saslprep(TEXT("pe\xcc\x81ncil"), FE2O3_UNASSIGNED_REFUSED, ROOM(all.password));
}
static uint32_t make_prepared(void)
{
    return fe2o3_scram_record_make(FE2O3_SHA_256, FE2O3_PREPARED, GIVEN(all.password), salt, 16, 4096, &all.read);
}
static uint32_t verify_prepared(void)
{
    return fe2o3_scram_record_verify(&all.read, FE2O3_PREPARED, GIVEN(all.password));
}
static uint32_t make_prepared_keys(void)
{
    return fe2o3_scram_keys_make(FE2O3_SHA_256, FE2O3_PREPARED, GIVEN(all.password), salt, 16, 4096, &all.keys);
}
static uint32_t make_up(void)
{
    return fe2o3_scram_record_mock(FE2O3_SHA_256, secret, 32, TEXT("who"), 16, 4096, &all.mock);
}
static uint32_t make_from_fields(void)
{
    return fe2o3_scram_record_from_fields(FE2O3_SHA_256, all.record.salt, all.record.salt_len, all.record.iterations,
        all.record.stored_key, 32, all.record.server_key, 32, &all.read);
}
static uint32_t make_keys_of_salted(void)
{
    return fe2o3_scram_keys_of_salted(FE2O3_SHA_256, secret, 32, salt, 16, 4096, &all.keys);
}
static uint32_t make_of_salted(void)
{
    return fe2o3_scram_record_of_salted(FE2O3_SHA_256, secret, 32, salt, 16, 4096, &all.read);
}
static uint32_t verify_salted(void) { return fe2o3_scram_record_verify_salted(&all.read, secret, 32); }
static uint32_t plain(void) { return fe2o3_plain_message(TEXT("app"), TEXT("user"), TEXT("pencil"), ROOM(all.out)); }
static uint32_t plain_user(void) { return fe2o3_plain_claimed_user(TEXT("\0user\0pencil"), ROOM(all.user)); }
static uint32_t plain_identity(void) { return fe2o3_plain_claimed_identity(TEXT("app\0user\0pencil"), ROOM(all.user)); }
static uint32_t verify_plain(void)
{
    return fe2o3_plain_verify(&all.record, 1, FE2O3_PLAIN_PASSWORDS_TYPED, 4096, 1, TEXT("ap\0app\0"),
        TEXT("app\0user\0pencil"));
}
static uint32_t verify_plain_by_saslprep(void)
{
    return fe2o3_plain_verify(&all.record, 1, FE2O3_PLAIN_PASSWORDS_SASLPREP, 4096, 0, FE2O3_NONE,
        TEXT("\0user\0pe\xc2\xadncil"));
}
static uint32_t verify_external(void) { return fe2o3_external_verify(TEXT("pe,er"), FE2O3_NONE); }
static uint32_t first(void) { return fe2o3_scram_client_first(&login, &all.client, nonce, ROOM(all.client_first)); }
static struct fe2o3_scram_rules rules = FE2O3_SCRAM_RULES_INIT;
static uint32_t user(void) { return fe2o3_scram_server_claimed_user(&rules, GIVEN(all.client_first), ROOM(all.user)); }
static uint32_t identity(void)
{
    return fe2o3_scram_server_claimed_identity(&rules, GIVEN(all.client_first), ROOM(all.out));
}
static uint32_t challenge(void)
{
    return fe2o3_scram_server_first(&rules, &all.record, &all.server, nonce, GIVEN(all.client_first),
        ROOM(all.server_first));
}
static uint32_t answer(void)
{
    return fe2o3_scram_client_final(&login, &all.client, GIVEN(all.server_first), ROOM(all.client_final));
}
static uint32_t conclude(void)
{
    return fe2o3_scram_server_final(&rules, &all.record, &all.server, GIVEN(all.client_final), ROOM(all.server_final));
}
static uint32_t verify(void) { return fe2o3_scram_client_verify(&login, &all.client, GIVEN(all.server_final)); }
static uint32_t spell_line(void) { return fe2o3_scram_line(TEXT("us,er"), &all.record, ROOM(all.line)); }
static uint32_t find(void)
{
    return fe2o3_scram_lines_find(GIVEN(all.line), TEXT("us,er"), FE2O3_SHA_256, &all.line_number, &all.read);
}
static uint32_t all_have(void)
{
    return fe2o3_scram_lines_all_have(GIVEN(all.line), FE2O3_SHA_256, &all.line_number, &all.number);
}
static uint32_t begin(void) { return fe2o3_sasl_client_open(ROOM(all.out)); }
static uint32_t client_takes(void)
{
    return fe2o3_sasl_client_receive(&sasl_login, &all.client_side, GIVEN(came), nonce, &all.taken, ROOM(all.out));
}
static uint32_t peek(void) { return fe2o3_sasl_peek_frame(&all.server_side.connection, GIVEN(came), ROOM(all.out)); }
static uint32_t server_asks(void)
{
    uint32_t status;
    config.looked_up = 0;
    status = fe2o3_sasl_server_receive(&config, &all.server_side, GIVEN(came), nonce, &all.taken, ROOM(all.user));
    config.looked_up = 1;
    return status == FE2O3_NEEDS_RECORDS ? FE2O3_OK : status;
}
static uint32_t server_takes(void)
{
    return fe2o3_sasl_server_receive(&config, &all.server_side, GIVEN(came), nonce, &all.taken, ROOM(all.out));
}

/* A side takes what has come to it, and what it sends is what comes to the other. */
static void side_takes(const char *who, uint32_t (*call)(void), const uint32_t *progress)
{
    struct text sent = {{0}, 0};
    do {
        tried(who, call);
        came.len -= all.taken;
        memmove(came.bytes, came.bytes + all.taken, came.len);
        memcpy(sent.bytes + sent.len, all.out.bytes, all.out.len);
        sent.len += all.out.len;
    } while (came.len > 0 && all.taken > 0 && *progress == FE2O3_IN_PROGRESS);
    came = sent;
}

/* A login over the bytes of a connection by this mechanism, whose server learns this user. */
static void connection(uint32_t mechanism, const char *user_name)
{
    struct text told = {{0}, 0};
    memset(&all.client_side, 0, sizeof all.client_side);
    memset(&all.server_side, 0, sizeof all.server_side);
    sasl_login.mechanism = mechanism;
    config.looked_up = 0;
    config.username_len = 0;
    tried("client_open", begin);
    came = all.out;
    while (came.len > 0 && all.server_side.connection.progress == FE2O3_IN_PROGRESS && differences == 0) {
        /* (of the frames that come to a server those of these mechanisms name a user) */
        if (came.bytes[0] == 0 && (mechanism == FE2O3_SCRAM || mechanism == FE2O3_PLAIN)) {
            tried("server_receive, which asks for records", server_asks);
            config.username = all.user.bytes;
            config.username_len = all.user.len;
        }
        side_takes("server_receive", server_takes, &all.server_side.connection.progress);
        side_takes("client_receive", client_takes, &all.client_side.connection.progress);
    }
    differences += all.client_side.connection.progress != FE2O3_AUTHENTICATED
        || all.server_side.connection.progress != FE2O3_AUTHENTICATED
        || (fe2o3_scram_server_authenticated_user(&all.server_side.scram, ROOM(told)) == FE2O3_OK)
            != (user_name != NULL)
        || (user_name != NULL && (told.len != strlen(user_name) || memcmp(told.bytes, user_name, told.len) != 0));
}

/* A connection whose init has no initial response. It comes in a response, which names a user. */
static void late_connection(const uint8_t *init, size_t init_len, const uint8_t *response, size_t response_len)
{
    memset(&all.server_side, 0, sizeof all.server_side);
    config.flags |= FE2O3_INITIAL_RESPONSE_BY_CHALLENGE;
    config.looked_up = 0;
    config.username_len = 0;
    came = (struct text){"AMQP\3\1\0\0", 8};
    tried("server_receive", server_takes);
    memcpy(came.bytes, init, init_len);
    came.len = init_len;
    tried("peek_frame", peek);
    differences += all.out.len != init_len - 4 || memcmp(all.out.bytes, init + 4, init_len - 4) != 0;
    differences += fe2o3_sasl_wants_nonce(&all.server_side.connection) != 1;
    tried("server_receive", server_takes);
    differences += fe2o3_sasl_wants_nonce(&all.server_side.connection) != 0;
    memcpy(came.bytes, response, response_len);
    came.len = response_len;
    tried("server_receive, which asks for records", server_asks);
    config.username = all.user.bytes;
    config.username_len = all.user.len;
    tried("server_receive", server_takes);
    differences += all.user.len != 5 || memcmp(all.user.bytes, "us,er", 5) != 0 || all.out.len < 16;
}

int main(void)
{
    struct fe2o3_server_channels channels;
    login = (struct fe2o3_login){.version = FE2O3_SHA_256,
        .min_iterations = 4096,
        .max_iterations = 4096,
        .username = TEXT("us,er"),
        .acts_for = FE2O3_NONE,
        .password = TEXT("pencil"),
        .keys = &no_keys};
    sasl_login = (struct fe2o3_sasl_login){.hostname = TEXT("host"), .login = login};
    config = (struct fe2o3_sasl_server_config){.mechanisms = FE2O3_OFFER_SCRAM_SHA_256 | FE2O3_OFFER_PLAIN
            | FE2O3_OFFER_ANONYMOUS | FE2O3_OFFER_EXTERNAL,
        .iterations = 4096,
        .mock_salt_len = 16,
        .mock_secret = secret,
        .mock_secret_len = sizeof secret,
        .username = FE2O3_NONE,
        .records = &all.record,
        .records_count = 1,
        .external_authcid = TEXT("pe,er"),
        .identities = FE2O3_NONE};
    tried("record_make", make);
    tried("record_text", spell);
    tried("record_parse", parse);
    tried("record_verify", verify_password);
    tried("record_mock", make_up);
    tried("record_from_fields", make_from_fields);
    tried("keys_of_salted", make_keys_of_salted);
    tried("record_of_salted", make_of_salted);
    tried("record_verify_salted", verify_salted);
    tried("plain_message", plain);
    tried("plain_claimed_user", plain_user);
    tried("plain_claimed_identity", plain_identity);
    tried("plain_verify", verify_plain);
    tried("plain_verify, SASLprep", verify_plain_by_saslprep);
    tried("external_verify", verify_external);
    tried("line", spell_line);
    tried("lines_find", find);
    tried("lines_all_have", all_have);
    tried("saslprep", prepare);
    tried("record_make, prepared", make_prepared);
    tried("record_verify, prepared", verify_prepared);
    tried("keys_make, prepared", make_prepared_keys);
    tried("keys_make", make_keys);
    tried("client_first", first);
    tried("server_user", user);
    tried("server_first", challenge);
    tried("client_final", answer);
    tried("server_final", conclude);
    tried("client_verify", verify);
    login.secret = FE2O3_BY_PASSWORD_AND_KEYS;
    login.form = FE2O3_PREPARED;
    login.keys = &all.keys;
    tried("client_first, prepared", first);
    tried("server_first, prepared", challenge);
    tried("client_final, prepared", answer);
    tried("server_final, prepared", conclude);
    tried("client_verify, prepared", verify);
    rules.channels.binds_channel = 1;
    rules.channels.tls_exporter_len = login.channel_data_len = 32;
    login.channel_use = FE2O3_CHANNEL_BOUND;
    login.channel_kind = FE2O3_TLS_EXPORTER;
    tried("client_first, with a channel", first);
    tried("server_user, with a channel", user);
    tried("server_first, with a channel", challenge);
    tried("client_final, with a channel", answer);
    tried("server_final, with a channel", conclude);
    tried("client_verify, with a channel", verify);
    channels = rules.channels;
    login.channel_use = FE2O3_CHANNEL_ABSENT;
    rules = (struct fe2o3_scram_rules)FE2O3_SCRAM_RULES_INIT;
    rules.accept_authzid = config.accept_authzid = 1;
    rules.identities = config.identities = (const uint8_t *)"app";
    rules.identities_len = config.identities_len = 3;
    sasl_login.login.acts_for = login.acts_for = (const uint8_t *)"app";
    sasl_login.login.acts_for_len = login.acts_for_len = 3;
    tried("client_first, with an identity", first);
    tried("server_claimed_identity", identity);
    tried("server_first, with an identity", challenge);
    tried("client_final, with an identity", answer);
    tried("server_final, with an identity", conclude);
    tried("client_verify, with an identity", verify);
    puts("a connection, SCRAM-SHA-256 with an identity");
    connection(FE2O3_SCRAM, "us,er");
    puts("a connection, PLAIN with an identity");
    connection(FE2O3_PLAIN, "us,er");
    config.accept_authzid = 0;
    sasl_login.login.acts_for_len = 0;
    rules.channels = channels;
    puts("a connection, SCRAM-SHA-256");
    connection(FE2O3_SCRAM, "us,er");
    puts("a connection, SCRAM-SHA-256-PLUS");
    config.channels = rules.channels;
    sasl_login.login.channel_use = FE2O3_CHANNEL_BOUND;
    sasl_login.login.channel_kind = FE2O3_TLS_EXPORTER;
    sasl_login.login.channel_data_len = 32;
    connection(FE2O3_SCRAM, "us,er");
    config.channels.binds_channel = 0;
    sasl_login.login.channel_use = FE2O3_CHANNEL_ABSENT;
    puts("a connection, PLAIN");
    connection(FE2O3_PLAIN, "us,er");
    puts("a connection, ANONYMOUS");
    connection(FE2O3_ANONYMOUS, NULL);
    puts("a connection, EXTERNAL");
    connection(FE2O3_EXTERNAL, "pe,er");
    puts("a connection, SCRAM-SHA-256 without an initial response");
    late_connection(TEXT("\0\0\0\x24\2\1\0\0\0\x53\x41\xc0\x17\3\xa3\15SCRAM-SHA-256\x40\xa1\4host"),
        TEXT("\0\0\0\x22\2\1\0\0\0\x53\x43\xc0\x15\1\xa0\x12n,,n=us=2Cer,r=AAA"));
    puts("a connection, PLAIN without an initial response");
    late_connection(TEXT("\0\0\0\x16\2\1\0\0\0\x53\x41\xc0\11\2\xa3\5PLAIN\x40"),
        TEXT("\0\0\0\x1d\2\1\0\0\0\x53\x43\xc0\x10\1\xa0\15\0us,er\0pencil"));
    differences += all.server_side.connection.progress != FE2O3_AUTHENTICATED;
    return differences != 0;
}
