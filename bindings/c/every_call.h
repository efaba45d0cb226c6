/* Makes every call of the library, for a hash. Logins are by password, by keys and by both; with a right and a wrong
 * password, and for an unknown user; over messages and over the bytes of a connection.
 *
 * A program that includes this file defines `before` and `after`, which run around each call. `all` has what the calls
 * read and write. A program can hide its secrets between the calls. */
#include "fe2o3_sasl.h"
#include "secrets.h"

#include <string.h>

#define TEXT(words) (const uint8_t *)(words), sizeof(words) - 1
#define GIVEN(text) (text).bytes, (text).len
#define ROOM(text) (text).bytes, sizeof((text).bytes), &(text).len

static void before(const char *name);
static void after(const char *name);

#define CALL(name, ...) (before(#name), last = (uint32_t)fe2o3_##name(__VA_ARGS__), called(#name))
#define CALL_VOID(name, ...) (before(#name), fe2o3_##name(__VA_ARGS__), after(#name))

struct text {
    uint8_t bytes[2048];
    size_t len;
};

static struct {
    /* The password, one without its last character, and a non-ASCII one that SASLprep prepares to the password. */
    struct text password, wrong, typed, prepared;
    /* The salted passwords of the first two, with `salt`. */
    struct text salted, salted_wrong;
    struct text out, user, record_text, line, client_first, server_first, client_final, server_final;
    struct text to_client, to_server;
    struct fe2o3_scram_record record, other, mock, read;
    struct fe2o3_scram_keys keys, other_keys;
    struct fe2o3_scram_client client;
    struct fe2o3_scram_server server;
    struct fe2o3_sasl_client client_side;
    struct fe2o3_sasl_server server_side;
    struct fe2o3_sasl_frame_view view;
    size_t taken, line_number;
    uint32_t number;
} all;

static uint32_t last;
/* (how many calls did not end as they have to) */
static int differences;

static const struct fe2o3_scram_keys no_keys;
static const uint8_t nonce[32] = {1}, salt[16] = {4}, other_salt[16] = {5}, mock_secret[32] = {3};
#define USER TEXT("us,er")
#define IDENTITY TEXT("app,=x")
#define ITERATIONS 64

static uint32_t called(const char *name)
{
    after(name);
    return last;
}

static void expect(uint32_t status, uint32_t due) { differences += status != due; }

/* The calls without a secret. */
static void library(void)
{
    static struct fe2o3_text text = FE2O3_TEXT_INIT;
    struct fe2o3_connection connection = {0};
    before("version");
    last = fe2o3_version();
    after("version");
    CALL(size, FE2O3_SIZE_OF_LOGIN);
    CALL_VOID(status_text, FE2O3_OK, &text);
    CALL_VOID(scram_server_error_text, FE2O3_SERVER_ERROR_INVALID_PROOF, &text);
    CALL_VOID(sasl_end_of_input, &connection);
    expect(connection.why, FE2O3_END_OF_INPUT);
}

/* The records and keys of the password. */
static void records(uint32_t version)
{
    uint32_t digest = version == FE2O3_SHA_1 ? 20 : version / 8;
    expect(CALL(saslprep, GIVEN(all.typed), FE2O3_UNASSIGNED_REFUSED, ROOM(all.prepared)), FE2O3_OK);
    expect(CALL(scram_record_make, version, FE2O3_TYPED, GIVEN(all.wrong), salt, sizeof salt, ITERATIONS, &all.record),
        FE2O3_OK);
    expect(CALL(scram_record_make, version, FE2O3_PREPARED, GIVEN(all.prepared), other_salt, sizeof other_salt,
               ITERATIONS, &all.other),
        FE2O3_OK);
    expect(
        CALL(scram_record_make, version, FE2O3_TYPED, GIVEN(all.password), salt, sizeof salt, ITERATIONS, &all.record),
        FE2O3_OK);
    expect(CALL(scram_record_verify, &all.record, FE2O3_TYPED, GIVEN(all.password)), FE2O3_OK);
    expect(CALL(scram_record_verify, &all.record, FE2O3_PREPARED, GIVEN(all.wrong)), FE2O3_OTHER_PASSWORD);
    expect(CALL(scram_record_of_salted, version, GIVEN(all.salted), salt, sizeof salt, ITERATIONS, &all.read),
        FE2O3_OK);
    expect(CALL(scram_record_verify_salted, &all.read, GIVEN(all.salted)), FE2O3_OK);
    expect(CALL(scram_record_verify_salted, &all.record, GIVEN(all.salted_wrong)), FE2O3_OTHER_PASSWORD);
    expect(CALL(scram_record_from_fields, version, salt, sizeof salt, ITERATIONS, all.record.stored_key, digest,
               all.record.server_key, digest, &all.read),
        FE2O3_OK);
    expect(CALL(scram_record_text, &all.record, ROOM(all.record_text)), FE2O3_OK);
    expect(CALL(scram_record_parse, GIVEN(all.record_text), &all.read), FE2O3_OK);
    expect(CALL(scram_line, USER, &all.record, ROOM(all.line)), FE2O3_OK);
    expect(CALL(scram_lines_find, GIVEN(all.line), USER, version, &all.line_number, &all.read), FE2O3_OK);
    expect(CALL(scram_lines_all_have, GIVEN(all.line), version, &all.line_number, &all.number), FE2O3_OK);
    expect(CALL(scram_record_mock, version, mock_secret, 32, TEXT("who"), sizeof salt, ITERATIONS, &all.mock),
        FE2O3_OK);
    expect(CALL(scram_keys_of_salted, version, GIVEN(all.salted), salt, sizeof salt, ITERATIONS, &all.keys), FE2O3_OK);
    expect(CALL(scram_keys_make, version, FE2O3_PREPARED, GIVEN(all.password), other_salt, sizeof other_salt,
               ITERATIONS, &all.other_keys),
        FE2O3_OK);
    expect(CALL(scram_keys_make, version, FE2O3_TYPED, GIVEN(all.password), salt, sizeof salt, ITERATIONS, &all.keys),
        FE2O3_OK);
}

/* A login over messages against this record, which ends in a call with this status. */
static void messages(const struct fe2o3_login *login, const struct fe2o3_scram_record *record, uint32_t due)
{
    static const struct fe2o3_scram_rules rules = FE2O3_SCRAM_RULES_INIT;
    uint32_t status;
    memset(&all.client, 0, sizeof all.client);
    memset(&all.server, 0, sizeof all.server);
    expect(CALL(scram_client_first, login, &all.client, nonce, ROOM(all.client_first)), FE2O3_OK);
    expect(CALL(scram_server_claimed_user, &rules, GIVEN(all.client_first), ROOM(all.user)), FE2O3_OK);
    expect(CALL(scram_server_claimed_identity, &rules, GIVEN(all.client_first), ROOM(all.out)), FE2O3_OK);
    expect(
        CALL(scram_server_first, &rules, record, &all.server, nonce, GIVEN(all.client_first), ROOM(all.server_first)),
        FE2O3_OK);
    status = CALL(scram_client_final, login, &all.client, GIVEN(all.server_first), ROOM(all.client_final));
    if (status == FE2O3_OK)
        status = CALL(scram_server_final, &rules, record, &all.server, GIVEN(all.client_final), ROOM(all.server_final));
    if (status == FE2O3_OK) {
        status = CALL(scram_client_verify, login, &all.client, GIVEN(all.server_final));
        expect(CALL(scram_server_authenticated_user, &all.server, ROOM(all.user)), FE2O3_OK);
        expect(CALL(scram_server_acts_for, &all.server, ROOM(all.out)), FE2O3_OK);
        expect(CALL(scram_client_get_keys, &all.client, &all.other_keys), FE2O3_OK);
    } else if (all.server.state == FE2O3_SCRAM_SERVER_CHALLENGE_OPEN) {
        CALL(scram_server_error_message, status, ROOM(all.out));
        CALL(scram_server_error, GIVEN(all.out));
        CALL(scram_client_verify, login, &all.client, GIVEN(all.out));
    }
    expect(status, due);
}

/* A login over messages that acts for an identity. */
static void acting_messages(const struct fe2o3_login *login)
{
    static struct fe2o3_scram_rules rules;
    rules.accept_authzid = 1;
    rules.identities = (const uint8_t *)"app,=x";
    rules.identities_len = 6;
    memset(&all.client, 0, sizeof all.client);
    memset(&all.server, 0, sizeof all.server);
    expect(CALL(scram_client_first, login, &all.client, nonce, ROOM(all.client_first)), FE2O3_OK);
    expect(CALL(scram_server_claimed_user, &rules, GIVEN(all.client_first), ROOM(all.user)), FE2O3_OK);
    expect(CALL(scram_server_claimed_identity, &rules, GIVEN(all.client_first), ROOM(all.out)), FE2O3_OK);
    expect(CALL(scram_server_first, &rules, &all.record, &all.server, nonce, GIVEN(all.client_first),
               ROOM(all.server_first)),
        FE2O3_OK);
    expect(CALL(scram_client_final, login, &all.client, GIVEN(all.server_first), ROOM(all.client_final)), FE2O3_OK);
    expect(CALL(scram_server_final, &rules, &all.record, &all.server, GIVEN(all.client_final), ROOM(all.server_final)),
        FE2O3_OK);
    expect(CALL(scram_client_verify, login, &all.client, GIVEN(all.server_final)), FE2O3_OK);
    expect(CALL(scram_server_acts_for, &all.server, ROOM(all.out)), FE2O3_OK);
    expect((uint32_t)all.out.len, 6);
}

/* PLAIN and EXTERNAL over messages. */
static void plain_messages(void)
{
    for (uint32_t form = FE2O3_PLAIN_PASSWORDS_TYPED; form <= FE2O3_PLAIN_PASSWORDS_SASLPREP; form++) {
        expect(CALL(plain_message, IDENTITY, USER, GIVEN(all.wrong), ROOM(all.out)), FE2O3_OK);
        expect(CALL(plain_verify, &all.record, 1, form, ITERATIONS, 1, IDENTITY, GIVEN(all.out)),
            FE2O3_SERVER_AUTHENTICATION_FAILED);
        expect(CALL(plain_message, IDENTITY, USER, GIVEN(all.password), ROOM(all.out)), FE2O3_OK);
        expect(CALL(plain_claimed_user, GIVEN(all.out), ROOM(all.user)), FE2O3_OK);
        expect(CALL(plain_claimed_identity, GIVEN(all.out), ROOM(all.user)), FE2O3_OK);
        expect(CALL(plain_verify, &all.mock, 1, form, ITERATIONS, 1, IDENTITY, GIVEN(all.out)),
            FE2O3_SERVER_AUTHENTICATION_FAILED);
        expect(CALL(plain_verify, &all.mock, 0, form, ITERATIONS, 1, IDENTITY, GIVEN(all.out)),
            FE2O3_SERVER_AUTHENTICATION_FAILED);
        expect(CALL(plain_verify, &all.record, 1, form, ITERATIONS, 1, FE2O3_NONE, GIVEN(all.out)),
            FE2O3_SERVER_AUTHENTICATION_FAILED);
        expect(CALL(plain_verify, &all.record, 1, form, ITERATIONS, 1, IDENTITY, GIVEN(all.out)), FE2O3_OK);
    }
    expect(CALL(external_verify, TEXT("peer"), FE2O3_NONE), FE2O3_OK);
}

/* Moves what a side has sent to the other, behind what that has not read. */
static void send(struct text *to)
{
    memcpy(to->bytes + to->len, all.out.bytes, all.out.len);
    to->len += all.out.len;
}

static void drop(struct text *read)
{
    read->len -= all.taken;
    memmove(read->bytes, read->bytes + all.taken, read->len);
    memset(read->bytes + read->len, 0, all.taken);
}

/* A login over the bytes of a connection, until neither side reads. */
static void connection(const struct fe2o3_sasl_login *login, struct fe2o3_sasl_server_config *config, uint32_t due)
{
    memset(&all.client_side, 0, sizeof all.client_side);
    memset(&all.server_side, 0, sizeof all.server_side);
    all.to_client.len = all.to_server.len = 0;
    expect(CALL(sasl_client_open, ROOM(all.out)), FE2O3_OK);
    send(&all.to_server);
    for (int turn = 0; turn < 12 && (all.to_client.len > 0 || all.to_server.len > 0); turn++) {
        if (all.to_server.len > 0) {
            CALL(sasl_wants_nonce, &all.server_side.connection);
            CALL(sasl_peek_frame, &all.server_side.connection, GIVEN(all.to_server), ROOM(all.out));
            config->looked_up = 0;
            config->username_len = 0;
            if (CALL(sasl_server_receive, config, &all.server_side, GIVEN(all.to_server), nonce, &all.taken,
                    ROOM(all.out))
                == FE2O3_NEEDS_RECORDS) {
                config->looked_up = 1;
                config->username_len = all.out.len;
                memcpy(all.user.bytes, all.out.bytes, all.out.len);
                CALL(sasl_server_receive, config, &all.server_side, GIVEN(all.to_server), nonce, &all.taken,
                    ROOM(all.out));
            }
            send(&all.to_client);
            drop(&all.to_server);
        }
        if (all.to_client.len > 0) {
            CALL(sasl_wants_nonce, &all.client_side.connection);
            CALL(sasl_peek_frame, &all.client_side.connection, GIVEN(all.to_client), ROOM(all.out));
            CALL(sasl_view_frame, GIVEN(all.out), &all.view);
            CALL(sasl_offers, GIVEN(all.out), TEXT("PLAIN"));
            CALL(sasl_client_receive, login, &all.client_side, GIVEN(all.to_client), nonce, &all.taken, ROOM(all.out));
            send(&all.to_server);
            drop(&all.to_client);
        }
    }
    /* (which changes nothing after the login) */
    CALL_VOID(sasl_end_of_input, &all.client_side.connection);
    CALL_VOID(sasl_end_of_input, &all.server_side.connection);
    expect(all.client_side.connection.progress, due);
    expect(all.server_side.connection.progress, due);
}

/* Logins by each option of the server. */
static void connections(const struct fe2o3_sasl_login *login, struct fe2o3_sasl_server_config *config, uint32_t due)
{
    static const uint32_t options[] = {0, FE2O3_SIGNATURE_BY_CHALLENGE, FE2O3_INITIAL_RESPONSE_BY_CHALLENGE,
        FE2O3_PLAIN_SASLPREP, FE2O3_STRICT, FE2O3_REJECT_MISPLACED};
    for (size_t which = 0; which < sizeof options / sizeof *options; which++) {
        config->flags = options[which];
        connection(login, config, due);
    }
    config->flags = 0;
}

static void logins(uint32_t version)
{
    static struct fe2o3_login login, by_keys, by_both, wrong, acting;
    static struct fe2o3_sasl_login sasl;
    static struct fe2o3_sasl_server_config config;
    const uint32_t failed = FE2O3_SERVER_AUTHENTICATION_FAILED;
    login = (struct fe2o3_login){.version = version,
        .min_iterations = 1,
        .max_iterations = 4096,
        .username = USER,
        .acts_for = FE2O3_NONE,
        .password = GIVEN(all.password),
        .keys = &no_keys,
        .signature_by_challenge = 1};
    acting = wrong = by_keys = by_both = login;
    acting.acts_for = (const uint8_t *)"app,=x";
    acting.acts_for_len = 6;
    wrong.password_len = all.wrong.len;
    by_keys.secret = FE2O3_BY_KEYS;
    by_both.secret = FE2O3_BY_PASSWORD_AND_KEYS;
    by_keys.keys = by_both.keys = &all.keys;
    messages(&login, &all.record, FE2O3_OK);
    messages(&by_keys, &all.record, FE2O3_OK);
    messages(&by_both, &all.record, FE2O3_OK);
    messages(&by_both, &all.other, FE2O3_OK);
    messages(&by_keys, &all.other, FE2O3_CLIENT_STALE_KEYS);
    messages(&wrong, &all.record, failed);
    messages(&login, &all.mock, failed);
    acting_messages(&acting);
    plain_messages();
    config =
        (struct fe2o3_sasl_server_config){.mechanisms = FE2O3_OFFER_PLAIN | FE2O3_OFFER_ANONYMOUS | FE2O3_OFFER_EXTERNAL
                | (version == FE2O3_SHA_1          ? FE2O3_OFFER_SCRAM_SHA_1
                        : version == FE2O3_SHA_256 ? FE2O3_OFFER_SCRAM_SHA_256
                                                   : FE2O3_OFFER_SCRAM_SHA_512),
            .iterations = ITERATIONS,
            .mock_salt_len = sizeof salt,
            .mock_secret = mock_secret,
            .mock_secret_len = sizeof mock_secret,
            .username = all.user.bytes,
            .records = &all.record,
            .records_count = 1,
            .external_authcid = TEXT("peer"),
            .identities = FE2O3_NONE};
    for (uint32_t mechanism = FE2O3_SCRAM; mechanism <= FE2O3_EXTERNAL; mechanism++) {
        sasl = (struct fe2o3_sasl_login){mechanism, TEXT("host"), login};
        config.records_count = 1;
        connections(&sasl, &config, FE2O3_AUTHENTICATED);
        if (mechanism > FE2O3_PLAIN)
            continue;
        sasl.login = wrong;
        connections(&sasl, &config, FE2O3_FAILED);
        config.accept_authzid = 1;
        sasl.login = acting;
        connections(&sasl, &config, FE2O3_FAILED);
        config.identities = acting.acts_for;
        config.identities_len = acting.acts_for_len;
        connections(&sasl, &config, FE2O3_AUTHENTICATED);
        expect(CALL(scram_server_acts_for, &all.server_side.scram, ROOM(all.out)), FE2O3_OK);
        expect((uint32_t)all.out.len, 6);
        config.accept_authzid = 0;
        config.identities_len = 0;
        sasl.login = login;
        config.records_count = 0;
        connections(&sasl, &config, FE2O3_FAILED);
    }
    sasl = (struct fe2o3_sasl_login){FE2O3_SCRAM, TEXT("host"), by_keys};
    config.records_count = 1;
    connections(&sasl, &config, FE2O3_AUTHENTICATED);
    config.records = &all.other;
    sasl.login = by_both;
    connections(&sasl, &config, FE2O3_AUTHENTICATED);
}

static void unmask(struct text *text, const uint8_t *masked, size_t len)
{
    for (size_t at = 0; at < len; at++)
        text->bytes[at] = masked[at] ^ MASK;
    text->len = len;
}

/* All calls by a hash. */
static void every_call(uint32_t version)
{
    size_t digest = version == FE2O3_SHA_1 ? 20 : version / 8;
    size_t which = version == FE2O3_SHA_1 ? 0 : version / 256;
    memset(&all, 0, sizeof all);
    unmask(&all.password, masked_password, sizeof masked_password);
    unmask(&all.salted, masked_salted[which][0], digest);
    unmask(&all.salted_wrong, masked_salted[which][1], digest);
    library();
    all.wrong = all.password;
    all.wrong.bytes[--all.wrong.len] = 0;
    all.typed = all.password;
    /* (SASLprep maps a soft hyphen to nothing) */
    memcpy(all.typed.bytes + all.typed.len, "\xc2\xad", 2);
    all.typed.len += 2;
    all.view = (struct fe2o3_sasl_frame_view)FE2O3_SASL_FRAME_VIEW_INIT;
    records(version);
    logins(version);
}
