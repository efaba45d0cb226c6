/* Passes null pointers of length 0 to each call that takes a length, and structs of zeros. A call has to answer as for the
 * address of an empty text, or of other bytes. */
#include "fe2o3_sasl.h"

#include <stdio.h>
#include <string.h>

static int failed;

/* A pointer of length 0: null, or one to no memory of this program. */
static const uint8_t *const pointers[] = {NULL, (const uint8_t *)"", (const uint8_t *)16};
static const uint8_t *none;

static void expect(int line, uint32_t status, uint32_t due)
{
    if (status != due) {
        printf("nulls.c:%d: %u, and not %u\n", line, (unsigned)status, (unsigned)due);
        failed = 1;
    }
}
#define EXPECT(call, due) expect(__LINE__, (uint32_t)(call), due)
#define NOTHING none, 0

static const uint8_t nonce[32] = {1}, secret[32] = {2}, salt[16] = {3};

static void texts(void)
{
    struct fe2o3_scram_record record = FE2O3_SCRAM_RECORD_INIT;
    struct fe2o3_scram_keys keys = FE2O3_SCRAM_KEYS_INIT;
    struct fe2o3_sasl_frame_view view = FE2O3_SASL_FRAME_VIEW_INIT;
    struct fe2o3_text text = FE2O3_TEXT_INIT;
    uint8_t out[512];
    size_t len = 0, line = 0;
    uint32_t iterations = 0;
    fe2o3_status_text(FE2O3_OK, &text);
    EXPECT(text.bytes != NULL && text.bytes_len > 0, 1);
    fe2o3_wipe(NULL, 0);
    EXPECT(fe2o3_saslprep(NOTHING, FE2O3_UNASSIGNED_REFUSED, NULL, 0, &len), FE2O3_OK);
    EXPECT(fe2o3_saslprep((const uint8_t *)"a", 1, FE2O3_UNASSIGNED_REFUSED, NULL, 0, &len), FE2O3_ROOM_TOO_SMALL);
    EXPECT(len, 1);
    EXPECT(fe2o3_scram_record_make(FE2O3_SHA_256, FE2O3_TYPED, NOTHING, NOTHING, 1, &record), FE2O3_OK);
    EXPECT(fe2o3_scram_record_verify(&record, FE2O3_TYPED, NOTHING), FE2O3_OK);
    EXPECT(fe2o3_scram_record_verify_salted(&record, NOTHING), FE2O3_RECORD_KEY_LENGTH_MISMATCH);
    EXPECT(fe2o3_scram_record_text(&record, NULL, 0, &len), FE2O3_ROOM_TOO_SMALL);
    EXPECT(fe2o3_scram_record_parse(NOTHING, &record), FE2O3_RECORD_PARTS_MISMATCH);
    EXPECT(fe2o3_scram_record_from_fields(FE2O3_SHA_1, NOTHING, 1, NOTHING, NOTHING, &record),
        FE2O3_RECORD_KEY_LENGTH_MISMATCH);
    EXPECT(fe2o3_scram_record_mock(FE2O3_SHA_1, secret, sizeof secret, NOTHING, 16, 4096, &record), FE2O3_OK);
    EXPECT(fe2o3_scram_record_of_salted(FE2O3_SHA_1, NOTHING, NOTHING, 1, &record), FE2O3_RECORD_KEY_LENGTH_MISMATCH);
    EXPECT(fe2o3_scram_keys_make(FE2O3_SHA_1, FE2O3_TYPED, NOTHING, NOTHING, 1, &keys), FE2O3_OK);
    EXPECT(fe2o3_scram_keys_of_salted(FE2O3_SHA_1, NOTHING, NOTHING, 1, &keys), FE2O3_RECORD_KEY_LENGTH_MISMATCH);
    EXPECT(fe2o3_scram_lines_find(NOTHING, NOTHING, FE2O3_SHA_1, &line, &record), FE2O3_NO_SUCH_USER);
    EXPECT(fe2o3_scram_lines_all_have(NOTHING, FE2O3_SHA_1, &line, &iterations), FE2O3_OK);
    EXPECT(fe2o3_scram_line(NOTHING, &record, NULL, 0, &len), FE2O3_ROOM_TOO_SMALL);
    EXPECT(fe2o3_scram_server_error(NOTHING), FE2O3_SERVER_ERROR_NONE);
    EXPECT(fe2o3_scram_server_error_message(FE2O3_NO_SUCH_USER, NULL, 0, &len), FE2O3_ROOM_TOO_SMALL);
    EXPECT(fe2o3_plain_message(NOTHING, NOTHING, NOTHING, NULL, 0, &len), FE2O3_NAMES_NO_USER);
    EXPECT(fe2o3_plain_message(NOTHING, (const uint8_t *)"u", 1, NOTHING, out, sizeof out, &len), FE2O3_EMPTY_PASSWORD);
    EXPECT(fe2o3_plain_claimed_user(NOTHING, NULL, 0, &len), FE2O3_NAMES_NO_USER);
    EXPECT(fe2o3_plain_claimed_identity(NOTHING, NULL, 0, &len), FE2O3_NAMES_NO_USER);
    EXPECT(fe2o3_plain_verify(NULL, 0, FE2O3_PLAIN_PASSWORDS_TYPED, 1, 1, NOTHING, NOTHING),
        FE2O3_SERVER_AUTHENTICATION_FAILED);
    EXPECT(fe2o3_plain_verify(NULL, 0, FE2O3_PLAIN_PASSWORDS_TYPED, 1, 0, NOTHING, (const uint8_t *)"\0u\0p", 4),
        FE2O3_SERVER_AUTHENTICATION_FAILED);
    EXPECT(fe2o3_external_verify(NOTHING, NOTHING), FE2O3_SERVER_AUTHENTICATION_FAILED);
    EXPECT(fe2o3_external_verify((const uint8_t *)"peer", 4, NOTHING), FE2O3_OK);
    EXPECT(fe2o3_sasl_view_frame(NOTHING, &view), FE2O3_MALFORMED_FRAME);
    EXPECT(fe2o3_sasl_offers(NOTHING, NOTHING), FE2O3_MALFORMED_FRAME);
    EXPECT(fe2o3_sasl_client_open(NULL, 0, &len), FE2O3_ROOM_TOO_SMALL);
}

/* A login over messages, of a client without keys at a server without identities. */
static void messages(void)
{
    struct fe2o3_scram_rules rules = FE2O3_SCRAM_RULES_INIT;
    struct fe2o3_scram_record record = FE2O3_SCRAM_RECORD_INIT;
    struct fe2o3_scram_client client = FE2O3_SCRAM_CLIENT_INIT;
    struct fe2o3_scram_server server = FE2O3_SCRAM_SERVER_INIT;
    struct fe2o3_login login = FE2O3_LOGIN_INIT;
    uint8_t one[512], two[512];
    size_t one_len = 0, two_len = 0;
    login.version = FE2O3_SHA_256;
    login.min_iterations = login.max_iterations = 1;
    login.username = login.acts_for = login.password = rules.identities = none;
    EXPECT(fe2o3_scram_record_make(FE2O3_SHA_256, FE2O3_TYPED, NOTHING, salt, sizeof salt, 1, &record), FE2O3_OK);
    EXPECT(fe2o3_scram_client_first(&login, &client, nonce, NULL, 0, &one_len), FE2O3_ROOM_TOO_SMALL);
    EXPECT(fe2o3_scram_client_first(&login, &client, nonce, one, sizeof one, &one_len), FE2O3_OK);
    EXPECT(fe2o3_scram_server_claimed_identity(&rules, one, one_len, NULL, 0, &two_len), FE2O3_OK);
    EXPECT(two_len, 0);
    EXPECT(fe2o3_scram_server_first(&rules, &record, &server, nonce, NOTHING, two, sizeof two, &two_len),
        FE2O3_SERVER_CANNOT_PARSE_GS2_HEADER);
    EXPECT(fe2o3_scram_server_first(&rules, &record, &server, nonce, one, one_len, two, sizeof two, &two_len),
        FE2O3_OK);
    EXPECT(fe2o3_scram_client_final(&login, &client, NOTHING, NULL, 0, &one_len), FE2O3_ROOM_TOO_SMALL);
    EXPECT(fe2o3_scram_client_final(&login, &client, two, two_len, one, sizeof one, &one_len), FE2O3_OK);
    EXPECT(fe2o3_scram_server_final(&rules, &record, &server, one, one_len, two, sizeof two, &two_len), FE2O3_OK);
    EXPECT(fe2o3_scram_client_verify(&login, &client, NOTHING), FE2O3_CLIENT_SERVER_SIGNATURE_MISMATCH);
    EXPECT(fe2o3_scram_client_verify(&login, &client, two, two_len), FE2O3_OK);
    EXPECT(fe2o3_scram_server_authenticated_user(&server, NULL, 0, &one_len), FE2O3_OK);
    EXPECT(fe2o3_scram_server_acts_for(&server, NULL, 0, &one_len), FE2O3_OK);
    login.secret = FE2O3_BY_KEYS;
    login.keys = NULL;
    EXPECT(fe2o3_scram_client_first(&login, &client, nonce, one, sizeof one, &one_len), FE2O3_NO_KEYS);
}

/* A login by ANONYMOUS over a connection: neither the client nor the server has any text. */
static void connections(void)
{
    struct fe2o3_sasl_login login = FE2O3_SASL_LOGIN_INIT;
    struct fe2o3_sasl_client client = FE2O3_SASL_CLIENT_INIT;
    struct fe2o3_sasl_server server = FE2O3_SASL_SERVER_INIT;
    struct fe2o3_sasl_server_config config = FE2O3_SASL_SERVER_CONFIG_INIT;
    uint8_t to_server[520], to_client[520];
    size_t len = 0, taken = 0, client_len = 0, at;
    login.mechanism = FE2O3_ANONYMOUS_AS;
    login.hostname = login.login.username = login.login.acts_for = login.login.password = none;
    login.login.version = FE2O3_SHA_256;
    config.mechanisms = FE2O3_OFFER_ANONYMOUS;
    config.username = config.external_authcid = config.identities = none;
    EXPECT(fe2o3_sasl_server_receive(&config, &server, NOTHING, nonce, &taken, NULL, 0, &len), FE2O3_ROOM_TOO_SMALL);
    EXPECT(fe2o3_sasl_peek_frame(&server.connection, NOTHING, NULL, 0, &len), FE2O3_OK);
    EXPECT(
        fe2o3_sasl_server_receive(&config, &server, NOTHING, nonce, &taken, to_client, sizeof to_client, &client_len),
        FE2O3_OK);
    EXPECT(fe2o3_sasl_client_receive(&login, &client, NOTHING, nonce, &taken, to_server, sizeof to_server, &len),
        FE2O3_OK);
    EXPECT(fe2o3_sasl_client_open(to_server, sizeof to_server, &len), FE2O3_OK);
    while (len > 0) {
        EXPECT(fe2o3_sasl_server_receive(&config, &server, to_server, len, nonce, &taken, to_client, sizeof to_client,
                   &client_len),
            FE2O3_OK);
        /* (a call takes the bytes of one header or frame) */
        for (at = len = 0; at < client_len && len == 0; at += taken)
            EXPECT(fe2o3_sasl_client_receive(&login, &client, to_client + at, client_len - at, nonce, &taken, to_server,
                       sizeof to_server, &len),
                FE2O3_OK);
    }
    EXPECT(client.connection.progress, FE2O3_AUTHENTICATED);
    EXPECT(server.connection.progress, FE2O3_AUTHENTICATED);
}

int main(void)
{
    size_t at;
    for (at = 0; at < sizeof pointers / sizeof *pointers; at++) {
        none = pointers[at];
        texts();
        messages();
        connections();
    }
    return failed;
}
