/* Logins by each mechanism, client and server in one program, for callers that have the bodies of frames (AMQP 1.0, part 5,
 * section 5.3.3): each body is passed with its size before it (`client_step`, `server_step`). Prints a line for each case,
 * and ends with 1 where one of them is not as it should be. */
#include "fe2o3_sasl.h"

#include <stdio.h>
#include <string.h>

/* A text of the program and its length; a body that was written and its length; a room for one, and where the length
 * goes. */
#define TEXT(words) (const uint8_t *)(words), sizeof(words) - 1
#define GIVEN(body) (body).bytes, (body).len
#define ROOM(body) (body).bytes, sizeof((body).bytes), &(body).len

/* In earnest these are random, and fresh for each call. */
static const uint8_t client_nonce[32] = {1}, server_nonce[32] = {2};

/* The salt of the example in RFC 7677. */
static const uint8_t salt[] = {0x5b, 0x6d, 0x99, 0x68, 0x9d, 0x12, 0x35, 0x8e, 0xec, 0xa0, 0x4b, 0x14, 0x12, 0x36, 0xfa,
    0x81};

/* The bodies of a login by SCRAM-SHA-256 with these nonces and this salt, written by hand; their proof and their
 * signature are those of Python's hashlib and hmac. */
#define NONCE "AQAAAAAAAAAAAAAAAAAAAAAAAAAAAAAAAAAAAAAAAAA="
#define BOTH_NONCES NONCE "AgAAAAAAAAAAAAAAAAAAAAAAAAAAAAAAAAAAAAAAAAA="
#define OFFERS_SCRAM "\2\1\0\0\0\x53\x40\xc0\x13\1\xe0\x10\1\xa3\15SCRAM-SHA-256"
#define OFFERS_ALL "\2\1\0\0\0\x53\x40\xc0\x2c\1\xe0\x29\4\xa3\15SCRAM-SHA-256\5PLAIN\11ANONYMOUS\10EXTERNAL"
#define INIT "\2\1\0\0\0\x53\x41\xc0\x50\3\xa3\15SCRAM-SHA-256\xa0\x38n,,n=user,r=" NONCE "\xa1\4host"
#define CHALLENGE "\2\1\0\0\0\x53\x42\xc0\x7f\1\xa0\x7cr=" BOTH_NONCES ",s=W22ZaJ0SNY7soEsUEjb6gQ==,i=4096"
#define RESPONSE \
    "\2\1\0\0\0\x53\x43\xc0\x93\1\xa0\x90" \
    "c=biws,r=" BOTH_NONCES ",p=MIHdNcfet0LbDJOcfcN6eFJrJahL13kbab8XbO3ku+k="
#define OUTCOME_OK "\2\1\0\0\0\x53\x44\xc0\x33\2\x50\0\xa0\x2ev=50uHbJV+ANf1NSOfnBbK910b8IC4PmQ5G06TO7VnXz8="

/* The same of a client that could bind a channel. */
#define CBIND_FLAG_Y_INIT "\2\1\0\0\0\x53\x41\xc0\x50\3\xa3\15SCRAM-SHA-256\xa0\x38y,,n=user,r=" NONCE "\xa1\4host"
#define CBIND_FLAG_Y_RESPONSE \
    "\2\1\0\0\0\x53\x43\xc0\x93\1\xa0\x90" \
    "c=eSws,r=" BOTH_NONCES ",p=SJ1/Pm0x+vAkhmfEkR72IPuVMVkUt0BF477aSDSc3vM="
#define CBIND_FLAG_Y_OK "\2\1\0\0\0\x53\x44\xc0\x33\2\x50\0\xa0\x2ev=mZx4E2gu+jcdDC0u/pNy5NPrR0Zh6PMH8UcHTIgvIxU="

/* The init of the first login with an attribute in the place of an extension: one of RFC 5802, and another. */
#define ATTRIBUTE_INIT "\2\1\0\0\0\x53\x41\xc0\x57\3\xa3\15SCRAM-SHA-256\xa0\x3fn,,n=user,r=" NONCE ",i=4096\xa1\4host"
#define EXTENSION_INIT "\2\1\0\0\0\x53\x41\xc0\x54\3\xa3\15SCRAM-SHA-256\xa0\x3cn,,n=user,r=" NONCE ",x=1\xa1\4host"

/* The signature of the first login in a challenge, and the empty response to it. */
#define SIGNED "\2\1\0\0\0\x53\x42\xc0\x31\1\xa0\x2ev=50uHbJV+ANf1NSOfnBbK910b8IC4PmQ5G06TO7VnXz8="
#define EMPTY_RESPONSE "\2\1\0\0\0\x53\x43\xc0\3\1\xa0\0"

/* The init of the first login without its initial response, also without a hostname; the empty challenge for it; and the
 * response that is the initial response. */
#define LATE_INIT "\2\1\0\0\0\x53\x41\xc0\x17\3\xa3\15SCRAM-SHA-256\x40\xa1\4host"
#define LATE_INIT_WITHOUT_HOST "\2\1\0\0\0\x53\x41\xc0\x11\2\xa3\15SCRAM-SHA-256\x40"
#define EMPTY_CHALLENGE "\2\1\0\0\0\x53\x42\xc0\3\1\xa0\0"
#define LATE_FIRST "\2\1\0\0\0\x53\x43\xc0\x3b\1\xa0\x38n,,n=user,r=" NONCE

/* The same of PLAIN. */
#define LATE_PLAIN_INIT "\2\1\0\0\0\x53\x41\xc0\11\2\xa3\5PLAIN\x40"
#define LATE_PLAIN "\2\1\0\0\0\x53\x43\xc0\xf\1\xa0\14\0user\0pencil"

/* An outcome Ok, and one Auth, without more. */
#define BARE_OK "\2\1\0\0\0\x53\x44\xc0\3\1\x50\0"
#define BARE_AUTH "\2\1\0\0\0\x53\x44\xc0\3\1\x50\1"

/* The header of SASL, which both sides send first. */
#define SASL "AMQP\3\1\0\0"

/* The most bytes of a body: those of a frame of 512 behind its size (part 5, section 5.3.1). */
struct body {
    uint8_t bytes[508];
    size_t len;
};

/* The most bytes that a call takes or sends: those of a header and a frame. */
struct frame {
    uint8_t bytes[520];
    size_t len;
};

/* What both sides of a login keep, and the bodies that were sent, of which the last may be empty. */
struct exchange {
    struct fe2o3_sasl_client client;
    struct fe2o3_sasl_server server;
    uint32_t client_progress, server_progress;
    struct body sent[6];
    size_t count;
};

static const struct fe2o3_sasl_client fresh_client;
static const struct fe2o3_sasl_server fresh_server;
static const struct fe2o3_scram_keys no_keys;
static const struct fe2o3_scram_record no_record;
static int differences;

static void told(const char *mechanism, const char *what, int holds)
{
    printf("%s, %s: %s\n", mechanism, what, holds ? "ok" : "DIFFERS");
    differences += !holds;
}

static int spells(const struct body *body, const uint8_t *bytes, size_t len)
{
    return body->len == len && memcmp(body->bytes, bytes, len) == 0;
}

static int names(const struct fe2o3_sasl_server *server, const uint8_t *name, size_t len)
{
    struct body user;
    return fe2o3_scram_server_authenticated_user(&server->scram, ROOM(user)) == FE2O3_OK && spells(&user, name, len)
        && server->scram.rejection == FE2O3_REJECTION_NONE;
}

static int names_no_user(const struct fe2o3_sasl_server *server)
{
    return memcmp(&server->scram, &fresh_server.scram, sizeof fresh_server.scram) == 0;
}

/* Whether a server has rejected the last body for this reason, and keeps nothing else. */
static int rejects(const struct fe2o3_sasl_server *server, uint32_t reason)
{
    struct fe2o3_sasl_server rest = *server;
    rest.scram.rejection = FE2O3_REJECTION_NONE;
    return server->scram.rejection == reason && names_no_user(&rest);
}

/* A frame: four bytes with its size, and its body. */
static struct frame framed(const uint8_t *body, size_t len)
{
    struct frame frame = {{0, 0, (uint8_t)((len + 4) >> 8), (uint8_t)(len + 4)}, len + 4};
    memcpy(frame.bytes + 4, body, len);
    return frame;
}

/* What a call has made of a body that it was passed: the body to send, and how far the login is, or which outcome has
 * rejected it. Answers the status of the call, or why the connection has failed without an outcome. */
static uint32_t unframed(uint32_t status, const struct fe2o3_connection *connection, const struct frame *sent,
    uint32_t *progress, struct body *out)
{
    uint32_t stands = connection->progress == FE2O3_FAILED ? connection->why : connection->progress;
    if (status != FE2O3_OK)
        return status;
    if (connection->progress == FE2O3_FAILED && (stands < FE2O3_REFUSED_AUTH || stands > FE2O3_REFUSED_SYS_TEMP))
        return stands;
    *progress = stands;
    out->len = sent->len == 0 ? 0 : sent->len - 4;
    memcpy(out->bytes, sent->bytes + 4, out->len);
    return FE2O3_OK;
}

/* A server takes the header, and sends its own and its list of mechanisms. */
static uint32_t open_server(const struct fe2o3_sasl_server_config *config, struct fe2o3_sasl_server *server,
    struct body *offer)
{
    struct frame sent;
    size_t taken;
    uint32_t status = fe2o3_sasl_server_receive(config, server, TEXT(SASL), server_nonce, &taken, ROOM(sent));
    if (status == FE2O3_OK) {
        offer->len = sent.len - 12;
        memcpy(offer->bytes, sent.bytes + 12, offer->len);
    }
    return status;
}

static uint32_t server_step(const struct fe2o3_sasl_server_config *config, struct fe2o3_sasl_server *server,
    const uint8_t *body, size_t len, const uint8_t nonce[32], uint32_t *progress, struct body *out)
{
    const struct frame came = framed(body, len);
    struct frame sent;
    size_t taken;
    uint32_t status = fe2o3_sasl_server_receive(config, server, GIVEN(came), nonce, &taken, ROOM(sent));
    return unframed(status, &server->connection, &sent, progress, out);
}

/* The user for whose records a server asks before it takes a body. Answers FE2O3_NEEDS_RECORDS, or, if it asks for none,
 * FE2O3_NO_SUCH_MECHANISM, since nothing is offered here. Nothing may change by it. */
static uint32_t claimed_user(const struct fe2o3_sasl_server *server, const uint8_t *body, size_t len, struct body *name)
{
    static const struct fe2o3_sasl_server_config no_offer;
    const struct frame came = framed(body, len);
    struct fe2o3_sasl_server copy = *server;
    struct frame asked = {{0}, 0};
    size_t taken = 9;
    uint32_t status = fe2o3_sasl_server_receive(&no_offer, &copy, GIVEN(came), server_nonce, &taken, ROOM(asked));
    if (taken != 9 || asked.len > sizeof name->bytes || memcmp(&copy, server, sizeof copy) != 0)
        return FE2O3_ENDED;
    name->len = asked.len;
    memcpy(name->bytes, asked.bytes, asked.len);
    return status;
}

/* A client takes a body, and before the first one the header. */
static uint32_t client_step(const struct fe2o3_sasl_login *login, struct fe2o3_sasl_client *client, const uint8_t *body,
    size_t len, uint32_t *progress, struct body *out)
{
    const struct frame came = framed(body, len);
    struct frame sent;
    size_t taken;
    uint32_t status = FE2O3_OK;
    if (client->connection.expected == FE2O3_EXPECTED_HEADER)
        status = fe2o3_sasl_client_receive(login, client, TEXT(SASL), client_nonce, &taken, ROOM(sent));
    if (status == FE2O3_OK)
        status = fe2o3_sasl_client_receive(login, client, GIVEN(came), client_nonce, &taken, ROOM(sent));
    return unframed(status, &client->connection, &sent, progress, out);
}

/* A login of this mechanism, of SCRAM by the hash of this version. */
static struct fe2o3_sasl_login login_by(uint32_t mechanism, uint32_t version)
{
    struct fe2o3_sasl_login login = {mechanism, TEXT("host"),
        {.version = version,
            .min_iterations = 4096,
            .max_iterations = 100000,
            .username = TEXT("user"),
            .acts_for = FE2O3_NONE,
            .password = TEXT("pencil"),
            .keys = &no_keys}};
    return login;
}

/* The record of the password, with the salt above. */
static struct fe2o3_scram_record record_by(uint32_t version)
{
    struct fe2o3_scram_record record = {0};
    fe2o3_scram_record_make(version, FE2O3_TYPED, TEXT("pencil"), salt, sizeof salt, 4096, &record);
    return record;
}

/* The offer of SCRAM with this hash. */
static uint32_t offer_of(uint32_t version)
{
    return version == FE2O3_SHA_512 ? FE2O3_OFFER_SCRAM_SHA_512
        : version == FE2O3_SHA_256  ? FE2O3_OFFER_SCRAM_SHA_256
                                    : FE2O3_OFFER_SCRAM_SHA_1;
}

/* A config of all mechanisms and of SCRAM with the hash of this record, which knows one user. */
static struct fe2o3_sasl_server_config config_of(const struct fe2o3_scram_record *record)
{
    struct fe2o3_sasl_server_config config = {offer_of(record->version) | FE2O3_OFFER_PLAIN | FE2O3_OFFER_ANONYMOUS
            | FE2O3_OFFER_EXTERNAL,
        0, 4096, 0, FE2O3_NONE, 1, TEXT("user"), record, 1, TEXT("peer"), {0}, 0, FE2O3_NONE};
    return config;
}

/* A server of this config that has taken the header. */
static struct fe2o3_sasl_server opened(const struct fe2o3_sasl_server_config *config)
{
    struct fe2o3_sasl_server server = fresh_server;
    struct body offer;
    open_server(config, &server, &offer);
    return server;
}

/* The list of mechanisms of a config. */
static uint32_t offer_by(const struct fe2o3_sasl_server_config *config, struct body *offer)
{
    struct fe2o3_sasl_server server = fresh_server;
    return open_server(config, &server, offer);
}

/* What a server makes of a body, with the record of the user for whose records it asks, if the config knows one. */
static uint32_t served(struct exchange *one, const struct fe2o3_sasl_server_config *config, const struct body *came,
    struct body *next)
{
    struct fe2o3_sasl_server_config with = *config;
    struct body name;
    uint32_t number;
    with.looked_up = 0;
    number = server_step(&with, &one->server, GIVEN(*came), server_nonce, &one->server_progress, next);
    if (number != FE2O3_NEEDS_RECORDS)
        return number;
    with.looked_up = 1;
    claimed_user(&one->server, GIVEN(*came), &name);
    if (!spells(&name, config->username, config->username_len))
        with.records = &no_record;
    return server_step(&with, &one->server, GIVEN(*came), server_nonce, &one->server_progress, next);
}

/* A whole login, or one up to the call that is refused. Answers the number of its last call. */
static uint32_t run(struct exchange *one, const struct fe2o3_sasl_login *login,
    const struct fe2o3_sasl_server_config *config)
{
    uint32_t number;
    memset(one, 0, sizeof *one);
    number = open_server(config, &one->server, &one->sent[0]);
    while (number == FE2O3_OK && one->client_progress == FE2O3_IN_PROGRESS && ++one->count < 6) {
        const struct body *came = &one->sent[one->count - 1];
        struct body *next = &one->sent[one->count];
        if (one->count % 2 == 0)
            number = served(one, config, came, next);
        else
            number = client_step(login, &one->client, GIVEN(*came), &one->client_progress, next);
    }
    return number;
}

/* Whether a login ends so on both sides, nothing is sent behind the outcome, and the server has a reason if it rejects
 * the login. */
static int ends(const struct fe2o3_sasl_login *login, const struct fe2o3_sasl_server_config *config, uint32_t progress,
    struct exchange *one)
{
    return run(one, login, config) == FE2O3_OK && one->client_progress == progress && one->server_progress == progress
        && one->count < 6 && one->sent[one->count].len == 0
        && (one->server.scram.rejection == FE2O3_REJECTION_NONE) == (progress == FE2O3_AUTHENTICATED);
}

/* An init without its initial response, and the response that is its initial response. */
static void withhold(const struct body *init, struct body *late, struct body *response)
{
    static const uint8_t head[] = {2, 1, 0, 0, 0, 0x53, 0x43, 0xc0, 0, 1};
    size_t name_end = 12 + (size_t)init->bytes[11], message = 2 + (size_t)init->bytes[name_end + 1];
    memcpy(late->bytes, init->bytes, name_end);
    late->bytes[name_end] = 0x40;
    memcpy(late->bytes + name_end + 1, init->bytes + name_end + message, init->len - name_end - message);
    late->len = init->len - message + 1;
    late->bytes[8] = (uint8_t)(late->len - 9);
    memcpy(response->bytes, head, sizeof head);
    response->bytes[8] = (uint8_t)(message + 1);
    memcpy(response->bytes + sizeof head, init->bytes + name_end, message);
    response->len = sizeof head + message;
}

/* Whether a login ends on both sides, rejected for this reason or without one complete, if the client withholds its
 * initial response until the server asks for it. */
static int ends_late(const struct fe2o3_sasl_login *login, struct fe2o3_sasl_server_config config, uint32_t reason)
{
    uint32_t progress = reason == FE2O3_REJECTION_NONE ? FE2O3_AUTHENTICATED : FE2O3_REFUSED_AUTH;
    struct exchange one;
    struct body init, late, body, asks;
    uint32_t number = FE2O3_OK;
    memset(&one, 0, sizeof one);
    config.flags |= FE2O3_INITIAL_RESPONSE_BY_CHALLENGE;
    if (open_server(&config, &one.server, &body) != FE2O3_OK
        || client_step(login, &one.client, GIVEN(body), &one.client_progress, &init) != FE2O3_OK)
        return 0;
    withhold(&init, &late, &body);
    if (served(&one, &config, &late, &asks) != FE2O3_OK || !spells(&asks, TEXT(EMPTY_CHALLENGE)))
        return 0;
    for (one.count = 0; number == FE2O3_OK && one.client_progress == FE2O3_IN_PROGRESS && one.count < 4; one.count++) {
        const struct body came = body;
        number = one.count % 2 == 0 ? served(&one, &config, &came, &body)
                                    : client_step(login, &one.client, GIVEN(came), &one.client_progress, &body);
    }
    return number == FE2O3_OK && one.client_progress == progress && one.server_progress == progress
        && one.server.scram.rejection == reason;
}

/* The names of the bodies of a login: that of the init, and then that of the open challenge for any response. */
static int bodies_name(const struct fe2o3_sasl_server_config *config, const struct exchange *whole)
{
    struct fe2o3_sasl_server server = opened(config);
    struct body name, out;
    uint32_t progress = 9;
    int holds =
        claimed_user(&server, GIVEN(whole->sent[1]), &name) == FE2O3_NEEDS_RECORDS && spells(&name, TEXT("user"));
    holds &= claimed_user(&server, GIVEN(whole->sent[3]), &name) == FE2O3_NO_SUCH_MECHANISM;
    holds &= claimed_user(&server, GIVEN(whole->sent[0]), &name) == FE2O3_NO_SUCH_MECHANISM;
    holds &= server_step(config, &server, GIVEN(whole->sent[1]), server_nonce, &progress, &out) == FE2O3_OK
        && progress == FE2O3_IN_PROGRESS;
    return holds && claimed_user(&server, GIVEN(whole->sent[3]), &name) == FE2O3_NEEDS_RECORDS
        && spells(&name, TEXT("user"));
}

static void by_scram(const char *mechanism, uint32_t version)
{
    struct fe2o3_scram_record record = record_by(version), other = record;
    struct fe2o3_scram_keys keys = {0}, made = {0};
    struct fe2o3_sasl_login login = login_by(FE2O3_SCRAM, version), stranger = login;
    struct fe2o3_sasl_server_config config = config_of(&record), without_verifier = config_of(&other);
    struct exchange whole, one;
    told(mechanism, "a login",
        ends(&login, &config, FE2O3_AUTHENTICATED, &whole) && names(&whole.server, TEXT("user")));
    told(mechanism, "the login hands out its keys",
        fe2o3_scram_client_get_keys(&whole.client.scram, &keys) == FE2O3_OK
            && fe2o3_scram_keys_make(version, FE2O3_TYPED, TEXT("pencil"), salt, sizeof salt, 4096, &made) == FE2O3_OK
            && memcmp(&keys, &made, sizeof keys) == 0);
    stranger.login.password_len--;
    told(mechanism, "a wrong password",
        ends(&stranger, &config, FE2O3_REFUSED_AUTH, &one) && rejects(&one.server, FE2O3_REJECTION_WRONG_PROOF)
            && spells(&one.sent[4], TEXT(BARE_AUTH))
            && fe2o3_scram_client_get_keys(&one.client.scram, &keys) != FE2O3_OK);
    stranger = login;
    stranger.login.username_len--;
    told(mechanism, "an unknown user",
        ends(&stranger, &config, FE2O3_REFUSED_AUTH, &one) && rejects(&one.server, FE2O3_REJECTION_UNKNOWN_USER));
    told(mechanism, "a login without an initial response", ends_late(&login, config, FE2O3_REJECTION_NONE));
    told(mechanism, "an unknown user without an initial response",
        ends_late(&stranger, config, FE2O3_REJECTION_UNKNOWN_USER));
    stranger = login;
    stranger.login.password_len--;
    told(mechanism, "a wrong password without an initial response",
        ends_late(&stranger, config, FE2O3_REJECTION_WRONG_PROOF));
    other.server_key[0] ^= 1;
    told(mechanism, "a server without the verifier is not believed",
        run(&one, &login, &without_verifier) == FE2O3_CLIENT_SERVER_SIGNATURE_MISMATCH && one.count == 5
            && one.client.connection.progress == FE2O3_FAILED
            && fe2o3_scram_client_get_keys(&one.client.scram, &keys) == FE2O3_CLIENT_ILLEGAL_CLIENT_STATE);
    told(mechanism, "whom a body names", bodies_name(&config, &whole));
}

/* A server of all hashes, whose user has records for two of them. */
static void by_several(void)
{
    struct fe2o3_scram_record records[3] = {record_by(FE2O3_SHA_256), record_by(FE2O3_SHA_512),
        record_by(FE2O3_SHA_512)};
    struct fe2o3_sasl_login strong = login_by(FE2O3_SCRAM, FE2O3_SHA_512), usual = login_by(FE2O3_SCRAM, FE2O3_SHA_256);
    struct fe2o3_sasl_login weak = login_by(FE2O3_SCRAM, FE2O3_SHA_1), plain = login_by(FE2O3_PLAIN, 0);
    struct fe2o3_sasl_server_config config = config_of(&records[0]);
    struct fe2o3_sasl_server server = opened(&config);
    struct body out;
    struct exchange one;
    uint32_t progress = 9;
    config.mechanisms |= FE2O3_OFFER_SCRAM_SHA_512 | FE2O3_OFFER_SCRAM_SHA_1;
    config.records_count = 3;
    records[2].stored_key[0] ^= 1;
    told("several hashes", "a login with SCRAM-SHA-512",
        ends(&strong, &config, FE2O3_AUTHENTICATED, &one) && names(&one.server, TEXT("user")));
    told("several hashes", "a login with SCRAM-SHA-256",
        ends(&usual, &config, FE2O3_AUTHENTICATED, &one) && names(&one.server, TEXT("user")));
    told("several hashes", "a hash without a record",
        ends(&weak, &config, FE2O3_REFUSED_AUTH, &one) && rejects(&one.server, FE2O3_REJECTION_NO_RECORD_FOR_HASH));
    told("several hashes", "PLAIN", ends(&plain, &config, FE2O3_AUTHENTICATED, &one));
    told("several hashes", "the struct keeps the hash of the challenge",
        server_step(&config, &server, TEXT(INIT), server_nonce, &progress, &out) == FE2O3_OK
            && spells(&out, TEXT(CHALLENGE)) && server.scram.version == FE2O3_SHA_256
            && server.scram.rejection == FE2O3_REJECTION_NONE);
    server.scram.version = 3;
    told("several hashes", "no challenge is open with another number",
        server_step(&config, &server, TEXT(RESPONSE), server_nonce, &progress, &out) == FE2O3_OK
            && progress == FE2O3_REFUSED_AUTH && spells(&out, TEXT(BARE_AUTH))
            && rejects(&server, FE2O3_REJECTION_UNEXPECTED_RESPONSE));
    config.records_count = 0;
    told("several hashes", "no records",
        ends(&usual, &config, FE2O3_REFUSED_AUTH, &one) && rejects(&one.server, FE2O3_REJECTION_UNKNOWN_USER));
}

/* Each body of a login, and the offer of one mechanism, byte for byte. */
static void by_hand(void)
{
    struct fe2o3_scram_record record = record_by(FE2O3_SHA_256);
    struct fe2o3_sasl_login login = login_by(FE2O3_SCRAM, FE2O3_SHA_256);
    struct fe2o3_sasl_server_config config = config_of(&record);
    struct body offer;
    struct exchange one;
    told("SCRAM-SHA-256", "each body is the one that was written by hand",
        ends(&login, &config, FE2O3_AUTHENTICATED, &one) && one.count == 5 && spells(&one.sent[0], TEXT(OFFERS_ALL))
            && spells(&one.sent[1], TEXT(INIT)) && spells(&one.sent[2], TEXT(CHALLENGE))
            && spells(&one.sent[3], TEXT(RESPONSE)) && spells(&one.sent[4], TEXT(OUTCOME_OK)));
    config.mechanisms = FE2O3_OFFER_SCRAM_SHA_256;
    told("SCRAM-SHA-256", "offered alone", offer_by(&config, &offer) == FE2O3_OK && spells(&offer, TEXT(OFFERS_SCRAM)));
    config.mechanisms = 0;
    told("nothing", "offered", offer_by(&config, &offer) == FE2O3_NO_SUCH_MECHANISM);
}

/* EXTERNAL on a connection whose client the transport has not authenticated. */
static void without_peer(const struct fe2o3_sasl_login *external, struct fe2o3_sasl_server_config config)
{
    struct fe2o3_sasl_server server = opened(&config);
    struct body offer, out;
    struct exchange one;
    uint32_t progress = 0;
    config.external_authcid_len = 0;
    config.mechanisms = FE2O3_OFFER_ANONYMOUS | FE2O3_OFFER_EXTERNAL;
    told("EXTERNAL", "not offered without a peer", run(&one, external, &config) == FE2O3_NOT_IMPLEMENTED);
    told("EXTERNAL", "an init without a peer",
        server_step(&config, &server, TEXT("\2\1\0\0\0\x53\x41\xc0\x12\3\xa3\10EXTERNAL\x40\xa1\4host"), server_nonce,
            &progress, &out)
                == FE2O3_OK
            && progress == FE2O3_REFUSED_AUTH && spells(&out, TEXT(BARE_AUTH))
            && rejects(&server, FE2O3_REJECTION_MECHANISM_NOT_OFFERED));
    config.mechanisms = FE2O3_OFFER_EXTERNAL;
    told("EXTERNAL", "nothing offered without a peer", offer_by(&config, &offer) == FE2O3_NO_SUCH_MECHANISM);
}

static void by_others(void)
{
    struct fe2o3_scram_record record = record_by(FE2O3_SHA_256);
    struct fe2o3_sasl_login plain = login_by(FE2O3_PLAIN, 0), external = login_by(FE2O3_EXTERNAL, 0);
    struct fe2o3_sasl_login anonymous = login_by(FE2O3_ANONYMOUS, 0);
    struct fe2o3_sasl_server_config config = config_of(&record);
    const struct fe2o3_sasl_server waiting = opened(&config);
    struct body name;
    struct exchange one;
    told("PLAIN", "a login",
        ends(&plain, &config, FE2O3_AUTHENTICATED, &one) && names(&one.server, TEXT("user"))
            && spells(&one.sent[1], TEXT("\2\1\0\0\0\x53\x41\xc0\x1c\3\xa3\5PLAIN\xa0\14\0user\0pencil\xa1\4host"))
            && spells(&one.sent[2], TEXT(BARE_OK)));
    told("PLAIN", "whom its init names",
        claimed_user(&waiting, GIVEN(one.sent[1]), &name) == FE2O3_NEEDS_RECORDS && spells(&name, TEXT("user")));
    told("PLAIN", "a login without an initial response", ends_late(&plain, config, FE2O3_REJECTION_NONE));
    plain.login.password_len--;
    told("PLAIN", "a wrong password without an initial response",
        ends_late(&plain, config, FE2O3_REJECTION_WRONG_PASSWORD));
    told("PLAIN", "a wrong password",
        ends(&plain, &config, FE2O3_REFUSED_AUTH, &one) && rejects(&one.server, FE2O3_REJECTION_WRONG_PASSWORD));
    told("ANONYMOUS", "a login",
        ends(&anonymous, &config, FE2O3_AUTHENTICATED, &one) && names_no_user(&one.server)
            && spells(&one.sent[1], TEXT("\2\1\0\0\0\x53\x41\xc0\x13\3\xa3\11ANONYMOUS\x40\xa1\4host")));
    told("EXTERNAL", "a login",
        ends(&external, &config, FE2O3_AUTHENTICATED, &one) && names(&one.server, TEXT("peer"))
            && spells(&one.sent[1], TEXT("\2\1\0\0\0\x53\x41\xc0\x12\3\xa3\10EXTERNAL\x40\xa1\4host")));
    config.mechanisms = FE2O3_OFFER_SCRAM_SHA_256;
    told("EXTERNAL", "where it is not offered", run(&one, &external, &config) == FE2O3_NOT_IMPLEMENTED);
    without_peer(&external, config_of(&record));
}

/* What a client that has sent its header makes of this body. */
static uint32_t heard(const struct fe2o3_sasl_login *login, const uint8_t *body, size_t len)
{
    struct fe2o3_sasl_client client = fresh_client;
    struct body out;
    uint32_t progress;
    return client_step(login, &client, body, len, &progress, &out);
}

/* What a server that has sent its offer makes of this body. */
static uint32_t asked_of(const struct fe2o3_sasl_server_config *config, const uint8_t *body, size_t len)
{
    struct fe2o3_sasl_server server = opened(config);
    struct body out;
    uint32_t progress;
    return server_step(config, &server, body, len, server_nonce, &progress, &out);
}

/* Bodies that come too soon, or to the wrong side. */
static void out_of_turn(void)
{
    struct fe2o3_scram_record record = record_by(FE2O3_SHA_256);
    struct fe2o3_sasl_login scram = login_by(FE2O3_SCRAM, FE2O3_SHA_256), plain = login_by(FE2O3_PLAIN, 0);
    struct fe2o3_sasl_server_config config = config_of(&record);
    struct fe2o3_sasl_server server = opened(&config);
    struct body out;
    uint32_t progress = 9;
    told("SCRAM-SHA-256", "an outcome Ok first is not believed",
        heard(&scram, TEXT(OUTCOME_OK)) == FE2O3_UNEXPECTED_FRAME
            && heard(&scram, TEXT(BARE_OK)) == FE2O3_UNEXPECTED_FRAME);
    told("SCRAM-SHA-256", "a challenge first is not answered",
        heard(&scram, TEXT(CHALLENGE)) == FE2O3_UNEXPECTED_FRAME);
    told("PLAIN", "an outcome Ok first is not believed", heard(&plain, TEXT(BARE_OK)) == FE2O3_UNEXPECTED_FRAME);
    told("a client", "a body that is none of a frame", heard(&plain, TEXT("\2\1\0\0")) == FE2O3_MALFORMED_FRAME);
    told("a server", "a frame that no client sends", asked_of(&config, TEXT(CHALLENGE)) == FE2O3_UNEXPECTED_FRAME);
    told("a server", "a response without a challenge", asked_of(&config, TEXT(RESPONSE)) == FE2O3_UNEXPECTED_FRAME);
    config.mechanisms = FE2O3_OFFER_PLAIN;
    told("a server", "an init of a mechanism that it does not offer",
        server_step(&config, &server, TEXT(INIT), server_nonce, &progress, &out) == FE2O3_OK
            && progress == FE2O3_REFUSED_AUTH && spells(&out, TEXT(BARE_AUTH))
            && rejects(&server, FE2O3_REJECTION_MECHANISM_NOT_OFFERED));
}

/* A client that could bind a channel, at a server that takes it and at one that does not. */
static void cbind_flag_y(void)
{
    struct fe2o3_scram_record record = record_by(FE2O3_SHA_256);
    struct fe2o3_sasl_server_config config = config_of(&record);
    struct fe2o3_sasl_server server = opened(&config);
    struct body out;
    uint32_t progress = 9;
    told("SCRAM-SHA-256", "the header `y,,` is refused",
        server_step(&config, &server, TEXT(CBIND_FLAG_Y_INIT), server_nonce, &progress, &out) == FE2O3_OK
            && progress == FE2O3_REFUSED_AUTH && spells(&out, TEXT(BARE_AUTH))
            && rejects(&server, FE2O3_REJECTION_CHANNEL));
    config.mechanisms = FE2O3_OFFER_SCRAM_SHA_256;
    config.flags = FE2O3_ACCEPT_CBIND_FLAG_Y;
    server = opened(&config);
    told("SCRAM-SHA-256", "the header `y,,` is taken on wish",
        server_step(&config, &server, TEXT(CBIND_FLAG_Y_INIT), server_nonce, &progress, &out) == FE2O3_OK
            && progress == FE2O3_IN_PROGRESS && spells(&out, TEXT(CHALLENGE))
            && server_step(&config, &server, TEXT(CBIND_FLAG_Y_RESPONSE), server_nonce, &progress, &out) == FE2O3_OK
            && progress == FE2O3_AUTHENTICATED && spells(&out, TEXT(CBIND_FLAG_Y_OK)) && names(&server, TEXT("user")));
    config.mechanisms = 0;
    config.flags = FE2O3_ACCEPT_CBIND_FLAG_Y;
    told("nothing", "offered, but to take `y,,`", offer_by(&config, &out) == FE2O3_NO_SUCH_MECHANISM);
}

/* Attributes in the place of extensions, at a server that is not strict and at one that is. */
static void strict(void)
{
    struct fe2o3_scram_record record = record_by(FE2O3_SHA_256);
    struct fe2o3_sasl_server_config config = config_of(&record);
    struct fe2o3_sasl_server server = opened(&config);
    struct body out;
    uint32_t progress = 9;
    config.mechanisms = FE2O3_OFFER_SCRAM_SHA_256;
    told("SCRAM-SHA-256", "an attribute of RFC 5802 is ignored as an extension",
        server_step(&config, &server, TEXT(ATTRIBUTE_INIT), server_nonce, &progress, &out) == FE2O3_OK
            && progress == FE2O3_IN_PROGRESS && spells(&out, TEXT(CHALLENGE)));
    config.flags |= FE2O3_STRICT;
    server = opened(&config);
    told("SCRAM-SHA-256", "a strict server rejects it",
        server_step(&config, &server, TEXT(ATTRIBUTE_INIT), server_nonce, &progress, &out) == FE2O3_OK
            && progress == FE2O3_REFUSED_AUTH && spells(&out, TEXT(BARE_AUTH))
            && rejects(&server, FE2O3_SERVER_MISPLACED_ATTRIBUTE));
    server = opened(&config);
    told("SCRAM-SHA-256", "a strict server ignores an extension",
        server_step(&config, &server, TEXT(EXTENSION_INIT), server_nonce, &progress, &out) == FE2O3_OK
            && progress == FE2O3_IN_PROGRESS && spells(&out, TEXT(CHALLENGE))
            && server.scram.rejection == FE2O3_REJECTION_NONE);
    config.mechanisms = 0;
    config.flags = FE2O3_STRICT;
    told("nothing", "offered, but to be strict", offer_by(&config, &out) == FE2O3_NO_SUCH_MECHANISM);
}

/* A server that sends its signature in a challenge. */
static void signature_by_challenge(void)
{
    struct fe2o3_scram_record record = record_by(FE2O3_SHA_256);
    struct fe2o3_sasl_server_config config = config_of(&record);
    struct fe2o3_sasl_server server = opened(&config), other;
    struct body out;
    uint32_t progress = 9;
    config.flags |= FE2O3_SIGNATURE_BY_CHALLENGE;
    told("SCRAM-SHA-256", "the signature in a challenge",
        server_step(&config, &server, TEXT(INIT), server_nonce, &progress, &out) == FE2O3_OK
            && spells(&out, TEXT(CHALLENGE))
            && server_step(&config, &server, TEXT(RESPONSE), server_nonce, &progress, &out) == FE2O3_OK
            && progress == FE2O3_IN_PROGRESS && spells(&out, TEXT(SIGNED))
            && server.scram.state == FE2O3_SCRAM_SERVER_SIGNATURE_SENT && server.scram.rejection == FE2O3_REJECTION_NONE
            && fe2o3_scram_server_authenticated_user(&server.scram, ROOM(out))
                == FE2O3_SERVER_ILLEGAL_AUTHENTICATOR_STATE);
    other = server;
    told("SCRAM-SHA-256", "the response to it names no user",
        claimed_user(&server, TEXT(EMPTY_RESPONSE), &out) == FE2O3_NO_SUCH_MECHANISM);
    told("SCRAM-SHA-256", "an empty response to it logs in",
        server_step(&config, &server, TEXT(EMPTY_RESPONSE), server_nonce, &progress, &out) == FE2O3_OK
            && progress == FE2O3_AUTHENTICATED && spells(&out, TEXT(BARE_OK)) && names(&server, TEXT("user")));
    told("SCRAM-SHA-256", "any other response does not",
        server_step(&config, &other, TEXT(RESPONSE), server_nonce, &progress, &out) == FE2O3_OK
            && progress == FE2O3_REFUSED_AUTH && spells(&out, TEXT(BARE_AUTH))
            && rejects(&other, FE2O3_REJECTION_UNEXPECTED_RESPONSE));
}

/* A server that has asked for the initial response of SCRAM-SHA-256. */
static struct fe2o3_sasl_server asked(void)
{
    struct fe2o3_sasl_server server = fresh_server;
    server.connection.expected = FE2O3_EXPECTED_RESPONSE;
    server.scram.state = FE2O3_SCRAM_SERVER_INITIAL_RESPONSE_ASKED;
    server.scram.first_len = (uint32_t)sizeof "SCRAM-SHA-256" - 1;
    memcpy(server.scram.first, "SCRAM-SHA-256", server.scram.first_len);
    server.scram.nonce_len = (uint32_t)sizeof server_nonce;
    memcpy(server.scram.nonce, server_nonce, sizeof server_nonce);
    return server;
}

/* Whether a server answers a body by this one, with this progress. */
static int answers(struct fe2o3_sasl_server *server, const struct fe2o3_sasl_server_config *config, const uint8_t *came,
    size_t came_len, const uint8_t *answer, size_t answer_len, uint32_t wanted)
{
    struct body out;
    uint32_t progress = 9;
    return server_step(config, server, came, came_len, server_nonce, &progress, &out) == FE2O3_OK && progress == wanted
        && spells(&out, answer, answer_len)
        && (server->scram.rejection == FE2O3_REJECTION_NONE) == (wanted != FE2O3_REFUSED_AUTH);
}

/* The end of a login whose initial response came in a response, at a server that was saved before it. */
static void after_an_empty_challenge(const struct fe2o3_sasl_server_config *config, struct fe2o3_sasl_server saved)
{
    struct fe2o3_sasl_server server = saved;
    struct fe2o3_sasl_server_config signing = *config;
    struct body out;
    uint32_t progress = 9;
    told("SCRAM-SHA-256", "the response names the user",
        claimed_user(&server, TEXT(LATE_FIRST), &out) == FE2O3_NEEDS_RECORDS && spells(&out, TEXT("user")));
    told("SCRAM-SHA-256", "the response is the initial response, with the nonce of the init",
        server_step(config, &server, TEXT(LATE_FIRST), client_nonce, &progress, &out) == FE2O3_OK
            && progress == FE2O3_IN_PROGRESS && spells(&out, TEXT(CHALLENGE))
            && answers(&server, config, TEXT(RESPONSE), TEXT(OUTCOME_OK), FE2O3_AUTHENTICATED)
            && names(&server, TEXT("user")));
    signing.flags |= FE2O3_SIGNATURE_BY_CHALLENGE;
    server = saved;
    told("SCRAM-SHA-256", "the initial response and the signature by challenges",
        answers(&server, &signing, TEXT(LATE_FIRST), TEXT(CHALLENGE), FE2O3_IN_PROGRESS)
            && answers(&server, &signing, TEXT(RESPONSE), TEXT(SIGNED), FE2O3_IN_PROGRESS)
            && answers(&server, &signing, TEXT(EMPTY_RESPONSE), TEXT(BARE_OK), FE2O3_AUTHENTICATED)
            && names(&server, TEXT("user")));
    server = saved;
    told("SCRAM-SHA-256", "a second init after the empty challenge",
        claimed_user(&server, TEXT(LATE_INIT), &out) == FE2O3_NO_SUCH_MECHANISM
            && server_step(config, &server, TEXT(LATE_INIT), server_nonce, &progress, &out) == FE2O3_UNEXPECTED_FRAME);
    server = saved;
    told("SCRAM-SHA-256", "a second init with an initial response",
        server_step(config, &server, TEXT(INIT), server_nonce, &progress, &out) == FE2O3_UNEXPECTED_FRAME);
    server = saved;
    told("SCRAM-SHA-256", "an empty response to the empty challenge",
        claimed_user(&server, TEXT(EMPTY_RESPONSE), &out) == FE2O3_NO_SUCH_MECHANISM
            && answers(&server, config, TEXT(EMPTY_RESPONSE), TEXT(BARE_AUTH), FE2O3_REFUSED_AUTH)
            && rejects(&server, FE2O3_SERVER_CANNOT_PARSE_GS2_HEADER));
}

/* A server that asks for the initial response of an init without one. */
static void initial_response_by_challenge(void)
{
    struct fe2o3_scram_record record = record_by(FE2O3_SHA_256);
    struct fe2o3_sasl_server_config config = config_of(&record);
    struct fe2o3_sasl_server server = opened(&config), wanted = asked();
    struct body out;
    told("SCRAM-SHA-256", "no initial response, which is not asked for",
        answers(&server, &config, TEXT(LATE_INIT), TEXT(BARE_AUTH), FE2O3_REFUSED_AUTH)
            && rejects(&server, FE2O3_REJECTION_NO_INITIAL_RESPONSE));
    config.flags |= FE2O3_INITIAL_RESPONSE_BY_CHALLENGE;
    server = opened(&config);
    told("SCRAM-SHA-256", "an init without an initial response",
        claimed_user(&server, TEXT(LATE_INIT), &out) == FE2O3_NO_SUCH_MECHANISM
            && answers(&server, &config, TEXT(LATE_INIT), TEXT(EMPTY_CHALLENGE), FE2O3_IN_PROGRESS)
            && memcmp(&server, &wanted, sizeof server) == 0
            && fe2o3_scram_server_authenticated_user(&server.scram, ROOM(out))
                == FE2O3_SERVER_ILLEGAL_AUTHENTICATOR_STATE);
    after_an_empty_challenge(&config, server);
    server = opened(&config);
    told("SCRAM-SHA-256", "an init without a hostname too",
        answers(&server, &config, TEXT(LATE_INIT_WITHOUT_HOST), TEXT(EMPTY_CHALLENGE), FE2O3_IN_PROGRESS)
            && memcmp(&server, &wanted, sizeof server) == 0
            && answers(&server, &config, TEXT(LATE_FIRST), TEXT(CHALLENGE), FE2O3_IN_PROGRESS)
            && answers(&server, &config, TEXT(RESPONSE), TEXT(OUTCOME_OK), FE2O3_AUTHENTICATED));
    server = opened(&config);
    told("SCRAM-SHA-256", "an init with its initial response is not asked for it",
        answers(&server, &config, TEXT(INIT), TEXT(CHALLENGE), FE2O3_IN_PROGRESS));
    server = opened(&config);
    told("PLAIN", "an init without an initial response",
        answers(&server, &config, TEXT(LATE_PLAIN_INIT), TEXT(EMPTY_CHALLENGE), FE2O3_IN_PROGRESS)
            && claimed_user(&server, TEXT(LATE_PLAIN), &out) == FE2O3_NEEDS_RECORDS && spells(&out, TEXT("user"))
            && answers(&server, &config, TEXT(LATE_PLAIN), TEXT(BARE_OK), FE2O3_AUTHENTICATED)
            && names(&server, TEXT("user")));
    server = opened(&config);
    told("ANONYMOUS", "an init without an initial response is not asked for it",
        answers(&server, &config, TEXT("\2\1\0\0\0\x53\x41\xc0\14\1\xa3\11ANONYMOUS"), TEXT(BARE_OK),
            FE2O3_AUTHENTICATED));
    server = asked();
    server.scram.state = 6;
    told("SCRAM-SHA-256", "a state of before counts as the initial one",
        answers(&server, &config, TEXT(LATE_FIRST), TEXT(BARE_AUTH), FE2O3_REFUSED_AUTH)
            && rejects(&server, FE2O3_REJECTION_UNEXPECTED_RESPONSE));
    server = asked();
    config.mechanisms = FE2O3_OFFER_PLAIN;
    config.flags = FE2O3_INITIAL_RESPONSE_BY_CHALLENGE;
    told("SCRAM-SHA-256", "an init that was asked, at a server that does not offer its mechanism",
        answers(&server, &config, TEXT(LATE_FIRST), TEXT(BARE_AUTH), FE2O3_REFUSED_AUTH)
            && rejects(&server, FE2O3_REJECTION_UNEXPECTED_RESPONSE));
    config.mechanisms = 0;
    config.flags = FE2O3_INITIAL_RESPONSE_BY_CHALLENGE;
    told("nothing", "offered, but to ask for initial responses", offer_by(&config, &out) == FE2O3_NO_SUCH_MECHANISM);
}

static int acts_for(const struct fe2o3_sasl_server *server, const uint8_t *name, size_t len)
{
    struct body identity;
    return fe2o3_scram_server_acts_for(&server->scram, ROOM(identity)) == FE2O3_OK && spells(&identity, name, len);
}

/* Logins that ask to act for an identity (RFC 4422, section 2). */
static void identities(const char *mechanism, uint32_t number)
{
    static uint8_t commas[256];
    struct fe2o3_scram_record record = record_by(FE2O3_SHA_256);
    struct fe2o3_sasl_login login = login_by(number, FE2O3_SHA_256), itself = login;
    struct fe2o3_sasl_server_config config = config_of(&record), no_identities = config;
    struct exchange one;
    login.login.acts_for = (const uint8_t *)"app,=x";
    login.login.acts_for_len = 6;
    config.accept_authzid = 1;
    config.identities = (const uint8_t *)"other\0app,=x";
    config.identities_len = sizeof "other\0app,=x";
    told(mechanism, "a user who may act for the identity",
        ends(&login, &config, FE2O3_AUTHENTICATED, &one) && names(&one.server, TEXT("user"))
            && acts_for(&one.server, TEXT("app,=x")));
    told(mechanism, "the same without an initial response", ends_late(&login, config, FE2O3_REJECTION_NONE));
    told(mechanism, "a user who acts for itself",
        ends(&itself, &config, FE2O3_AUTHENTICATED, &one) && acts_for(&one.server, FE2O3_NONE));
    told(mechanism, "a server that accepts no identities",
        ends(&login, &no_identities, FE2O3_REFUSED_AUTH, &one)
            && rejects(&one.server,
                number == FE2O3_PLAIN ? FE2O3_REJECTION_INVALID_MESSAGE : FE2O3_SERVER_CANNOT_PARSE_GS2_HEADER));
    config.identities_len = sizeof "other" - 1;
    told(mechanism, "a user who may not act for it",
        ends(&login, &config, FE2O3_REFUSED_AUTH, &one)
            && rejects(&one.server, number == FE2O3_PLAIN ? FE2O3_REJECTION_WRONG_PASSWORD : FE2O3_REJECTION_NO_RIGHT));
    memset(commas, ',', sizeof commas);
    login.login.acts_for = commas;
    login.login.acts_for_len = sizeof commas;
    config.identities = commas;
    config.identities_len = sizeof commas;
    if (number == FE2O3_PLAIN)
        told(mechanism, "an identity of 256 bytes",
            ends(&login, &config, FE2O3_AUTHENTICATED, &one) && acts_for(&one.server, commas, sizeof commas));
    else
        told(mechanism, "an identity of 256 bytes that has no room in a frame",
            run(&one, &login, &config) == FE2O3_REPLY_TOO_LARGE && one.count == 1);
}

/* An init of PLAIN with an identity, and mechanisms that send none. */
static void identities_of_others(void)
{
    static const struct {
        uint32_t mechanism, number;
    } rows[] = {
        {FE2O3_ANONYMOUS, FE2O3_NOT_IMPLEMENTED},
        {FE2O3_ANONYMOUS_AS, FE2O3_NOT_IMPLEMENTED},
        {FE2O3_EXTERNAL, FE2O3_NOT_IMPLEMENTED},
        {FE2O3_EXTERNAL_AS, FE2O3_NOT_IMPLEMENTED},
    };
    struct fe2o3_scram_record record = record_by(FE2O3_SHA_256);
    struct fe2o3_sasl_server_config config = config_of(&record);
    struct fe2o3_sasl_login login = login_by(FE2O3_PLAIN, 0);
    struct exchange one;
    int holds = 1;
    login.login.acts_for = (const uint8_t *)"app,=x";
    login.login.acts_for_len = 6;
    told("PLAIN", "the init of a client that names an identity",
        run(&one, &login, &config) == FE2O3_OK
            && spells(&one.sent[1],
                TEXT("\2\1\0\0\0\x53\x41\xc0\x22\3\xa3\5PLAIN\xa0\x12"
                     "app,=x\0user\0pencil\xa1\4host")));
    for (size_t at = 0; at < sizeof rows / sizeof *rows; at++) {
        login.mechanism = rows[at].mechanism;
        holds &= run(&one, &login, &config) == rows[at].number;
    }
    told("others", "an identity that the mechanism does not send", holds);
    login.login.acts_for_len = 0;
    login.mechanism = FE2O3_ANONYMOUS_AS;
    login.login.username = (const uint8_t *)"\xff";
    login.login.username_len = 1;
    told("ANONYMOUS", "trace information that is not UTF-8", run(&one, &login, &config) == FE2O3_NOT_UTF8);
}

/* A server that binds the channel of the connection (RFC 5802, section 6). */
static void channels(const char *mechanism, uint32_t version)
{
    struct fe2o3_scram_record record = record_by(version);
    struct fe2o3_sasl_login login = login_by(FE2O3_SCRAM, version), unaware = login;
    struct fe2o3_sasl_server_config config = config_of(&record);
    struct exchange one;
    struct body offer;
    config.flags |= FE2O3_ACCEPT_CBIND_FLAG_Y;
    config.channels.binds_channel = 1;
    config.channels.tls_exporter_len = login.login.channel_data_len = 32;
    memset(config.channels.tls_exporter, 7, 32);
    memset(login.login.channel_data, 7, 32);
    login.login.channel_use = FE2O3_CHANNEL_BOUND;
    login.login.channel_kind = FE2O3_TLS_EXPORTER;
    told(mechanism, "a client that binds the channel", ends(&login, &config, FE2O3_AUTHENTICATED, &one));
    told(mechanism, "one without a channel", ends(&unaware, &config, FE2O3_AUTHENTICATED, &one));
    login.login.channel_data[31]++;
    told(mechanism, "other data of the channel",
        ends(&login, &config, FE2O3_REFUSED_AUTH, &one) && rejects(&one.server, FE2O3_REJECTION_CHANNEL));
    login.login.channel_kind = FE2O3_TLS_UNIQUE;
    told(mechanism, "another kind of channel",
        ends(&login, &config, FE2O3_REFUSED_AUTH, &one) && rejects(&one.server, FE2O3_REJECTION_CHANNEL));
    login.login.channel_use = FE2O3_CHANNEL_NOT_OFFERED;
    told(mechanism, "a client that has seen no -PLUS",
        ends(&login, &config, FE2O3_REFUSED_AUTH, &one) && rejects(&one.server, FE2O3_REJECTION_CHANNEL));
    config.channels.tls_exporter_len = 65;
    told(mechanism, "data of the channel that are too long", offer_by(&config, &offer) == FE2O3_CHANNEL_DATA_LENGTH);
    config.channels.binds_channel = 0;
    told(mechanism, "which play no part where no channel is bound", ends(&login, &config, FE2O3_AUTHENTICATED, &one));
}

int main(void)
{
    by_several();
    by_hand();
    by_scram("SCRAM-SHA-1", FE2O3_SHA_1);
    by_scram("SCRAM-SHA-256", FE2O3_SHA_256);
    by_scram("SCRAM-SHA-512", FE2O3_SHA_512);
    by_others();
    out_of_turn();
    cbind_flag_y();
    channels("SCRAM-SHA-1", FE2O3_SHA_1);
    channels("SCRAM-SHA-256", FE2O3_SHA_256);
    channels("SCRAM-SHA-512", FE2O3_SHA_512);
    strict();
    identities("SCRAM-SHA-256", FE2O3_SCRAM);
    identities("PLAIN", FE2O3_PLAIN);
    identities_of_others();
    signature_by_challenge();
    initial_response_by_challenge();
    return differences != 0;
}
