/* Logins over the texts of SCRAM, client and server in one program, by each of the three hashes. Prints a line for each
 * case, and ends with 1 where one of them is not as it should be. */
#include "fe2o3_sasl.h"

#include <stdio.h>
#include <string.h>

/* A text of the program and its length; a text that was written and its length; a room for one, and where the length
 * goes. */
#define TEXT(words) (const uint8_t *)(words), sizeof(words) - 1
#define GIVEN(text) (text).bytes, (text).len
#define ROOM(text) (text).bytes, sizeof((text).bytes), &(text).len

/* In earnest these are random: nonces fresh for each exchange, a salt for each record, the secret once for a server. */
static const uint8_t client_nonce[32] = {1}, server_nonce[32] = {2}, secret[32] = {3};
static const uint8_t salt[16] = {4}, other_salt[16] = {5};

/* The salt of the example in RFC 7677, and its record. */
static const uint8_t known_salt[] = {0x5b, 0x6d, 0x99, 0x68, 0x9d, 0x12, 0x35, 0x8e, 0xec, 0xa0, 0x4b, 0x14, 0x12, 0x36,
    0xfa, 0x81};
static const char known_record[] =
    "SCRAM-SHA-256$4096:W22ZaJ0SNY7soEsUEjb6gQ==$"
    "WG5d8oPm3OtcPnkdi4Uo7BkeZkBFzpcXkuLmtbsT4qY=:wfPLwcE6nTWhTAmQ7tl2KeoiWGPlZqQxSrmfPwDl2dU=";

/* A non-ASCII password as it is typed, what SASLprep prepares it to, and the records of that with this salt. The text
 * is that of Python's stringprep and unicodedata, and the keys are those of its hashlib and hmac. */
#define TYPED "pe\xcc\x81nci\xc2\xadl"
#define PREPARED "p\xc3\xa9ncil"
static const char prepared_1[] = "SCRAM-SHA-1$4096:W22ZaJ0SNY7soEsUEjb6gQ==$"
                                 "Ht246LvWj4JbiUgVboZaa3Roj10=:VnM/xDSMFNP7iA5XaO6kdgL3zFE=";
static const char prepared_256[] =
    "SCRAM-SHA-256$4096:W22ZaJ0SNY7soEsUEjb6gQ==$"
    "GvjFZBfZSolQ8xuwIHAJlAq3MY+MGTjIrstgvbZu83E=:a+w26Tb6NHrNXdjMF/QgL5GZ3qvfbaNAgGoK6yh4x/E=";
static const char prepared_512[] =
    "SCRAM-SHA-512$4096:W22ZaJ0SNY7soEsUEjb6gQ==$"
    "KsGVSzjR/2GTgnCTFuoXTEgtTdhv1X2UYlOIB436eFfyQZSvN7Wcfc90BvtmTOMVnB4GiRHOZJJHNA85LTOSKw==:"
    "g6s6sk5II26TgxYONS1psawypQCoArOrIGmhgNDCAgMpL7vo0MABNZh1G+EXYl037K3ZabWKSRDbDdobxkbHUA==";

/* The messages of a client of SCRAM-SHA-256 that could bind a channel, and of one that acts for the identity "app,=x", by
 * the password "pencil", the nonces below and this salt: the proofs and the server's signatures are those of Python's
 * hashlib and hmac. */
#define CLIENT_NONCE "AQAAAAAAAAAAAAAAAAAAAAAAAAAAAAAAAAAAAAAAAAA="
#define SERVER_NONCE "AgAAAAAAAAAAAAAAAAAAAAAAAAAAAAAAAAAAAAAAAAA="
#define BOTH_NONCES CLIENT_NONCE SERVER_NONCE
#define CBIND_FLAG_Y_FIRST "y,,n=user,r=" CLIENT_NONCE
#define CBIND_FLAG_Y_FINAL "c=eSws,r=" BOTH_NONCES ",p=SJ1/Pm0x+vAkhmfEkR72IPuVMVkUt0BF477aSDSc3vM="
#define IDENTITY_FIRST "n,a=app=2C=3Dx,n=user,r=" CLIENT_NONCE
#define IDENTITY_FINAL "c=bixhPWFwcD0yQz0zRHgs,r=" BOTH_NONCES ",p=lUV+g1XMlTmV05varqM+UoyQI4m06aNk7AMkvjp528I="
#define PLAIN_FINAL "c=biws,r=" BOTH_NONCES ",p=MIHdNcfet0LbDJOcfcN6eFJrJahL13kbab8XbO3ku+k="

static const struct fe2o3_scram_rules no_rules = FE2O3_SCRAM_RULES_INIT;

struct text {
    uint8_t bytes[2048];
    size_t len;
};

/* What either side keeps of an exchange, and what was sent. */
struct exchange {
    struct fe2o3_scram_client client;
    struct fe2o3_scram_server server;
    struct text client_first, server_first, client_final, server_final;
};

static int differences;

static void told(uint32_t version, const char *what, int holds)
{
    printf("%3u %s: %s\n", (unsigned)version, what, holds ? "ok" : "DIFFERS");
    differences += !holds;
}

static int spells(const struct text *text, const char *words)
{
    return text->len == strlen(words) && memcmp(text->bytes, words, text->len) == 0;
}

/* A whole exchange, or one up to the call that is refused. Answers the number of its last call. */
static uint32_t run(struct exchange *one, const struct fe2o3_login *login, const struct fe2o3_scram_record *record)
{
    uint32_t number;
    memset(one, 0, sizeof *one);
    number = fe2o3_scram_client_first(login, &one->client, client_nonce, ROOM(one->client_first));
    if (number == FE2O3_OK)
        number = fe2o3_scram_server_first(&no_rules, record, &one->server, server_nonce, GIVEN(one->client_first),
            ROOM(one->server_first));
    if (number == FE2O3_OK)
        number = fe2o3_scram_client_final(login, &one->client, GIVEN(one->server_first), ROOM(one->client_final));
    if (number == FE2O3_OK)
        number = fe2o3_scram_server_final(&no_rules, record, &one->server, GIVEN(one->client_final),
            ROOM(one->server_final));
    if (number == FE2O3_OK)
        number = fe2o3_scram_client_verify(login, &one->client, GIVEN(one->server_final));
    return number;
}

/* A room that is too small, and then one that is just large enough. */
static int rooms(const struct fe2o3_login *login, const struct exchange *whole)
{
    struct fe2o3_scram_client client = {0}, before = {0};
    struct text out = {{0}, 0};
    const struct text empty = {{0}, 0};
    size_t first_len = whole->client_first.len;
    size_t suffices = whole->server_first.len + (login->channel_use == FE2O3_CHANNEL_BOUND ? 256 : 128)
        + (login->acts_for_len ? 1024 : 0);
    int holds = fe2o3_scram_client_first(login, &client, client_nonce, out.bytes, first_len - 1, &out.len)
        == FE2O3_ROOM_TOO_SMALL;
    holds &= out.len == first_len && memcmp(out.bytes, empty.bytes, sizeof out.bytes) == 0;
    holds &= memcmp(&client, &before, sizeof client) == 0;
    holds &= fe2o3_scram_client_first(login, &client, client_nonce, out.bytes, first_len, &out.len) == FE2O3_OK;
    before = client;
    out = empty;
    holds &= fe2o3_scram_client_final(login, &client, GIVEN(whole->server_first), out.bytes, suffices - 1, &out.len)
        == FE2O3_ROOM_TOO_SMALL;
    holds &= out.len == suffices && memcmp(out.bytes, empty.bytes, sizeof out.bytes) == 0;
    holds &= memcmp(&client, &before, sizeof client) == 0;
    holds &=
        fe2o3_scram_client_final(login, &client, GIVEN(whole->server_first), out.bytes, suffices, &out.len) == FE2O3_OK;
    return holds && out.len == whole->client_final.len && memcmp(out.bytes, whole->client_final.bytes, out.len) == 0;
}

static void cases(uint32_t version)
{
    struct fe2o3_scram_keys no_keys = {0}, keys = {0}, made = {0};
    struct fe2o3_scram_record record = {0}, read = {0}, other = {0}, mock = {0};
    struct fe2o3_login login = {.version = version,
        .min_iterations = 4096,
        .max_iterations = 100000,
        .username = TEXT("user"),
        .acts_for = FE2O3_NONE,
        .password = TEXT("pencil"),
        .keys = &no_keys};
    struct fe2o3_login by_keys = {.version = version,
        .secret = 1,
        .min_iterations = 4096,
        .max_iterations = 100000,
        .username = TEXT("user"),
        .acts_for = FE2O3_NONE,
        .password = FE2O3_NONE,
        .keys = &keys};
    struct fe2o3_login stranger = login;
    struct text text = {{0}, 0}, user = {{0}, 0};
    struct exchange one, next;

    told(version, "a record is written and read",
        fe2o3_scram_record_make(version, FE2O3_TYPED, TEXT("pencil"), salt, sizeof salt, 4096, &record) == FE2O3_OK
            && fe2o3_scram_record_text(&record, ROOM(text)) == FE2O3_OK
            && fe2o3_scram_record_parse(GIVEN(text), &read) == FE2O3_OK && memcmp(&read, &record, sizeof read) == 0);
    told(version, "the record knows its password",
        fe2o3_scram_record_verify(&record, FE2O3_TYPED, TEXT("pencil")) == FE2O3_OK
            && fe2o3_scram_record_verify(&record, FE2O3_TYPED, TEXT("pencils")) != FE2O3_OK);
    told(version, "a login", run(&one, &login, &record) == FE2O3_OK);
    told(version, "the server knows who it is, before and after",
        fe2o3_scram_server_claimed_user(&no_rules, GIVEN(one.client_first), ROOM(user)) == FE2O3_OK
            && spells(&user, "user") && fe2o3_scram_server_authenticated_user(&one.server, ROOM(text)) == FE2O3_OK
            && spells(&text, "user"));

    told(version, "the login hands out its keys",
        fe2o3_scram_client_get_keys(&one.client, &keys) == FE2O3_OK
            && fe2o3_scram_keys_make(version, FE2O3_TYPED, TEXT("pencil"), salt, sizeof salt, 4096, &made) == FE2O3_OK
            && memcmp(&keys, &made, sizeof keys) == 0);
    told(version, "a login by keys", run(&next, &by_keys, &record) == FE2O3_OK);
    fe2o3_scram_record_make(version, FE2O3_TYPED, TEXT("pencil"), other_salt, sizeof other_salt, 4096, &other);
    told(version, "keys of another salt", run(&next, &by_keys, &other) == FE2O3_CLIENT_STALE_KEYS);

    stranger.password_len--;
    told(version, "a wrong password",
        run(&next, &stranger, &record) == FE2O3_SERVER_AUTHENTICATION_FAILED
            && fe2o3_scram_server_authenticated_user(&next.server, ROOM(text)) != FE2O3_OK);
    told(version, "an error of the server, and a wrong signature",
        fe2o3_scram_server_error_message(FE2O3_SERVER_AUTHENTICATION_FAILED, ROOM(text)) == FE2O3_OK
            && spells(&text, "e=invalid-proof")
            && fe2o3_scram_client_verify(&stranger, &next.client, GIVEN(text)) == FE2O3_SERVER_ERROR
            && fe2o3_scram_server_error(GIVEN(text)) == FE2O3_SERVER_ERROR_INVALID_PROOF
            && fe2o3_scram_client_verify(&stranger, &next.client, TEXT("v=AAAA"))
                == FE2O3_CLIENT_SERVER_SIGNATURE_MISMATCH);
    told(version, "an unknown user, who is told the same salt each time",
        fe2o3_scram_record_mock(version, secret, 32, TEXT("user"), sizeof salt, 4096, &mock) == FE2O3_OK
            && fe2o3_scram_record_mock(version, secret, 32, TEXT("user"), sizeof salt, 4096, &read) == FE2O3_OK
            && memcmp(&mock, &read, sizeof mock) == 0
            && run(&next, &login, &mock) == FE2O3_SERVER_AUTHENTICATION_FAILED);
    login.max_iterations = 4095;
    told(version, "an iteration count above the limit",
        run(&next, &login, &record) == FE2O3_CLIENT_ITERATION_COUNT_TOO_LARGE);
    login.max_iterations = 4096;
    told(version, "a room that is too small, and then large enough", rooms(&login, &one));
    /* (text has a record, and a client that has answered has its keys) */
    fe2o3_wipe(&text, sizeof text);
    fe2o3_wipe(&one, sizeof one);
    fe2o3_wipe(&next, sizeof next);
    fe2o3_wipe(&keys, sizeof keys);
    fe2o3_wipe(&made, sizeof made);
    fe2o3_wipe(&record, sizeof record);
    fe2o3_wipe(&read, sizeof read);
    fe2o3_wipe(&other, sizeof other);
    fe2o3_wipe(&mock, sizeof mock);
}

/* A test of a message of PLAIN by the record below. */
#define VERIFY(...) fe2o3_plain_verify(&record, 1, FE2O3_PLAIN_PASSWORDS_TYPED, 4096, __VA_ARGS__)

/* A record of its fields, and PLAIN and EXTERNAL over messages. */
static void messages(uint32_t version)
{
    struct fe2o3_scram_record record = {0}, made = {0}, mock = {0};
    struct text message = {{0}, 0}, named = {{0}, 0}, user = {{0}, 0};
    size_t digest = version == FE2O3_SHA_1 ? 20 : version / 8;

    fe2o3_scram_record_make(version, FE2O3_TYPED, TEXT("pencil"), salt, sizeof salt, 4096, &record);
    told(version, "a record of its fields",
        fe2o3_scram_record_from_fields(version, record.salt, record.salt_len, record.iterations, record.stored_key,
            digest, record.server_key, digest, &made)
                == FE2O3_OK
            && memcmp(&made, &record, sizeof made) == 0
            && fe2o3_scram_record_from_fields(version, salt, sizeof salt, 4096, record.stored_key, digest - 1,
                   record.server_key, digest, &made)
                == FE2O3_RECORD_KEY_LENGTH_MISMATCH
            && fe2o3_scram_record_from_fields(version, salt, sizeof salt, 0, record.stored_key, digest - 1,
                   record.server_key, digest, &made)
                == FE2O3_ZERO_ITERATIONS
            && memcmp(&made, &record, sizeof made) == 0);
    told(version, "a message of PLAIN, and its user",
        fe2o3_plain_message(FE2O3_NONE, TEXT("user"), TEXT("pencil"), ROOM(message)) == FE2O3_OK && message.len == 12
            && memcmp(message.bytes, "\0user\0pencil", 12) == 0
            && fe2o3_plain_claimed_user(GIVEN(message), ROOM(user)) == FE2O3_OK && spells(&user, "user")
            && fe2o3_plain_claimed_identity(GIVEN(message), ROOM(user)) == FE2O3_OK && user.len == 0
            && fe2o3_plain_claimed_user(TEXT("\0\0pencil"), ROOM(user)) == FE2O3_NAMES_NO_USER
            && fe2o3_plain_claimed_identity(TEXT("root\0\0pencil"), ROOM(user)) == FE2O3_NAMES_NO_USER);
    told(version, "a message of PLAIN that asks for an identity",
        fe2o3_plain_message(TEXT("root"), TEXT("user"), TEXT("pencil"), ROOM(named)) == FE2O3_OK && named.len == 16
            && memcmp(named.bytes, "root\0user\0pencil", 16) == 0
            && fe2o3_plain_claimed_user(GIVEN(named), ROOM(user)) == FE2O3_OK && spells(&user, "user")
            && fe2o3_plain_claimed_identity(GIVEN(named), ROOM(user)) == FE2O3_OK && spells(&user, "root"));
    told(version, "whom the user may act for",
        VERIFY(1, TEXT("app\0root\0"), GIVEN(named)) == FE2O3_OK
            && VERIFY(1, TEXT("app\0root"), GIVEN(named)) == FE2O3_OK
            && VERIFY(1, TEXT("app\0roo\0rootx\0"), GIVEN(named)) == FE2O3_SERVER_AUTHENTICATION_FAILED
            && VERIFY(1, FE2O3_NONE, GIVEN(named)) == FE2O3_SERVER_AUTHENTICATION_FAILED
            && VERIFY(0, TEXT("root\0"), GIVEN(named)) == FE2O3_SERVER_AUTHENTICATION_FAILED
            && VERIFY(1, TEXT("root\0"), TEXT("root\0user\0pencils")) == FE2O3_SERVER_AUTHENTICATION_FAILED
            && VERIFY(0, FE2O3_NONE, TEXT("user\0user\0pencil")) == FE2O3_OK
            && VERIFY(1, FE2O3_NONE, TEXT("user\0user\0pencil")) == FE2O3_OK
            && VERIFY(1, FE2O3_NONE, GIVEN(message)) == FE2O3_OK
            && VERIFY(1, TEXT("\xff"), GIVEN(message)) == FE2O3_NOT_UTF8
            && fe2o3_plain_verify(&record, 1, 3, 4096, 1, TEXT("\xff"), GIVEN(named)) == FE2O3_NO_SUCH_CHOICE);
    told(version, "a login by PLAIN, a wrong password and an unknown user",
        VERIFY(0, FE2O3_NONE, GIVEN(message)) == FE2O3_OK
            && VERIFY(0, FE2O3_NONE, TEXT("\0user\0pencils")) == FE2O3_SERVER_AUTHENTICATION_FAILED
            && fe2o3_plain_verify(&record, 0, FE2O3_PLAIN_PASSWORDS_TYPED, 4096, 0, FE2O3_NONE, GIVEN(message))
                == FE2O3_SERVER_AUTHENTICATION_FAILED
            && fe2o3_scram_record_mock(version, secret, 32, TEXT("user"), sizeof salt, 4096, &mock) == FE2O3_OK
            && fe2o3_plain_verify(&mock, 1, FE2O3_PLAIN_PASSWORDS_TYPED, 4096, 0, FE2O3_NONE, GIVEN(message))
                == FE2O3_SERVER_AUTHENTICATION_FAILED
            && fe2o3_plain_verify(&record, 1, 3, 4096, 0, FE2O3_NONE, GIVEN(message)) == FE2O3_NO_SUCH_CHOICE);
    told(version, "EXTERNAL",
        fe2o3_external_verify(TEXT("peer"), FE2O3_NONE) == FE2O3_OK
            && fe2o3_external_verify(TEXT("peer"), TEXT("peer")) == FE2O3_OK
            && fe2o3_external_verify(TEXT("peer"), TEXT("pear")) == FE2O3_SERVER_AUTHENTICATION_FAILED
            && fe2o3_external_verify(FE2O3_NONE, FE2O3_NONE) == FE2O3_SERVER_AUTHENTICATION_FAILED);
}

/* A non-ASCII password: what it is prepared to, the record of that, and logins by it and by its keys. */
static void prepared(uint32_t version, const char *words)
{
    struct fe2o3_scram_keys no_keys = {0}, keys = {0}, made = {0};
    struct fe2o3_scram_record record = {0}, other = {0};
    struct text password = {{0}, 0}, text = {{0}, 0};
    struct exchange one;
    struct fe2o3_login login = {.version = version,
        .form = FE2O3_PREPARED,
        .min_iterations = 4096,
        .max_iterations = 4096,
        .username = TEXT("user"),
        .acts_for = FE2O3_NONE,
        .password = FE2O3_NONE,
        .keys = &no_keys};

    told(version, "a non-ASCII password is prepared",
        fe2o3_saslprep(TEXT(TYPED), FE2O3_UNASSIGNED_REFUSED, ROOM(password)) == FE2O3_OK
            && spells(&password, PREPARED));
    told(version, "the record of a prepared password",
        fe2o3_scram_record_make(version, FE2O3_PREPARED, GIVEN(password), known_salt, sizeof known_salt, 4096, &record)
                == FE2O3_OK
            && fe2o3_scram_record_text(&record, ROOM(text)) == FE2O3_OK && spells(&text, words));
    told(version, "the record knows its prepared password",
        fe2o3_scram_record_verify(&record, FE2O3_PREPARED, GIVEN(password)) == FE2O3_OK
            && fe2o3_scram_record_verify(&record, FE2O3_PREPARED, TEXT(TYPED)) == FE2O3_OTHER_PASSWORD
            && fe2o3_scram_record_verify(&record, FE2O3_TYPED, GIVEN(password)) == FE2O3_OTHER_PASSWORD);
    login.password = password.bytes;
    login.password_len = password.len;
    told(version, "a login by a prepared password", run(&one, &login, &record) == FE2O3_OK);
    told(version, "its keys",
        fe2o3_scram_client_get_keys(&one.client, &keys) == FE2O3_OK
            && fe2o3_scram_keys_make(version, FE2O3_PREPARED, GIVEN(password), known_salt, sizeof known_salt, 4096,
                   &made)
                == FE2O3_OK
            && memcmp(&keys, &made, sizeof keys) == 0);
    login.secret = FE2O3_BY_PASSWORD_AND_KEYS;
    told(version, "a login by both without keys is one by the password", run(&one, &login, &record) == FE2O3_OK);
    login.keys = &keys;
    fe2o3_scram_record_make(version, FE2O3_PREPARED, GIVEN(password), other_salt, sizeof other_salt, 4096, &other);
    told(version, "a login by both, also with another salt",
        run(&one, &login, &record) == FE2O3_OK && run(&one, &login, &other) == FE2O3_OK);
    login.secret = FE2O3_BY_PASSWORD;
    login.form = FE2O3_TYPED;
    told(version, "the same as a typed one is refused",
        run(&one, &login, &record) == FE2O3_CLIENT_NORMALIZE_ERROR
            && fe2o3_scram_record_make(version, FE2O3_TYPED, GIVEN(password), salt, sizeof salt, 4096, &other)
                == FE2O3_NOT_PRINTABLE);
    login.form = 2;
    told(version, "a form that is none",
        run(&one, &login, &record) == FE2O3_NO_SUCH_CHOICE
            && fe2o3_scram_record_verify(&record, 2, GIVEN(password)) == FE2O3_NO_SUCH_CHOICE
            && fe2o3_scram_record_make(version, 2, GIVEN(password), salt, sizeof salt, 4096, &other)
                == FE2O3_NO_SUCH_CHOICE);
    login.secret = 3;
    told(version, "a secret that is none", run(&one, &login, &record) == FE2O3_NO_SUCH_SECRET);
}

/* The examples of RFC 4013, section 3, and the refusals that they do not show. */
static void preparing(void)
{
    static const struct {
        const char *typed, *prepared;
        uint32_t unassigned, number;
    } rows[] = {
        {"I\xc2\xadX", "IX", 0, FE2O3_OK},
        {"user", "user", 0, FE2O3_OK},
        {"USER", "USER", 0, FE2O3_OK},
        {"\xc2\xaa", "a", 0, FE2O3_OK},
        {"\xe2\x85\xa8", "IX", 0, FE2O3_OK},
        {"\x07", "", 0, FE2O3_PROHIBITED_CHARACTER},
        {"\xd8\xa7\x31", "", 0, FE2O3_MIXED_DIRECTIONS},
        {"\xc8\xa1", "", 0, FE2O3_UNASSIGNED_CODE_POINT},
        {"\xc8\xa1", "\xc8\xa1", 1, FE2O3_OK},
        {"\xff", "", 0, FE2O3_NOT_UTF8},
        {"\xff", "", 2, FE2O3_NO_SUCH_CHOICE},
    };
    struct text out = {{0}, 0};
    int holds = 1;
    for (size_t at = 0; at < sizeof rows / sizeof *rows; at++) {
        const uint8_t *typed = (const uint8_t *)rows[at].typed;
        out.len = 0;
        holds &= fe2o3_saslprep(typed, strlen(rows[at].typed), rows[at].unassigned, ROOM(out)) == rows[at].number;
        holds &= spells(&out, rows[at].prepared);
    }
    holds &= fe2o3_saslprep(TEXT(TYPED), 0, out.bytes, 6, &out.len) == FE2O3_ROOM_TOO_SMALL && out.len == 7;
    told(0, "texts are prepared, or refused", holds);
}

/* A client that could bind a channel, at a server that takes it and at one that does not. */
static void cbind_flag_y(void)
{
    const struct fe2o3_scram_rules either = {.accept_cbind_flag_y = 1, .identities = FE2O3_NONE};
    struct fe2o3_scram_record record = {0};
    struct fe2o3_scram_server server = {0};
    struct text text = {{0}, 0};
    fe2o3_scram_record_make(FE2O3_SHA_256, FE2O3_TYPED, TEXT("pencil"), known_salt, sizeof known_salt, 4096, &record);
    told(FE2O3_SHA_256, "the header `y,,` is refused",
        fe2o3_scram_server_first(&no_rules, &record, &server, server_nonce, TEXT(CBIND_FLAG_Y_FIRST), ROOM(text))
            == FE2O3_SERVER_CANNOT_PARSE_GS2_HEADER);
    told(FE2O3_SHA_256, "the header `y,,` is taken on wish",
        fe2o3_scram_server_claimed_user(&no_rules, TEXT(CBIND_FLAG_Y_FIRST), ROOM(text)) == FE2O3_OK
            && spells(&text, "user")
            && fe2o3_scram_server_first(&either, &record, &server, server_nonce, TEXT(CBIND_FLAG_Y_FIRST), ROOM(text))
                == FE2O3_OK
            && spells(&text, "r=" BOTH_NONCES ",s=W22ZaJ0SNY7soEsUEjb6gQ==,i=4096"));
    told(FE2O3_SHA_256, "the last message repeats it",
        fe2o3_scram_server_final(&either, &record, &server, TEXT(PLAIN_FINAL), ROOM(text))
                == FE2O3_SERVER_INVALID_CHANNEL_BINDING
            && fe2o3_scram_server_final(&either, &record, &server, TEXT(CBIND_FLAG_Y_FINAL), ROOM(text)) == FE2O3_OK
            && spells(&text, "v=mZx4E2gu+jcdDC0u/pNy5NPrR0Zh6PMH8UcHTIgvIxU=")
            && fe2o3_scram_server_authenticated_user(&server, ROOM(text)) == FE2O3_OK && spells(&text, "user"));
}

/* The data of a channel, and what a client and a server know of it. */
static const uint8_t channel_data[64] = {7, 0, 9, 255};

static void bind_channel(struct fe2o3_login *login, uint32_t kind, uint32_t len)
{
    login->channel_use = FE2O3_CHANNEL_BOUND;
    login->channel_kind = kind;
    login->channel_data_len = len;
    memcpy(login->channel_data, channel_data, sizeof channel_data);
}

static struct fe2o3_scram_rules binding(uint32_t kind, uint32_t len)
{
    struct fe2o3_scram_rules rules = {.channels.binds_channel = 1, .identities = FE2O3_NONE};
    *(kind == FE2O3_TLS_UNIQUE                   ? &rules.channels.tls_unique_len
            : kind == FE2O3_TLS_SERVER_END_POINT ? &rules.channels.tls_server_end_point_len
                                                 : &rules.channels.tls_exporter_len) = len;
    memcpy(rules.channels.tls_unique, channel_data, sizeof channel_data);
    memcpy(rules.channels.tls_server_end_point, channel_data, sizeof channel_data);
    memcpy(rules.channels.tls_exporter, channel_data, sizeof channel_data);
    return rules;
}

/* Like `run`, with rules for each call of the server. */
static uint32_t run_by(struct exchange *one, const struct fe2o3_login *login, const struct fe2o3_scram_record *record,
    const struct fe2o3_scram_rules *first, const struct fe2o3_scram_rules *last)
{
    struct text user;
    uint32_t number;
    memset(one, 0, sizeof *one);
    number = fe2o3_scram_client_first(login, &one->client, client_nonce, ROOM(one->client_first));
    if (number == FE2O3_OK)
        number = fe2o3_scram_server_claimed_user(first, GIVEN(one->client_first), ROOM(user));
    if (number == FE2O3_OK)
        number = fe2o3_scram_server_first(first, record, &one->server, server_nonce, GIVEN(one->client_first),
            ROOM(one->server_first));
    if (number == FE2O3_OK)
        number = fe2o3_scram_client_final(login, &one->client, GIVEN(one->server_first), ROOM(one->client_final));
    if (number == FE2O3_OK)
        number =
            fe2o3_scram_server_final(last, record, &one->server, GIVEN(one->client_final), ROOM(one->server_final));
    if (number == FE2O3_OK)
        number = fe2o3_scram_client_verify(login, &one->client, GIVEN(one->server_final));
    return number;
}

/* Channel binding (RFC 5802, section 6), by each kind. */
static void channels(uint32_t version)
{
    static const char *headers[] = {
        "p=tls-unique,,n=user,r=", "p=tls-server-end-point,,n=user,r=", "p=tls-exporter,,n=user,r="};
    const uint32_t not_parsed = FE2O3_SERVER_CANNOT_PARSE_GS2_HEADER;
    struct fe2o3_scram_keys no_keys = {0};
    struct fe2o3_scram_record record = {0};
    const struct fe2o3_login plain = {.version = version,
        .min_iterations = 4096,
        .max_iterations = 100000,
        .username = TEXT("user"),
        .acts_for = FE2O3_NONE,
        .password = TEXT("pencil"),
        .keys = &no_keys};
    const struct fe2o3_scram_rules no_data = {.channels.binds_channel = 1, .identities = FE2O3_NONE},
                                   with_y = {.accept_cbind_flag_y = 1, .identities = FE2O3_NONE};
    struct exchange one;
    fe2o3_scram_record_make(version, FE2O3_TYPED, TEXT("pencil"), salt, sizeof salt, 4096, &record);
    for (uint32_t kind = FE2O3_TLS_UNIQUE; kind <= FE2O3_TLS_EXPORTER; kind++) {
        struct fe2o3_login login = plain, other = plain;
        const struct fe2o3_scram_rules rules = binding(kind, 32), another = binding(kind % 3 + 1, 32);
        bind_channel(&login, kind, 32);
        bind_channel(&other, kind, 31);
        told(version, "a login that binds its channel",
            run_by(&one, &login, &record, &rules, &rules) == FE2O3_OK
                && one.server.state == FE2O3_SCRAM_SERVER_AUTHENTICATED
                && memcmp(one.client_first.bytes, headers[kind - 1], strlen(headers[kind - 1])) == 0);
        told(version, "other data of the channel",
            run_by(&one, &other, &record, &rules, &rules) == FE2O3_SERVER_INVALID_CHANNEL_BINDING
                && one.server.state == FE2O3_SCRAM_SERVER_CHALLENGE_OPEN_TLS_UNIQUE + kind - 1);
        told(version, "another kind, no data of any kind, and no channel",
            run_by(&one, &login, &record, &another, &another) == not_parsed
                && run_by(&one, &login, &record, &no_data, &no_data) == not_parsed
                && run_by(&one, &login, &record, &no_rules, &no_rules) == not_parsed
                && run_by(&one, &plain, &record, &rules, &rules) == not_parsed);
        told(version, "other rules for the last message",
            run_by(&one, &login, &record, &rules, &no_rules) == FE2O3_SERVER_ILLEGAL_AUTHENTICATOR_STATE
                && run_by(&one, &login, &record, &rules, &another) == FE2O3_SERVER_ILLEGAL_AUTHENTICATOR_STATE
                && run_by(&one, &plain, &record, &no_rules, &rules) == FE2O3_SERVER_ILLEGAL_AUTHENTICATOR_STATE);
        login.channel_use = FE2O3_CHANNEL_NOT_OFFERED;
        told(version, "a channel without an offer",
            run_by(&one, &login, &record, &rules, &rules) == not_parsed
                && run_by(&one, &login, &record, &no_rules, &no_rules) == not_parsed
                && run_by(&one, &login, &record, &with_y, &with_y) == FE2O3_OK);
    }
    for (uint32_t len = 0; len <= 65; len += 65) {
        struct fe2o3_login login = plain;
        const struct fe2o3_scram_rules rules = binding(FE2O3_TLS_EXPORTER, len);
        bind_channel(&login, FE2O3_TLS_EXPORTER, len);
        told(version, "data of a channel of a wrong length",
            run_by(&one, &login, &record, &no_rules, &no_rules) == FE2O3_CHANNEL_DATA_LENGTH
                && run_by(&one, &plain, &record, &rules, &rules) == (len ? FE2O3_CHANNEL_DATA_LENGTH : not_parsed));
        login.channel_kind = 4;
        told(version, "a kind that is none",
            run_by(&one, &login, &record, &no_rules, &no_rules) == FE2O3_NO_SUCH_CHANNEL);
        login.channel_use = 3;
        told(version, "a use that is none",
            run_by(&one, &login, &record, &no_rules, &no_rules) == FE2O3_NO_SUCH_CHANNEL);
    }
}

/* A client that acts for an identity (RFC 4422, section 2; RFC 5802, section 5.1): its messages, and a server that accepts
 * them. */
static void identities(void)
{
    struct fe2o3_scram_keys no_keys = {0};
    struct fe2o3_login login = {.version = FE2O3_SHA_256,
                           .min_iterations = 4096,
                           .max_iterations = 4096,
                           .username = TEXT("user"),
                           .acts_for = TEXT("app,=x"),
                           .password = TEXT("pencil"),
                           .keys = &no_keys},
                       itself = login;
    const struct fe2o3_scram_rules none = FE2O3_SCRAM_RULES_INIT;
    struct fe2o3_scram_rules rules = none;
    struct fe2o3_scram_record record = {0};
    struct exchange one;
    struct text name;
    fe2o3_scram_record_make(FE2O3_SHA_256, FE2O3_TYPED, TEXT("pencil"), known_salt, sizeof known_salt, 4096, &record);
    itself.acts_for_len = 0;
    rules.accept_authzid = 1;
    rules.identities = (const uint8_t *)"other\0app,=x";
    rules.identities_len = sizeof "other\0app,=x";
    told(FE2O3_SHA_256, "a client that acts for an identity",
        run_by(&one, &login, &record, &rules, &rules) == FE2O3_OK && spells(&one.client_first, IDENTITY_FIRST)
            && spells(&one.client_final, IDENTITY_FINAL)
            && spells(&one.server_final, "v=irBN5hQX5aWK7OnluDX/OH634J++25mLKO9nCu6cu9A=")
            && fe2o3_scram_server_claimed_identity(&rules, GIVEN(one.client_first), ROOM(name)) == FE2O3_OK
            && spells(&name, "app,=x") && fe2o3_scram_server_acts_for(&one.server, ROOM(name)) == FE2O3_OK
            && spells(&name, "app,=x") && rooms(&login, &one));
    told(FE2O3_SHA_256, "a client that acts for itself",
        run_by(&one, &itself, &record, &rules, &rules) == FE2O3_OK && spells(&one.client_final, PLAIN_FINAL)
            && fe2o3_scram_server_acts_for(&one.server, ROOM(name)) == FE2O3_OK && name.len == 0);
    rules.identities_len = sizeof "other" - 1;
    told(FE2O3_SHA_256, "a user without the right, and a server that accepts no identities",
        run_by(&one, &login, &record, &rules, &rules) == FE2O3_SERVER_AUTHENTICATION_FAILED
            && run_by(&one, &login, &record, &none, &none) == FE2O3_SERVER_CANNOT_PARSE_GS2_HEADER);
    for (int second = 0; second < 2; second++) {
        memset(&one, 0, sizeof one);
        fe2o3_scram_client_first(second ? &login : &itself, &one.client, client_nonce, ROOM(one.client_first));
        told(FE2O3_SHA_256, "only a client that names an identity rejects an attribute without being strict",
            fe2o3_scram_client_final(second ? &login : &itself, &one.client,
                TEXT("r=" BOTH_NONCES ",s=BAQ=,i=4096,c=biws"), ROOM(one.client_final))
                == (second ? FE2O3_CLIENT_MISPLACED_ATTRIBUTE : FE2O3_OK));
        fe2o3_scram_client_first(second ? &login : &itself, &one.client, client_nonce, ROOM(one.client_first));
        fe2o3_scram_client_final(second ? &login : &itself, &one.client, TEXT("r=" BOTH_NONCES ",s=BAQ=,i=4096"),
            ROOM(one.client_final));
        told(FE2O3_SHA_256, "and one after a signature",
            fe2o3_scram_client_verify(second ? &login : &itself, &one.client, TEXT("v=AAAA,m=1"))
                == (second ? FE2O3_CLIENT_MISPLACED_ATTRIBUTE : FE2O3_CLIENT_SERVER_SIGNATURE_MISMATCH));
    }
}

/* The longest identity, each byte of which takes three, and identities that no client sends. */
static void identities_of_each_form(void)
{
    static uint8_t commas[257], whole[257];
    const uint8_t *bad = (const uint8_t *)"\xff";
    struct fe2o3_scram_keys no_keys = {0};
    struct fe2o3_login login = {.version = FE2O3_SHA_256,
        .min_iterations = 4096,
        .max_iterations = 4096,
        .username = TEXT("user"),
        .acts_for = commas,
        .acts_for_len = 256,
        .password = TEXT("pencil"),
        .keys = &no_keys};
    struct fe2o3_scram_rules rules = binding(FE2O3_TLS_SERVER_END_POINT, 64);
    struct fe2o3_scram_record record = {0};
    struct exchange one;
    struct text name;
    fe2o3_scram_record_make(FE2O3_SHA_256, FE2O3_TYPED, TEXT("pencil"), salt, sizeof salt, 4096, &record);
    memset(commas, ',', sizeof commas);
    memset(whole, ',', 256);
    rules.accept_authzid = 1;
    rules.identities = whole;
    rules.identities_len = sizeof whole;
    bind_channel(&login, FE2O3_TLS_SERVER_END_POINT, 64);
    told(FE2O3_SHA_256, "an identity of 256 bytes, and the longest data of a channel",
        run_by(&one, &login, &record, &rules, &rules) == FE2O3_OK && rooms(&login, &one)
            && fe2o3_scram_server_acts_for(&one.server, ROOM(name)) == FE2O3_OK && name.len == 256
            && memcmp(name.bytes, commas, 256) == 0);
    login.acts_for_len = 257;
    told(FE2O3_SHA_256, "an identity of 257 bytes", run_by(&one, &login, &record, &rules, &rules) == FE2O3_TOO_LONG);
    commas[256] = 0;
    told(FE2O3_SHA_256, "a long one with a zero byte",
        run_by(&one, &login, &record, &rules, &rules) == FE2O3_PROHIBITED_CHARACTER);
    login.channel_use = 3;
    login.acts_for = bad;
    login.acts_for_len = 1;
    told(FE2O3_SHA_256, "one that is not UTF-8, tested before the channel",
        run_by(&one, &login, &record, &rules, &rules) == FE2O3_NOT_UTF8);
    login.version = 0;
    told(FE2O3_SHA_256, "and after the version",
        run_by(&one, &login, &record, &rules, &rules) == FE2O3_NO_SUCH_VERSION);
}

/* What the grammar of RFC 5802, section 7, does not allow, at a side of each kind that is strict and one that is not. */
static void strict_sides(void)
{
    const struct fe2o3_scram_rules strict = {.strict = 1, .identities = FE2O3_NONE}, lax = FE2O3_SCRAM_RULES_INIT;
    struct fe2o3_scram_keys no_keys = {0};
    struct fe2o3_login login = {.version = FE2O3_SHA_256,
        .min_iterations = 4096,
        .max_iterations = 4096,
        .username = TEXT("user"),
        .acts_for = FE2O3_NONE,
        .password = TEXT("pencil"),
        .keys = &no_keys};
    struct fe2o3_scram_record record = {0};
    struct exchange one;
    fe2o3_scram_record_make(FE2O3_SHA_256, FE2O3_TYPED, TEXT("pencil"), salt, sizeof salt, 4096, &record);
    told(FE2O3_SHA_256, "a strict server",
        fe2o3_scram_server_first(&strict, &record, &one.server, server_nonce, TEXT("n,,n=user,r=abc,i=4096"),
            ROOM(one.server_first))
                == FE2O3_SERVER_MISPLACED_ATTRIBUTE
            && fe2o3_scram_server_first(&lax, &record, &one.server, server_nonce, TEXT("n,,n=user,r=abc,i=4096"),
                   ROOM(one.server_first))
                == FE2O3_OK);
    told(FE2O3_SHA_256, "an empty name",
        fe2o3_scram_server_first(&strict, &record, &one.server, server_nonce, TEXT("n,,n=,r=abc"),
            ROOM(one.server_first))
                == FE2O3_SERVER_CANNOT_PARSE_USERNAME
            && fe2o3_scram_server_first(&lax, &record, &one.server, server_nonce, TEXT("n,,n=,r=abc"),
                   ROOM(one.server_first))
                == FE2O3_OK);
    for (login.strict = 0; login.strict <= 1; login.strict++) {
        memset(&one, 0, sizeof one);
        fe2o3_scram_client_first(&login, &one.client, client_nonce, ROOM(one.client_first));
        told(FE2O3_SHA_256, login.strict ? "a strict client" : "a client that is not strict",
            fe2o3_scram_client_final(&login, &one.client, TEXT("r=" BOTH_NONCES ",s=BAQ=,i=4096,c=biws"),
                ROOM(one.client_final))
                == (login.strict ? FE2O3_CLIENT_MISPLACED_ATTRIBUTE : FE2O3_OK));
        fe2o3_scram_client_first(&login, &one.client, client_nonce, ROOM(one.client_first));
        told(FE2O3_SHA_256, "a count with a zero before it",
            fe2o3_scram_client_final(&login, &one.client, TEXT("r=" BOTH_NONCES ",s=BAQ=,i=04096"),
                ROOM(one.client_final))
                == (login.strict ? FE2O3_CLIENT_ITERATION_COUNT_PARSE_ERROR : FE2O3_OK));
        fe2o3_scram_client_first(&login, &one.client, client_nonce, ROOM(one.client_first));
        fe2o3_scram_client_final(&login, &one.client, TEXT("r=" BOTH_NONCES ",s=BAQ=,i=4096"), ROOM(one.client_final));
        told(FE2O3_SHA_256, "an attribute after a signature",
            fe2o3_scram_client_verify(&login, &one.client, TEXT("v=AAAA,m=1"))
                == (login.strict ? FE2O3_CLIENT_MISPLACED_ATTRIBUTE : FE2O3_CLIENT_SERVER_SIGNATURE_MISMATCH));
    }
}

/* A server that rejects what is no extension in the place of one, and nothing more. */
static void servers_that_reject_misplaced(void)
{
    const struct fe2o3_scram_rules rejects = {.reject_misplaced = 1, .identities = FE2O3_NONE},
                                   lax = FE2O3_SCRAM_RULES_INIT;
    struct fe2o3_scram_record record = {0};
    struct exchange one = {0};
    fe2o3_scram_record_make(FE2O3_SHA_256, FE2O3_TYPED, TEXT("pencil"), salt, sizeof salt, 4096, &record);
    for (int set = 0; set < 2; set++) {
        const struct fe2o3_scram_rules *rules = set ? &rejects : &lax;
        told(FE2O3_SHA_256, set ? "a server that rejects misplaced attributes" : "a server without options",
            fe2o3_scram_server_first(rules, &record, &one.server, server_nonce, TEXT("n,,n=user,r=abc,i=4096"),
                ROOM(one.server_first))
                    == (set ? FE2O3_SERVER_MISPLACED_ATTRIBUTE : FE2O3_OK)
                && fe2o3_scram_server_first(rules, &record, &one.server, server_nonce, TEXT("n,,n=user,r=abc,x=1"),
                       ROOM(one.server_first))
                    == FE2O3_OK);
        told(FE2O3_SHA_256, "one between the nonce and the proof",
            fe2o3_scram_server_final(rules, &record, &one.server,
                TEXT("c=biws,r=abc" SERVER_NONCE ",c=eSws,p=AAAAAAAAAAAAAAAAAAAAAAAAAAAAAAAAAAAAAAAAAAA="),
                ROOM(one.server_final))
                == (set ? FE2O3_SERVER_MISPLACED_ATTRIBUTE : FE2O3_SERVER_AUTHENTICATION_FAILED));
        told(FE2O3_SHA_256, "an empty name and an empty nonce",
            fe2o3_scram_server_first(rules, &record, &one.server, server_nonce, TEXT("n,,n=,r="),
                ROOM(one.server_first))
                == FE2O3_OK);
    }
}

/* A client that says `y,,` tests extensions, and is not strict otherwise. */
static void clients_with_a_channel(void)
{
    struct fe2o3_scram_keys no_keys = {0};
    struct fe2o3_login login = {.version = FE2O3_SHA_256,
        .min_iterations = 4096,
        .max_iterations = 4096,
        .username = TEXT("user"),
        .acts_for = FE2O3_NONE,
        .password = TEXT("pencil"),
        .keys = &no_keys};
    for (login.channel_use = FE2O3_CHANNEL_ABSENT; login.channel_use <= FE2O3_CHANNEL_NOT_OFFERED;
         login.channel_use++) {
        struct exchange one = {0};
        fe2o3_scram_client_first(&login, &one.client, client_nonce, ROOM(one.client_first));
        told(FE2O3_SHA_256, login.channel_use ? "a client that has a channel" : "a client that has none",
            fe2o3_scram_client_final(&login, &one.client, TEXT("r=" BOTH_NONCES ",s=BAQ=,i=4096,c=biws"),
                ROOM(one.client_final))
                == (login.channel_use ? FE2O3_CLIENT_MISPLACED_ATTRIBUTE : FE2O3_OK));
        fe2o3_scram_client_first(&login, &one.client, client_nonce, ROOM(one.client_first));
        told(FE2O3_SHA_256, "a count with a zero before it, and an extension",
            fe2o3_scram_client_final(&login, &one.client, TEXT("r=" BOTH_NONCES ",s=BAQ=,i=04096,x=1"),
                ROOM(one.client_final))
                == FE2O3_OK);
        told(FE2O3_SHA_256, "an attribute after a signature",
            fe2o3_scram_client_verify(&login, &one.client, TEXT("v=AAAA,c=biws"))
                == (login.channel_use ? FE2O3_CLIENT_MISPLACED_ATTRIBUTE : FE2O3_CLIENT_SERVER_SIGNATURE_MISMATCH));
    }
}

/* Whether each user of a text has a record of a version; 2 if the call returns an error, whose line is then this one. */
static uint32_t all_have(const char *lines, uint32_t version, size_t *line)
{
    uint32_t all = 3;
    uint32_t status = fe2o3_scram_lines_all_have((const uint8_t *)lines, strlen(lines), version, line, &all);
    return status == FE2O3_OK ? all : all == 3 ? 2 : 3;
}

/* Which hashes a server can offer to all users of a text. */
static void hashes_of_all_users(void)
{
    char lines[1024];
    size_t line = 7;
    snprintf(lines, sizeof lines, "a %s\na %s\nb %s\n", known_record, prepared_512, known_record);
    told(FE2O3_SHA_256, "all users have a record", all_have(lines, FE2O3_SHA_256, &line) == 1 && line == 7);
    told(FE2O3_SHA_512, "one user has no record", all_have(lines, FE2O3_SHA_512, &line) == 0);
    told(FE2O3_SHA_1, "no user has a record", all_have(lines, FE2O3_SHA_1, &line) == 0);
    told(FE2O3_SHA_1, "a text without users", all_have("", FE2O3_SHA_1, &line) == 1 && line == 7);
    told(FE2O3_SHA_256, "no such version", all_have(lines, 255, &line) == 2 && line == 0);
    snprintf(lines, sizeof lines, "a %s\nb\n", known_record);
    told(FE2O3_SHA_256, "a line without a record", all_have(lines, FE2O3_SHA_256, &line) == 2 && line == 2);
}

int main(void)
{
    struct fe2o3_scram_record record = {0};
    struct text text = {{0}, 0};
    fe2o3_scram_record_make(FE2O3_SHA_256, FE2O3_TYPED, TEXT("pencil"), known_salt, sizeof known_salt, 4096, &record);
    told(FE2O3_SHA_256, "the record of the standard's example",
        fe2o3_scram_record_text(&record, ROOM(text)) == FE2O3_OK && spells(&text, known_record));
    channels(FE2O3_SHA_1);
    channels(FE2O3_SHA_256);
    channels(FE2O3_SHA_512);
    strict_sides();
    servers_that_reject_misplaced();
    clients_with_a_channel();
    identities();
    identities_of_each_form();
    cases(FE2O3_SHA_1);
    cases(FE2O3_SHA_256);
    cases(FE2O3_SHA_512);
    messages(FE2O3_SHA_1);
    messages(FE2O3_SHA_256);
    messages(FE2O3_SHA_512);
    preparing();
    prepared(FE2O3_SHA_1, prepared_1);
    prepared(FE2O3_SHA_256, prepared_256);
    prepared(FE2O3_SHA_512, prepared_512);
    cbind_flag_y();
    hashes_of_all_users();
    return differences != 0;
}
