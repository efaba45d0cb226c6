/* Frames with an extended header (AMQP 1.0, part 2, section 2.3.1), which each side of a connection accepts as an option;
 * the words of PLAIN; and nonces that no call uses. Prints a line for each case, and ends with 1 where one of them is not as it should be. */
#include "fe2o3_sasl.h"

#include <stdio.h>
#include <string.h>

/* A text of the program and its length; bytes that were written and their length; a room for some, and where the length
 * goes. */
#define TEXT(words) (const uint8_t *)(words), sizeof(words) - 1
#define GIVEN(bytes_of) (bytes_of).bytes, (bytes_of).len
#define ROOM(bytes_of) (bytes_of).bytes, sizeof((bytes_of).bytes), &(bytes_of).len

/* In earnest these are random, and fresh for each call. */
static const uint8_t client_nonce[32] = {1}, server_nonce[32] = {2};

static const uint8_t salt[] = {0x5b, 0x6d, 0x99, 0x68, 0x9d, 0x12, 0x35, 0x8e, 0xec, 0xa0, 0x4b, 0x14, 0x12, 0x36, 0xfa,
    0x81};

/* The header of SASL, and frames that were put together by hand: four bytes of size, the data offset in words of four
 * bytes, the type, two bytes, the words of the extended header, and the list. */
#define SASL "AMQP\3\1\0\0"
#define PLAIN_LIST "\0\x53\x41\xc0\x16\2\xa3\5PLAIN\xa0\14\0user\0pencil"
#define SCRAM_LIST "\0\x53\x40\xc0\x13\1\xe0\x10\1\xa3\15SCRAM-SHA-256"
#define NONCE "AQAAAAAAAAAAAAAAAAAAAAAAAAAAAAAAAAAAAAAAAAA="
#define INIT "\0\0\0\x5d\2\1\0\0\0\x53\x41\xc0\x50\3\xa3\15SCRAM-SHA-256\xa0\x38n,,n=user,r=" NONCE "\xa1\4host"
#define REFUSAL "\0\0\0\x1c\4\1\0\0\xff\xff\xff\xff\xff\xff\xff\xff\0\x53\x44\xc0\7\2\x50\1\xa0\2hi"

/* A frame, and how a login is after it: where the side accepts extended headers, and where it does not. */
struct row {
    const char *what;
    const uint8_t *frame;
    size_t len;
    uint32_t accepted, otherwise;
};

/* The status of a login that failed, or FE2O3_OK for one that did not. */
static const struct row inits[] = {
    {"data offset 2", TEXT("\0\0\0\x23\2\1\0\0" PLAIN_LIST), FE2O3_OK, FE2O3_OK},
    {"data offset 3", TEXT("\0\0\0\x27\3\1\0\0\xde\xad\xbe\xef" PLAIN_LIST), FE2O3_OK, FE2O3_NO_SASL_FRAME},
    {"data offset 4, of bytes like a list", TEXT("\0\0\0\x2b\4\1\0\0\0\x53\x41\xc0\0\0\0\x0a" PLAIN_LIST), FE2O3_OK,
        FE2O3_NO_SASL_FRAME},
    {"data offset 1", TEXT("\0\0\0\x23\1\1\0\0" PLAIN_LIST), FE2O3_NO_SASL_FRAME, FE2O3_NO_SASL_FRAME},
    {"data offset 9, after the end", TEXT("\0\0\0\x23\x09\1\0\0" PLAIN_LIST), FE2O3_NO_SASL_FRAME, FE2O3_NO_SASL_FRAME},
    {"data offset 3, type 0", TEXT("\0\0\0\x27\3\0\0\0\xde\xad\xbe\xef" PLAIN_LIST), FE2O3_NO_SASL_FRAME,
        FE2O3_NO_SASL_FRAME},
    {"data offset 3, and no list", TEXT("\0\0\0\x0c\3\1\0\0\xde\xad\xbe\xef"), FE2O3_MALFORMED_FRAME,
        FE2O3_NO_SASL_FRAME},
};

/* The most bytes that a side sends at once. */
struct sent {
    uint8_t bytes[520];
    size_t len;
};

static const struct fe2o3_scram_keys no_keys;
static int differences;

static void told(const char *side, const char *what, int holds)
{
    printf("%s, %s: %s\n", side, what, holds ? "ok" : "DIFFERS");
    differences += !holds;
}

static int spells(const struct sent *sent, const uint8_t *bytes, size_t len)
{
    return sent->len == len && memcmp(sent->bytes, bytes, len) == 0;
}

/* A server passes bytes to the library, which takes them all. */
static uint32_t serves(const struct fe2o3_sasl_server_config *config, struct fe2o3_sasl_server *server,
    const uint8_t *bytes, size_t len, struct sent *sent)
{
    size_t taken = 0;
    uint32_t status = fe2o3_sasl_server_receive(config, server, bytes, len, server_nonce, &taken, ROOM(*sent));
    return status == FE2O3_OK && taken != len ? FE2O3_ENDED : status;
}

/* Whether an init leaves a server so that accepts extended headers or not, as one call and as one for each byte. */
static int serves_init(const struct fe2o3_sasl_server_config *config, uint32_t accepts, const struct row *row)
{
    static const struct fe2o3_sasl_server_config no_offer;
    uint32_t wanted = accepts ? row->accepted : row->otherwise;
    int holds = 1;
    for (size_t piece = 1; piece <= row->len; piece += row->len - 1) {
        struct fe2o3_sasl_server server = {0};
        struct sent sent, name, body;
        size_t last = row->len - piece, taken = 9;
        server.connection.extended_headers = accepts;
        holds &= serves(config, &server, TEXT(SASL), &sent) == FE2O3_OK;
        for (size_t at = 0; at < last; at += piece)
            holds &= serves(config, &server, row->frame + at, piece, &sent) == FE2O3_OK
                && server.connection.progress == FE2O3_IN_PROGRESS && server.scram.rejection == FE2O3_REJECTION_NONE;
        /* (a server that offers nothing asks for records, or rejects the configuration) */
        holds &=
            fe2o3_sasl_server_receive(&no_offer, &server, row->frame + last, piece, server_nonce, &taken, ROOM(name))
            == (wanted == FE2O3_OK ? FE2O3_NEEDS_RECORDS : FE2O3_NO_SUCH_MECHANISM);
        holds &= taken == 9 && (wanted != FE2O3_OK || spells(&name, TEXT("user")));
        holds &= fe2o3_sasl_peek_frame(&server.connection, row->frame + last, piece, ROOM(body)) == FE2O3_OK;
        holds &= wanted != FE2O3_OK || spells(&body, TEXT("\2\1\0\0" PLAIN_LIST));
        holds &= accepts != 0 || (body.len == row->len - 4 && memcmp(body.bytes, row->frame + 4, body.len) == 0);
        holds &= serves(config, &server, row->frame + last, piece, &sent) == FE2O3_OK;
        holds &= server.connection.progress == (wanted == FE2O3_OK ? FE2O3_AUTHENTICATED : FE2O3_FAILED)
            && server.connection.why == wanted && server.connection.extended_headers == (accepts != 0)
            && server.scram.rejection == FE2O3_REJECTION_NONE;
    }
    return holds;
}

static void servers(void)
{
    struct fe2o3_scram_record record = {0};
    struct fe2o3_sasl_server_config config = {FE2O3_OFFER_PLAIN, 0, 4096, 0, FE2O3_NONE, 1, TEXT("user"), &record, 1,
        TEXT(""), {0}, 0, FE2O3_NONE};
    fe2o3_scram_record_make(FE2O3_SHA_256, FE2O3_TYPED, TEXT("pencil"), salt, sizeof salt, 4096, &record);
    for (size_t at = 0; at < sizeof inits / sizeof *inits; at++) {
        told("a server that accepts extended headers", inits[at].what, serves_init(&config, 1, &inits[at]));
        told("a server whose flag is another number", inits[at].what, serves_init(&config, UINT32_MAX, &inits[at]));
        told("a server that does not accept them", inits[at].what, serves_init(&config, 0, &inits[at]));
    }
}

/* A client passes bytes to the library. */
static uint32_t hears(const struct fe2o3_sasl_login *login, struct fe2o3_sasl_client *client, const uint8_t *bytes,
    size_t len, struct sent *sent)
{
    size_t taken = 0;
    uint32_t status = fe2o3_sasl_client_receive(login, client, bytes, len, client_nonce, &taken, ROOM(*sent));
    return status == FE2O3_OK && taken != len ? FE2O3_ENDED : status;
}

static void clients(void)
{
    struct fe2o3_sasl_login login = {FE2O3_SCRAM, TEXT("host"),
        {.version = FE2O3_SHA_256,
            .min_iterations = 4096,
            .max_iterations = 100000,
            .username = TEXT("user"),
            .acts_for = FE2O3_NONE,
            .password = TEXT("pencil"),
            .keys = &no_keys}};
    struct fe2o3_sasl_client client = {0}, plain = {0};
    struct sent sent;
    client.connection.extended_headers = 1;
    told("a client that accepts extended headers", "data offset 3",
        hears(&login, &client, TEXT(SASL), &sent) == FE2O3_OK && sent.len == 0
            && hears(&login, &client, TEXT("\0\0\0\x24\3\1\0\0\0\0\0\0" SCRAM_LIST), &sent) == FE2O3_OK
            && spells(&sent, TEXT(INIT)) && client.connection.extended_headers == 1);
    told("a client that accepts extended headers", "data offset 4",
        hears(&login, &client, TEXT(REFUSAL), &sent) == FE2O3_OK && client.connection.progress == FE2O3_FAILED
            && client.connection.why == FE2O3_REFUSED_AUTH && client.connection.extended_headers == 1);
    told("a client that does not accept them", "data offset 3",
        hears(&login, &plain, TEXT(SASL), &sent) == FE2O3_OK
            && hears(&login, &plain, TEXT("\0\0\0\x24\3\1\0\0\0\0\0\0" SCRAM_LIST), &sent) == FE2O3_OK && sent.len == 0
            && plain.connection.progress == FE2O3_FAILED && plain.connection.why == FE2O3_NO_SASL_FRAME);
}

/* The end of the stream leaves the option as it is. */
static void end_of_input(void)
{
    struct fe2o3_connection connection = {.extended_headers = 1};
    fe2o3_sasl_end_of_input(&connection);
    told("a side that accepts extended headers", "the end of the stream",
        connection.progress == FE2O3_FAILED && connection.why == FE2O3_END_OF_INPUT
            && connection.extended_headers == 1);
}

/* An identity of 257 bytes. */
#define LONG_32 "aaaaaaaaaaaaaaaaaaaaaaaaaaaaaaaa"
#define LONG_257 LONG_32 LONG_32 LONG_32 LONG_32 LONG_32 LONG_32 LONG_32 LONG_32 "a"

/* The words of a client of PLAIN (RFC 4616, section 2), which only a strict one tests, and one that names an identity. */
static void plain_words(void)
{
    static const struct {
        const uint8_t *acts_for;
        size_t acts_for_len;
        const uint8_t *username;
        size_t username_len;
        const uint8_t *password;
        size_t password_len;
        uint32_t status;
    } rows[] = {
        {TEXT(""), TEXT("user"), TEXT("pencil"), FE2O3_OK},
        {TEXT(""), TEXT(""), TEXT("pencil"), FE2O3_NAMES_NO_USER},
        {TEXT(""), TEXT("user"), TEXT(""), FE2O3_EMPTY_PASSWORD},
        {TEXT(""), TEXT(""), TEXT("\0"), FE2O3_NAMES_NO_USER},
        {TEXT(""), TEXT("us\0er"), TEXT(""), FE2O3_EMPTY_PASSWORD},
        {TEXT(""), TEXT("us\0er"), TEXT("pencil"), FE2O3_PROHIBITED_CHARACTER},
        {TEXT(""), TEXT("user"), TEXT("pencil\0"), FE2O3_PROHIBITED_CHARACTER},
        {TEXT(""), TEXT("\xff"), TEXT(""), FE2O3_NOT_UTF8},
        {TEXT("app"), TEXT("user"), TEXT("pencil"), FE2O3_OK},
        {TEXT("app"), TEXT(""), TEXT("pencil"), FE2O3_NAMES_NO_USER},
        {TEXT("app"), TEXT("user"), TEXT(""), FE2O3_EMPTY_PASSWORD},
        {TEXT("app"), TEXT("us\0er"), TEXT("pencil"), FE2O3_PROHIBITED_CHARACTER},
        {TEXT("app"), TEXT("user"), TEXT("pencil\0"), FE2O3_PROHIBITED_CHARACTER},
        {TEXT("\0"), TEXT("user"), TEXT("pencil"), FE2O3_PROHIBITED_CHARACTER},
        {TEXT("ap\0p"), TEXT("user"), TEXT(""), FE2O3_EMPTY_PASSWORD},
        {TEXT(LONG_257), TEXT("user"), TEXT("pencil"), FE2O3_TOO_LONG},
        {TEXT(LONG_257), TEXT("user"), TEXT("pencil\0"), FE2O3_PROHIBITED_CHARACTER},
        {TEXT(LONG_257) - 1, TEXT("user"), TEXT("pencil"), FE2O3_OK},
        {TEXT("\xff"), TEXT(""), TEXT(""), FE2O3_NOT_UTF8},
    };
    for (size_t at = 0; at < sizeof rows / sizeof *rows; at++) {
        struct fe2o3_sasl_login login = {FE2O3_PLAIN, TEXT(""),
            {.username = rows[at].username,
                .username_len = rows[at].username_len,
                .acts_for = rows[at].acts_for,
                .acts_for_len = rows[at].acts_for_len,
                .password = rows[at].password,
                .password_len = rows[at].password_len,
                .keys = &no_keys}};
        struct sent sent;
        int holds = fe2o3_plain_message(rows[at].acts_for, rows[at].acts_for_len, rows[at].username,
                        rows[at].username_len, rows[at].password, rows[at].password_len, ROOM(sent))
            == rows[at].status;
        for (login.login.strict = 0; login.login.strict <= 1; login.login.strict++) {
            struct fe2o3_sasl_client client = {0};
            int tests = login.login.strict || rows[at].acts_for_len > 0 || rows[at].status == FE2O3_NOT_UTF8;
            holds &= hears(&login, &client, TEXT(SASL), &sent) == (tests ? rows[at].status : FE2O3_OK);
        }
        told("PLAIN", "the words of a message, and of a client that may be strict", holds);
    }
}

/* A call of the server, and if it does not want its nonce the same call with another nonce, which has to do the same. */
static int serves_twice(const struct fe2o3_sasl_server_config *config, struct fe2o3_sasl_server *server,
    const struct sent *came, struct sent *sent)
{
    static const uint8_t other[32] = {9};
    struct fe2o3_sasl_server copy = *server;
    struct sent again = {{0}, 0};
    size_t taken = 0;
    int wants = (int)fe2o3_sasl_wants_nonce(&server->connection);
    int holds = serves(config, server, GIVEN(*came), sent) == FE2O3_OK;
    holds &= fe2o3_sasl_server_receive(config, &copy, GIVEN(*came), other, &taken, ROOM(again)) == FE2O3_OK;
    return holds
        && (wants || (taken == came->len && memcmp(&copy, server, sizeof copy) == 0 && spells(&again, GIVEN(*sent))));
}

/* The same of the client. */
static int hears_twice(const struct fe2o3_sasl_login *login, struct fe2o3_sasl_client *client, const struct sent *came,
    size_t from, size_t len, struct sent *sent)
{
    static const uint8_t other[32] = {9};
    struct fe2o3_sasl_client copy = *client;
    struct sent again = {{0}, 0};
    size_t taken = 0;
    int wants = (int)fe2o3_sasl_wants_nonce(&client->connection);
    int holds = hears(login, client, came->bytes + from, len, sent) == FE2O3_OK;
    holds &= fe2o3_sasl_client_receive(login, &copy, came->bytes + from, len, other, &taken, ROOM(again)) == FE2O3_OK;
    return holds
        && (wants || (taken == len && memcmp(&copy, client, sizeof copy) == 0 && spells(&again, GIVEN(*sent))));
}

/* A login by SCRAM. The nonces of both sides are used once. */
static void nonces(void)
{
    struct fe2o3_scram_record record = {0};
    struct fe2o3_sasl_server_config config = {FE2O3_OFFER_SCRAM_SHA_256, 0, 4096, 0, FE2O3_NONE, 1, TEXT("user"),
        &record, 1, FE2O3_NONE, {0}, 0, FE2O3_NONE};
    struct fe2o3_sasl_login login = {FE2O3_SCRAM, FE2O3_NONE,
        {.version = FE2O3_SHA_256,
            .min_iterations = 4096,
            .max_iterations = 4096,
            .username = TEXT("user"),
            .acts_for = FE2O3_NONE,
            .password = TEXT("pencil"),
            .keys = &no_keys}};
    struct fe2o3_sasl_server server = {0};
    struct fe2o3_sasl_client client = {0};
    struct sent of_client, of_server;
    int holds = fe2o3_sasl_client_open(ROOM(of_client)) == FE2O3_OK;
    fe2o3_scram_record_make(FE2O3_SHA_256, FE2O3_TYPED, TEXT("pencil"), salt, sizeof salt, 4096, &record);
    while (holds && client.connection.progress == FE2O3_IN_PROGRESS) {
        int first = client.connection.expected == FE2O3_EXPECTED_HEADER;
        holds &= serves_twice(&config, &server, &of_client, &of_server);
        if (first)
            holds &= hears_twice(&login, &client, &of_server, 0, 8, &of_client) && of_client.len == 0;
        holds &= hears_twice(&login, &client, &of_server, first ? 8 : 0, of_server.len - (first ? 8 : 0), &of_client);
    }
    told("both sides", "a call that wants no nonce does the same with another",
        holds && server.connection.progress == FE2O3_AUTHENTICATED
            && client.connection.progress == FE2O3_AUTHENTICATED);
}

int main(void)
{
    servers();
    clients();
    end_of_input();
    plain_words();
    nonces();
    return differences != 0;
}
