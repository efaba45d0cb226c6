/* Channel binding over connections (RFC 5802, section 6), by three hashes. An attacker has one channel to the client and
 * another to the server, removes the mechanisms with -PLUS from the server's list, and moves text between the messages, so
 * that each side reads the channel binding that it expects. Prints a line for each case, and ends with 1 where one of them
 * is not as it should be. */
#include "fe2o3_sasl.h"

#include <stdio.h>
#include <string.h>

#define TEXT(words) (const uint8_t *)(words), sizeof(words) - 1
#define ROOM(of) (of)->bytes, sizeof((of)->bytes), &(of)->len

/* In earnest these are random, and fresh for each call. */
static const uint8_t client_nonce[32] = {1}, server_nonce[32] = {2};
#define NONCE "AQAAAAAAAAAAAAAAAAAAAAAAAAAAAAAAAAAAAAAAAAA="
#define BOTH_NONCES NONCE "AgAAAAAAAAAAAAAAAAAAAAAAAAAAAAAAAAAAAAAAAAA="

static const uint8_t salt[] = {0x5b, 0x6d, 0x99, 0x68, 0x9d, 0x12, 0x35, 0x8e, 0xec, 0xa0, 0x4b, 0x14, 0x12, 0x36, 0xfa,
    0x81};

/* The client-final messages of a client of another library, which says `y,,` and tests no extension, after a server-first
 * message with MOVED at its end. The proofs are those of Python's hashlib and hmac. The server has the same AuthMessage if
 * MOVED is put before the client-final message. */
#define MOVED "c=biws,r=" BOTH_NONCES
#define FINAL "c=eSws,r=" BOTH_NONCES ",p="

static const struct hash {
    uint32_t version, offer;
    const char *name, *plus, *final;
} hashes[] = {
    {FE2O3_SHA_1, FE2O3_OFFER_SCRAM_SHA_1, "SCRAM-SHA-1", "SCRAM-SHA-1-PLUS", FINAL "tT7Vh2frPgU2T+M7jtdIvGmXxRs="},
    {FE2O3_SHA_256, FE2O3_OFFER_SCRAM_SHA_256, "SCRAM-SHA-256", "SCRAM-SHA-256-PLUS",
        FINAL "q8/6XO+eiStWLDzvY6HjDn7ujHfuhidQPXc2HLwoozk="},
    {FE2O3_SHA_512, FE2O3_OFFER_SCRAM_SHA_512, "SCRAM-SHA-512", "SCRAM-SHA-512-PLUS",
        FINAL "O+rRq+7XboOva+6Zsy2HlGgRv1UBbzkKn2rvYeqpgLbHeTVQv3H9hKL9/Q9ThBqTwOFf3ba3e/dltZ5TRPO6zw=="},
};

/* Bytes on their way. */
struct bytes {
    uint8_t bytes[1024];
    size_t len;
};

/* Both sides, and what each sent last. */
struct pair {
    const struct hash *hash;
    struct fe2o3_scram_record record;
    struct fe2o3_sasl_server_config config;
    struct fe2o3_sasl_login login;
    struct fe2o3_sasl_server server;
    struct fe2o3_sasl_client client;
    struct bytes of_server, of_client;
};

static const struct fe2o3_scram_keys no_keys;
static int differences;

static void told(const struct pair *pair, const char *what, int holds)
{
    printf("%s, %s: %s\n", pair->hash->name, what, holds ? "ok" : "DIFFERS");
    differences += !holds;
}

/* A client with a channel, and a server that has another channel or none. */
static void begin(struct pair *pair, const struct hash *hash, uint32_t use, int server_binds)
{
    memset(pair, 0, sizeof *pair);
    pair->hash = hash;
    fe2o3_scram_record_make(hash->version, FE2O3_TYPED, TEXT("pencil"), salt, sizeof salt, 4096, &pair->record);
    pair->config = (struct fe2o3_sasl_server_config){hash->offer, 0, 4096, 0, FE2O3_NONE, 1, TEXT("user"),
        &pair->record, 1, FE2O3_NONE, {0}, 0, FE2O3_NONE};
    pair->config.channels.binds_channel = (uint32_t)server_binds;
    pair->config.channels.tls_exporter_len = 32;
    memset(pair->config.channels.tls_exporter, 's', 32);
    pair->login = (struct fe2o3_sasl_login){FE2O3_SCRAM, FE2O3_NONE,
        {.version = hash->version,
            .min_iterations = 4096,
            .max_iterations = 100000,
            .username = TEXT("user"),
            .acts_for = FE2O3_NONE,
            .password = TEXT("pencil"),
            .keys = &no_keys,
            .channel_use = use,
            .channel_kind = FE2O3_TLS_EXPORTER,
            .channel_data_len = 32}};
    memset(pair->login.login.channel_data, 'c', 32);
}

/* The server receives bytes, and takes them all. */
static int to_server(struct pair *pair, const struct bytes *in)
{
    size_t taken = 0;
    return fe2o3_sasl_server_receive(&pair->config, &pair->server, in->bytes, in->len, server_nonce, &taken,
               ROOM(&pair->of_server))
        == FE2O3_OK
        && taken == in->len;
}

/* The client receives bytes, up to where it fails. */
static int to_client(struct pair *pair, const struct bytes *in)
{
    size_t at = 0, taken = 0;
    uint32_t status = FE2O3_OK;
    for (pair->of_client.len = 0; at < in->len && status == FE2O3_OK; at += taken) {
        status = fe2o3_sasl_client_receive(&pair->login, &pair->client, in->bytes + at, in->len - at, client_nonce,
            &taken, ROOM(&pair->of_client));
        if (pair->client.connection.progress == FE2O3_FAILED)
            return status == FE2O3_OK;
    }
    return status == FE2O3_OK;
}

/* Writes a frame (AMQP 1.0, part 5, section 5.3.1) of these items, each with its constructor. */
static void frame(struct bytes *out, uint8_t code, uint8_t count, const struct bytes *items)
{
    const uint8_t head[] = {0, 0, (uint8_t)((items->len + 20) >> 8), (uint8_t)(items->len + 20), 2, 1, 0, 0, 0, 0x53,
        code, 0xd0, 0, 0, (uint8_t)((items->len + 4) >> 8), (uint8_t)(items->len + 4), 0, 0, 0, count};
    memcpy(out->bytes, head, sizeof head);
    memcpy(out->bytes + sizeof head, items->bytes, items->len);
    out->len = sizeof head + items->len;
}

static void symbol(struct bytes *out, const char *name)
{
    out->bytes[out->len++] = 0xa3;
    out->bytes[out->len++] = (uint8_t)strlen(name);
    memcpy(out->bytes + out->len, name, strlen(name));
    out->len += strlen(name);
}

static void binary(struct bytes *out, const uint8_t *text, size_t len)
{
    const uint8_t head[] = {0xb0, 0, 0, (uint8_t)(len >> 8), (uint8_t)len};
    memcpy(out->bytes + out->len, head, sizeof head);
    memcpy(out->bytes + out->len + sizeof head, text, len);
    out->len += sizeof head + len;
}

/* The message of a frame, which is all that was sent. */
static struct fe2o3_sasl_frame_view view(const struct bytes *sent)
{
    struct fe2o3_sasl_frame_view view = FE2O3_SASL_FRAME_VIEW_INIT;
    if (sent->len > 4)
        fe2o3_sasl_view_frame(sent->bytes + 4, sent->len - 4, &view);
    return view;
}

static int begins(const struct bytes *sent, const char *text)
{
    struct fe2o3_sasl_frame_view it = view(sent);
    return it.message_len > strlen(text) && memcmp(it.message, text, strlen(text)) == 0;
}

/* Carries the headers and the list, without the mechanism with -PLUS. Whether that was in the list as it has to be, and the
 * client answers by this GS2 header. */
static int offered(struct pair *pair, int plus, const char *header)
{
    struct bytes list = {{0}, 0}, items = {{0}, 0};
    int holds = fe2o3_sasl_client_open(ROOM(&pair->of_client)) == FE2O3_OK && to_server(pair, &pair->of_client);
    holds &= fe2o3_sasl_offers(pair->of_server.bytes + 12, pair->of_server.len - 12, (const uint8_t *)pair->hash->plus,
                 strlen(pair->hash->plus))
        == (plus ? FE2O3_OK : FE2O3_NOT_IMPLEMENTED);
    symbol(&items, pair->hash->name);
    frame(&list, FE2O3_KIND_MECHANISMS, 1, &items);
    memmove(list.bytes + 8, list.bytes, list.len);
    memcpy(list.bytes, pair->of_server.bytes, 8);
    list.len += 8;
    return holds && to_client(pair, &list) && begins(&pair->of_client, header);
}

/* Carries the init, as one of a client without a channel. Whether the server answers by a challenge. */
static int init_moved(struct pair *pair)
{
    struct fe2o3_sasl_frame_view it = view(&pair->of_client);
    pair->of_client.bytes[it.message - pair->of_client.bytes] = 'n';
    return to_server(pair, &pair->of_client) && begins(&pair->of_server, "r=" BOTH_NONCES ",s=");
}

/* Carries the challenge, with what is moved behind it. */
static int challenge_moved(struct pair *pair)
{
    struct fe2o3_sasl_frame_view it = view(&pair->of_server);
    struct bytes text = {{0}, 0}, items = {{0}, 0}, moved;
    memcpy(text.bytes, it.message, it.message_len);
    memcpy(text.bytes + it.message_len, "," MOVED, sizeof MOVED);
    binary(&items, text.bytes, it.message_len + sizeof MOVED);
    frame(&moved, FE2O3_KIND_CHALLENGE, 1, &items);
    return to_client(pair, &moved);
}

/* Carries a client-final message, with what is moved before it. */
static int response_moved(struct pair *pair, const char *final)
{
    struct bytes text = {{0}, 0}, items = {{0}, 0}, moved;
    memcpy(text.bytes, MOVED ",", sizeof MOVED);
    memcpy(text.bytes + sizeof MOVED, final, strlen(final));
    binary(&items, text.bytes, sizeof MOVED + strlen(final));
    frame(&moved, FE2O3_KIND_RESPONSE, 1, &items);
    return to_server(pair, &moved);
}

static int is_at(const struct fe2o3_connection *connection, uint32_t progress, uint32_t why)
{
    return connection->progress == progress && connection->why == why;
}

/* The attack on a client of this library and a server with a channel, both at their default settings. */
static void attack(const struct hash *hash)
{
    struct pair pair;
    begin(&pair, hash, FE2O3_CHANNEL_NOT_OFFERED, 1);
    told(&pair, "-PLUS removed from the list", offered(&pair, 1, "y,,"));
    told(&pair, "a client with a channel, as one without", init_moved(&pair));
    told(&pair, "the client rejects what is moved",
        challenge_moved(&pair) && pair.of_client.len == 0
            && is_at(&pair.client.connection, FE2O3_FAILED, FE2O3_CLIENT_MISPLACED_ATTRIBUTE));
    fe2o3_sasl_end_of_input(&pair.server.connection);
    told(&pair, "nobody logs in",
        is_at(&pair.server.connection, FE2O3_FAILED, FE2O3_END_OF_INPUT)
            && pair.server.scram.rejection == FE2O3_REJECTION_NONE);
}

/* The attack on the client of another library. */
static void foreign(const struct hash *hash, const char *what, int binds, uint32_t options, uint32_t progress)
{
    struct pair pair;
    begin(&pair, hash, FE2O3_CHANNEL_NOT_OFFERED, binds);
    pair.config.flags |= options;
    told(&pair, what,
        offered(&pair, binds, "y,,") && init_moved(&pair) && response_moved(&pair, hash->final)
            && is_at(&pair.server.connection, progress, progress == FE2O3_FAILED ? FE2O3_REFUSED_AUTH : FE2O3_OK)
            && pair.server.scram.rejection
                == (progress == FE2O3_FAILED ? FE2O3_SERVER_MISPLACED_ATTRIBUTE : FE2O3_REJECTION_NONE)
            && view(&pair.of_server).code == (progress == FE2O3_FAILED ? FE2O3_CODE_AUTH : FE2O3_CODE_OK));
}

/* A login without an attacker, in which both sides have one channel. */
static void unaltered(const struct hash *hash, const char *what, uint32_t use, uint32_t progress)
{
    struct pair pair;
    int holds;
    begin(&pair, hash, use, 1);
    memset(pair.login.login.channel_data, 's', 32);
    holds = fe2o3_sasl_client_open(ROOM(&pair.of_client)) == FE2O3_OK;
    while (holds && pair.client.connection.progress == FE2O3_IN_PROGRESS)
        holds = to_server(&pair, &pair.of_client) && to_client(&pair, &pair.of_server);
    told(&pair, what,
        holds && pair.client.connection.progress == progress && pair.server.connection.progress == progress
            && pair.server.scram.rejection
                == (progress == FE2O3_FAILED ? FE2O3_REJECTION_CHANNEL : FE2O3_REJECTION_NONE));
}

int main(void)
{
    for (size_t at = 0; at < sizeof hashes / sizeof *hashes; at++) {
        const struct hash *hash = &hashes[at];
        attack(hash);
        foreign(hash, "a server with a channel rejects what is moved", 1, 0, FE2O3_FAILED);
        foreign(hash, "one without a channel takes it for an extension", 0, 0, FE2O3_AUTHENTICATED);
        foreign(hash, "one without a channel that tests extensions", 0, FE2O3_REJECT_MISPLACED, FE2O3_FAILED);
        unaltered(hash, "one channel, bound", FE2O3_CHANNEL_BOUND, FE2O3_AUTHENTICATED);
        unaltered(hash, "one channel, and a client that says it has none", FE2O3_CHANNEL_ABSENT, FE2O3_AUTHENTICATED);
        unaltered(hash, "one channel, and a client that says it saw no -PLUS", FE2O3_CHANNEL_NOT_OFFERED, FE2O3_FAILED);
    }
    return differences != 0;
}
