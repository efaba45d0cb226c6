/* Times a login of SCRAM-SHA-256 by cached keys, both sides in one program, by its five messages and over the bytes of an
   AMQP connection: the least nanoseconds of processor time of each in 400 times 20, and of a connection whose server has
   mock records. It is built over the library, and over the one that wipes neither its heap nor its stack. With a word it
   makes ten logins of that kind, for callgrind. */
#define _POSIX_C_SOURCE 199309L
#include "../../bindings/c/fe2o3_sasl.h"
#include <stdio.h>
#include <stdlib.h>
#include <string.h>
#include <time.h>

#define TEXT(words) (const uint8_t *)(words), sizeof(words) - 1
#define ROOM(text) (text).bytes, sizeof((text).bytes), &(text).len
#define GIVEN(text) (text).bytes, (text).len

enum { ROUNDS = 400, LOGINS = 20 };
static struct text {
    uint8_t bytes[512];
    size_t len;
} client_first, server_first, client_final, server_final;
static struct fe2o3_scram_keys keys;
static struct fe2o3_scram_record record;
static const uint8_t salt[32] = {3}, nonce[32] = {1};
static const struct fe2o3_scram_rules no_rules = FE2O3_SCRAM_RULES_INIT;

static uint32_t by_messages(const struct fe2o3_login *who)
{
    static struct fe2o3_scram_client client;
    static struct fe2o3_scram_server server;
    uint32_t status = fe2o3_scram_client_first(who, &client, nonce, ROOM(client_first));
    status |= fe2o3_scram_server_first(&no_rules, &record, &server, nonce, GIVEN(client_first), ROOM(server_first));
    status |= fe2o3_scram_client_final(who, &client, GIVEN(server_first), ROOM(client_final));
    status |= fe2o3_scram_server_final(&no_rules, &record, &server, GIVEN(client_final), ROOM(server_final));
    return status | fe2o3_scram_client_verify(who, &client, GIVEN(server_final));
}

/* Each unit is passed whole. The server asks for the user's records at the init. */
static uint32_t over_bytes(const struct fe2o3_login *who, const uint8_t *secret, size_t secret_len)
{
    static struct fe2o3_sasl_client client;
    static struct fe2o3_sasl_server server;
    struct fe2o3_sasl_login how = {FE2O3_SCRAM, FE2O3_NONE, *who};
    struct fe2o3_sasl_server_config config = FE2O3_SASL_SERVER_CONFIG_INIT;
    uint8_t to_server[1100], to_client[1100];
    size_t sent, come = 0, taken, at, len;
    uint32_t status = fe2o3_sasl_client_open(to_server, sizeof to_server, &sent);
    memset(&client, 0, sizeof client);
    memset(&server, 0, sizeof server);
    config.mechanisms = FE2O3_OFFER_SCRAM_SHA_512 | FE2O3_OFFER_SCRAM_SHA_256;
    config.iterations = 1;
    config.mock_salt_len = 32;
    config.mock_secret = secret;
    config.mock_secret_len = secret_len;
    while (status == FE2O3_OK && client.connection.progress == FE2O3_IN_PROGRESS) {
        for (at = 0, come = 0; at < sent && status == FE2O3_OK; at += taken) {
            status = fe2o3_sasl_server_receive(&config, &server, to_server + at, sent - at, nonce, &taken,
                to_client + come, sizeof to_client - come, &len);
            if (status == FE2O3_NEEDS_RECORDS) {
                config.looked_up = 1;
                config.username = (const uint8_t *)"user";
                config.username_len = 4;
                config.records = &record;
                config.records_count = 1;
                taken = 0;
                status = FE2O3_OK;
            } else {
                come += len;
            }
        }
        for (at = 0, sent = 0; at < come && status == FE2O3_OK; at += taken) {
            status = fe2o3_sasl_client_receive(&how, &client, to_client + at, come - at, nonce, &taken, to_server + sent,
                sizeof to_server - sent, &len);
            sent += len;
        }
    }
    return status | (client.connection.progress != FE2O3_AUTHENTICATED)
        | (server.connection.progress != FE2O3_AUTHENTICATED);
}

static uint32_t login(const struct fe2o3_login *who, int kind)
{
    static const uint8_t secret[32] = {9};
    if (kind == 0)
        return by_messages(who);
    return over_bytes(who, secret, kind == 2 ? sizeof secret : 0);
}

static double now(void)
{
    struct timespec time;
    clock_gettime(CLOCK_PROCESS_CPUTIME_ID, &time);
    return (double)time.tv_sec * 1e9 + (double)time.tv_nsec;
}

int main(int count, char **words)
{
    static const char *const kinds[3] = {"messages", "bytes", "mock"};
    struct fe2o3_login who = {FE2O3_SHA_256, FE2O3_BY_KEYS, FE2O3_TYPED, 1, 4096, TEXT("user"), FE2O3_NONE, FE2O3_NONE,
        &keys, 0, 0, 0, 0, 0, {0}};
    double least[3] = {0, 0, 0};
    uint32_t status = fe2o3_scram_record_make(FE2O3_SHA_256, FE2O3_TYPED, TEXT("pencil"), salt, 32, 1, &record);
    status |= fe2o3_scram_keys_make(FE2O3_SHA_256, FE2O3_TYPED, TEXT("pencil"), salt, 32, 1, &keys);
    for (int kind = 0; count > 1 && kind < 3; kind++)
        for (int k = 0; strcmp(words[1], kinds[kind]) == 0 && k < 10; k++)
            status |= login(&who, kind);
    for (int round = 0; count == 1 && round < ROUNDS; round++) {
        for (int kind = 0; kind < 3; kind++) {
            double begun = now(), time;
            for (int k = 0; k < LOGINS; k++)
                status |= login(&who, kind);
            time = (now() - begun) / LOGINS;
            if (round == 0 || time < least[kind])
                least[kind] = time;
        }
    }
    printf("%.0f %.0f %.0f\n", least[0], least[1], least[2]);
    return status != FE2O3_OK;
}
