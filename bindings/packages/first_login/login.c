/* A login over messages by SCRAM-SHA-256, client and server in one program. */
#include <fe2o3_sasl.h>

#include <stdio.h>
#include <stdlib.h>
#include <sys/random.h>

#define TEXT(words) (const uint8_t *)(words), sizeof(words) - 1
#define GIVEN(message) (message).bytes, (message).len
#define ROOM(message) (message).bytes, sizeof((message).bytes), &(message).len

struct message {
    uint8_t bytes[512];
    size_t len;
};

static void check(const char *call, uint32_t status)
{
    struct fe2o3_text text = FE2O3_TEXT_INIT;
    if (status == FE2O3_OK)
        return;
    fe2o3_status_text(status, &text);
    fprintf(stderr, "%s: %s\n", call, (const char *)text.bytes);
    exit(1);
}

static void fill(uint8_t *bytes, size_t len)
{
    if (getrandom(bytes, len, 0) != (ssize_t)len) {
        perror("getrandom");
        exit(1);
    }
}

int main(void)
{
    struct fe2o3_scram_rules no_rules = FE2O3_SCRAM_RULES_INIT;
    struct fe2o3_login login = {.version = FE2O3_SHA_256,
        .min_iterations = 4096,
        .max_iterations = 100000,
        .username = TEXT("user"),
        .password = TEXT("pencil")};
    struct fe2o3_scram_client client = {0};
    struct fe2o3_scram_server server = {0};
    struct fe2o3_scram_record record = {0};
    struct message first = {{0}, 0}, challenge = {{0}, 0}, response = {{0}, 0}, outcome = {{0}, 0}, user = {{0}, 0};
    uint8_t salt[16], client_nonce[32], server_nonce[32];
    fill(salt, sizeof salt);
    fill(client_nonce, sizeof client_nonce);
    fill(server_nonce, sizeof server_nonce);

    check("record",
        fe2o3_scram_record_make(FE2O3_SHA_256, FE2O3_TYPED, TEXT("pencil"), salt, sizeof salt, 4096, &record));
    check("client-first", fe2o3_scram_client_first(&login, &client, client_nonce, ROOM(first)));
    check("server-first",
        fe2o3_scram_server_first(&no_rules, &record, &server, server_nonce, GIVEN(first), ROOM(challenge)));
    check("client-final", fe2o3_scram_client_final(&login, &client, GIVEN(challenge), ROOM(response)));
    check("server-final", fe2o3_scram_server_final(&no_rules, &record, &server, GIVEN(response), ROOM(outcome)));
    check("verify", fe2o3_scram_client_verify(&login, &client, GIVEN(outcome)));
    check("user", fe2o3_scram_server_authenticated_user(&server, ROOM(user)));
    printf("SCRAM-SHA-256: %.*s is logged in, and the server is authenticated\n", (int)user.len,
        (const char *)user.bytes);
    fe2o3_wipe(&client, sizeof client);
    fe2o3_wipe(&record, sizeof record);
    return 0;
}
