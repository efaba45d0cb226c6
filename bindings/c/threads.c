/* A thousand logins in four threads at once. Every text that is sent, and the user whom the server learns, are compared
 * with those of the same login when nothing ran beside it. Prints how many there were and how many of them differ, and
 * ends with 1 where one does. */
#include "fe2o3_sasl.h"

#include <pthread.h>
#include <stdio.h>
#include <string.h>

#define THREADS 4
#define LOGINS 1000
#define VERSIONS 3
#define TEXT(words) (const uint8_t *)(words), sizeof(words) - 1
#define GIVEN(text) (text).bytes, (text).len
#define ROOM(text) (text).bytes, sizeof((text).bytes), &(text).len

struct text {
    uint8_t bytes[320];
    size_t len;
};

/* What a login comes to: the number of its last call, its texts and its user, and zeros behind them. */
struct outcome {
    uint32_t number;
    struct text client_first, server_first, client_final, server_final, user;
};

/* All threads read these at once. */
static struct fe2o3_scram_keys no_keys;
static const struct fe2o3_scram_rules no_rules = FE2O3_SCRAM_RULES_INIT;
static struct fe2o3_scram_record records[VERSIONS];
static struct outcome expected[LOGINS];

/* The login of this place, with nonces of its own. The password of each fifth is wrong. */
static void run(size_t place, struct outcome *one)
{
    static const uint32_t versions[VERSIONS] = {FE2O3_SHA_1, FE2O3_SHA_256, FE2O3_SHA_512};
    const struct fe2o3_scram_record *record = &records[place % VERSIONS];
    struct fe2o3_login login = {.version = versions[place % VERSIONS],
        .min_iterations = 1,
        .max_iterations = 100,
        .username = TEXT("user"),
        .acts_for = FE2O3_NONE,
        .password = TEXT("pencil"),
        .keys = &no_keys};
    struct fe2o3_scram_client client = {0};
    struct fe2o3_scram_server server = {0};
    uint8_t client_nonce[32] = {1}, server_nonce[32] = {2};
    client_nonce[30] = server_nonce[30] = (uint8_t)(place >> 8);
    client_nonce[31] = server_nonce[31] = (uint8_t)place;
    login.password_len -= place % 5 == 0;
    memset(one, 0, sizeof *one);
    one->number = fe2o3_scram_client_first(&login, &client, client_nonce, ROOM(one->client_first));
    if (one->number == FE2O3_OK)
        one->number = fe2o3_scram_server_first(&no_rules, record, &server, server_nonce, GIVEN(one->client_first),
            ROOM(one->server_first));
    if (one->number == FE2O3_OK)
        one->number = fe2o3_scram_client_final(&login, &client, GIVEN(one->server_first), ROOM(one->client_final));
    if (one->number == FE2O3_OK)
        one->number =
            fe2o3_scram_server_final(&no_rules, record, &server, GIVEN(one->client_final), ROOM(one->server_final));
    if (one->number == FE2O3_OK)
        one->number = fe2o3_scram_client_verify(&login, &client, GIVEN(one->server_final));
    if (one->number == FE2O3_OK)
        one->number = fe2o3_scram_server_authenticated_user(&server, ROOM(one->user));
}

static int same_text(const struct text *left, const struct text *right)
{
    return left->len == right->len && memcmp(left->bytes, right->bytes, sizeof left->bytes) == 0;
}

/* What a thread is given, and what it answers. */
struct share {
    size_t first;
    size_t logins, differences;
};

static void *work(void *given)
{
    struct share *share = given;
    for (size_t place = share->first; place < LOGINS; place += THREADS) {
        const struct outcome *due = &expected[place];
        struct outcome one;
        run(place, &one);
        share->logins++;
        share->differences += !(one.number == due->number && same_text(&one.client_first, &due->client_first)
            && same_text(&one.server_first, &due->server_first) && same_text(&one.client_final, &due->client_final)
            && same_text(&one.server_final, &due->server_final) && same_text(&one.user, &due->user));
    }
    return NULL;
}

int main(void)
{
    static const uint8_t salt[16] = {3};
    pthread_t threads[THREADS];
    struct share shares[THREADS];
    size_t logins = 0, differences = 0;

    if (fe2o3_scram_record_make(FE2O3_SHA_1, FE2O3_TYPED, TEXT("pencil"), salt, sizeof salt, 100, &records[0])
            != FE2O3_OK
        || fe2o3_scram_record_make(FE2O3_SHA_256, FE2O3_TYPED, TEXT("pencil"), salt, sizeof salt, 100, &records[1])
            != FE2O3_OK
        || fe2o3_scram_record_make(FE2O3_SHA_512, FE2O3_TYPED, TEXT("pencil"), salt, sizeof salt, 100, &records[2])
            != FE2O3_OK) {
        printf("no record\n");
        return 1;
    }
    for (size_t place = 0; place < LOGINS; place++) {
        run(place, &expected[place]);
        differences += expected[place].number != (place % 5 == 0 ? FE2O3_SERVER_AUTHENTICATION_FAILED : FE2O3_OK);
    }
    for (size_t thread = 0; thread < THREADS; thread++) {
        shares[thread] = (struct share){.first = thread};
        if (pthread_create(&threads[thread], NULL, work, &shares[thread]) != 0) {
            printf("no thread\n");
            return 1;
        }
    }
    for (size_t thread = 0; thread < THREADS; thread++) {
        differences += pthread_join(threads[thread], NULL) != 0;
        logins += shares[thread].logins;
        differences += shares[thread].differences;
    }
    printf("%lu logins in %d threads, %lu differ\n", (unsigned long)logins, THREADS, (unsigned long)differences);
    return logins != LOGINS || differences != 0;
}
