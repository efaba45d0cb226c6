/* Logins with keys whose salted password OpenSSL computes (RFC 5802, section 3): it uses the SHA instructions of a
 * processor that has them. Prints a line for each case, and ends with 1 where one of them is not as it should be. */
#include "fe2o3_sasl.h"

#include <openssl/evp.h>
#include <stdio.h>
#include <string.h>

/* A text of the program and its length; a text that was written and its length; a room for one, and where the length
 * goes. */
#define TEXT(words) (const uint8_t *)(words), sizeof(words) - 1
#define GIVEN(text) (text).bytes, (text).len
#define ROOM(text) (text).bytes, sizeof((text).bytes), &(text).len

/* In earnest these are random: nonces fresh for each exchange, and a salt for each record. */
static const uint8_t client_nonce[32] = {1}, server_nonce[32] = {2}, salt[16] = {4};

struct text {
    uint8_t bytes[512];
    size_t len;
};

static const struct fe2o3_scram_rules no_rules = FE2O3_SCRAM_RULES_INIT;
static int differences;

static void told(uint32_t version, const char *what, int holds)
{
    printf("%3u %s: %s\n", (unsigned)version, what, holds ? "ok" : "DIFFERS");
    differences += !holds;
}

/* Hi(password, salt, count), which is as long as a digest of the hash. The password is printable ASCII, or prepared by
 * fe2o3_saslprep. Answers 0 if OpenSSL fails. */
static int hi(uint32_t version, const struct text *password, const struct text *salted_with, uint32_t count,
    struct text *salted)
{
    const EVP_MD *hash = version == FE2O3_SHA_1 ? EVP_sha1() : version == FE2O3_SHA_256 ? EVP_sha256() : EVP_sha512();
    salted->len = (size_t)EVP_MD_size(hash);
    return PKCS5_PBKDF2_HMAC((const char *)password->bytes, (int)password->len, salted_with->bytes,
        (int)salted_with->len, (int)count, hash, (int)salted->len, salted->bytes);
}

/* The salt and the iteration count of a server-first message (RFC 5802, section 5.1), r=..,s=SALT,i=COUNT, with a salt
 * of at most 128 bytes. Answers 0 if it has others. */
static int asked_for(const struct text *server_first, struct text *asked, unsigned long *count)
{
    char words[sizeof server_first->bytes + 1] = {0}, base64[173];
    size_t len;
    int bytes;
    memcpy(words, server_first->bytes, server_first->len);
    if (sscanf(words, "r=%*[^,],s=%172[^,],i=%lu", base64, count) != 2)
        return 0;
    len = strlen(base64);
    bytes = EVP_DecodeBlock(asked->bytes, (const uint8_t *)base64, (int)len);
    if (bytes < 3)
        return 0;
    asked->len = (size_t)bytes - (base64[len - 1] == '=') - (base64[len - 2] == '=');
    return 1;
}

/* The client-final message. The status FE2O3_CLIENT_STALE_KEYS says that the message passed all other tests, so its
 * count is within the limits of the login; then OpenSSL salts, and the call is repeated with the keys. */
static uint32_t answer(const struct fe2o3_login *by_keys, struct fe2o3_scram_keys *keys, const struct text *password,
    struct fe2o3_scram_client *client, const struct text *server_first, struct text *out)
{
    struct text asked = {{0}, 0}, salted = {{0}, 0};
    unsigned long count = 0;
    uint32_t status = fe2o3_scram_client_final(by_keys, client, GIVEN(*server_first), ROOM(*out));
    if (status != FE2O3_CLIENT_STALE_KEYS || !asked_for(server_first, &asked, &count)
        || !hi(by_keys->version, password, &asked, (uint32_t)count, &salted))
        return status;
    status = fe2o3_scram_keys_of_salted(by_keys->version, GIVEN(salted), GIVEN(asked), (uint32_t)count, keys);
    fe2o3_wipe(&salted, sizeof salted);
    if (status != FE2O3_OK)
        return status;
    return fe2o3_scram_client_final(by_keys, client, GIVEN(*server_first), ROOM(*out));
}

/* A whole login, by cached keys or, where these are stale, by a salted password. Answers the number of its last
 * call. */
static uint32_t log_in(const struct fe2o3_login *by_keys, struct fe2o3_scram_keys *keys, const struct text *password,
    const struct fe2o3_scram_record *record)
{
    struct fe2o3_scram_client client = {0};
    struct fe2o3_scram_server server = {0};
    struct text sent = {{0}, 0}, came = {{0}, 0};
    uint32_t status = fe2o3_scram_client_first(by_keys, &client, client_nonce, ROOM(sent));
    if (status == FE2O3_OK)
        status = fe2o3_scram_server_first(&no_rules, record, &server, server_nonce, GIVEN(sent), ROOM(came));
    if (status == FE2O3_OK)
        status = answer(by_keys, keys, password, &client, &came, &sent);
    if (status == FE2O3_OK)
        status = fe2o3_scram_server_final(&no_rules, record, &server, GIVEN(sent), ROOM(came));
    if (status == FE2O3_OK)
        status = fe2o3_scram_client_verify(by_keys, &client, GIVEN(came));
    /* (a client that has answered has its keys) */
    fe2o3_wipe(&client, sizeof client);
    return status;
}

static void cases(uint32_t version)
{
    const struct text password = {"pencil", 6}, other_password = {"pencils", 7};
    struct text of_record = {{0}, 16}, salted = {{0}, 0}, other = {{0}, 0};
    struct fe2o3_scram_record record = {0}, made = {0}, none = {0};
    struct fe2o3_scram_keys keys = {0}, made_keys = {0};
    struct fe2o3_login login = {.version = version,
        .secret = FE2O3_BY_KEYS,
        .min_iterations = 4096,
        .max_iterations = 4096,
        .username = TEXT("user"),
        .acts_for = FE2O3_NONE,
        .password = FE2O3_NONE,
        .keys = &keys};

    memcpy(of_record.bytes, salt, sizeof salt);
    told(version, "OpenSSL salts",
        hi(version, &password, &of_record, 4096, &salted) && hi(version, &other_password, &of_record, 4096, &other));
    told(version, "the record is that of the password",
        fe2o3_scram_record_of_salted(version, GIVEN(salted), salt, sizeof salt, 4096, &record) == FE2O3_OK
            && fe2o3_scram_record_make(version, FE2O3_TYPED, GIVEN(password), salt, sizeof salt, 4096, &made)
                == FE2O3_OK
            && memcmp(&record, &made, sizeof record) == 0);
    told(version, "the keys are those of the password",
        fe2o3_scram_keys_of_salted(version, GIVEN(salted), salt, sizeof salt, 4096, &keys) == FE2O3_OK
            && fe2o3_scram_keys_make(version, FE2O3_TYPED, GIVEN(password), salt, sizeof salt, 4096, &made_keys)
                == FE2O3_OK
            && memcmp(&keys, &made_keys, sizeof keys) == 0);
    told(version, "the record knows its salted password",
        fe2o3_scram_record_verify_salted(&record, GIVEN(salted)) == FE2O3_OK
            && fe2o3_scram_record_verify_salted(&record, GIVEN(other)) == FE2O3_OTHER_PASSWORD
            && fe2o3_scram_record_verify_salted(&record, salted.bytes, salted.len - 1)
                == FE2O3_RECORD_KEY_LENGTH_MISMATCH
            && fe2o3_scram_record_verify_salted(&none, GIVEN(salted)) == FE2O3_NO_SUCH_VERSION);
    told(version, "what fails changes nothing",
        fe2o3_scram_keys_of_salted(2, salted.bytes, 0, salted.bytes, 129, 0, &keys) == FE2O3_NO_SUCH_VERSION
            && fe2o3_scram_keys_of_salted(version, salted.bytes, salted.len + 1, salted.bytes, 129, 0, &keys)
                == FE2O3_RECORD_KEY_LENGTH_MISMATCH
            && fe2o3_scram_keys_of_salted(version, GIVEN(salted), salted.bytes, 129, 0, &keys) == FE2O3_TOO_LONG
            && fe2o3_scram_record_of_salted(version, GIVEN(salted), salted.bytes, 128, 0, &record)
                == FE2O3_ZERO_ITERATIONS
            && memcmp(&keys, &made_keys, sizeof keys) == 0 && memcmp(&record, &made, sizeof record) == 0);
    told(version, "a login by keys", log_in(&login, &keys, &other_password, &record) == FE2O3_OK);
    fe2o3_scram_keys_of_salted(version, GIVEN(salted), salt, 8, 4096, &keys);
    told(version, "a login by a salted password, since the keys are stale",
        log_in(&login, &keys, &password, &record) == FE2O3_OK && memcmp(&keys, &made_keys, sizeof keys) == 0);
    fe2o3_scram_keys_of_salted(version, GIVEN(salted), salt, 8, 4096, &keys);
    told(version, "a login by another password",
        log_in(&login, &keys, &other_password, &record) == FE2O3_SERVER_AUTHENTICATION_FAILED);
    login.max_iterations = 4095;
    told(version, "an iteration count above the limit is not salted",
        log_in(&login, &keys, &password, &record) == FE2O3_CLIENT_ITERATION_COUNT_TOO_LARGE);
    fe2o3_wipe(&salted, sizeof salted);
    fe2o3_wipe(&other, sizeof other);
    fe2o3_wipe(&keys, sizeof keys);
    fe2o3_wipe(&made_keys, sizeof made_keys);
    fe2o3_wipe(&record, sizeof record);
    fe2o3_wipe(&made, sizeof made);
}

int main(void)
{
    cases(FE2O3_SHA_1);
    cases(FE2O3_SHA_256);
    cases(FE2O3_SHA_512);
    return differences != 0;
}
