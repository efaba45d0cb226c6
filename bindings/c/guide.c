/* What docs/GUIDE-c.md shows: all of this file, in its order. guide_logins.c makes each login. */

#define _DEFAULT_SOURCE
#include "fe2o3_sasl.h"

#include <stdio.h>
#include <string.h>
#include <sys/random.h>
#include <sys/socket.h>

/* Received bytes. Those before `at` were taken, and after a login the rest belongs to AMQP. */
struct input {
    uint8_t bytes[4096];
    size_t at, len;
};

/* Receives bytes if none are left. Returns 0 if the other side has ended its stream. */
static int has_input(int sock, struct input *in)
{
    ssize_t some;
    if (in->at < in->len)
        return 1;
    some = recv(sock, in->bytes, sizeof in->bytes, 0);
    in->at = 0;
    in->len = some > 0 ? (size_t)some : 0;
    return some > 0;
}

static int send_all(int sock, const uint8_t *bytes, size_t len)
{
    while (len > 0) {
        ssize_t some = send(sock, bytes, len, MSG_NOSIGNAL);
        if (some < 0)
            return 0;
        bytes += some;
        len -= (size_t)some;
    }
    return 1;
}

/* The texts have to live as long as the login. */
static struct fe2o3_sasl_login new_login(const char *host, const char *user, const char *password)
{
    struct fe2o3_sasl_login login = FE2O3_SASL_LOGIN_INIT;
    login.mechanism = FE2O3_SCRAM;
    login.hostname = (const uint8_t *)host;
    login.hostname_len = strlen(host);
    login.login.version = FE2O3_SHA_256;
    login.login.min_iterations = 4096;
    login.login.max_iterations = 100000;
    login.login.strict = 1;
    login.login.username = (const uint8_t *)user;
    login.login.username_len = strlen(user);
    login.login.password = (const uint8_t *)password;
    login.login.password_len = strlen(password);
    return login;
}

/* Returns FE2O3_OK if both sides are authenticated. `client` and `in` begin as zeros. */
static uint32_t log_in(int sock, const struct fe2o3_sasl_login *login, struct fe2o3_sasl_client *client,
    struct input *in)
{
    uint8_t out[512], nonce[32];
    size_t taken = 0, len = 0;
    uint32_t status = fe2o3_sasl_client_open(out, sizeof out, &len);
    while (status == FE2O3_OK && send_all(sock, out, len) && client->connection.progress == FE2O3_IN_PROGRESS) {
        if (!has_input(sock, in) || getrandom(nonce, sizeof nonce, 0) != sizeof nonce)
            break;
        status = fe2o3_sasl_client_receive(login, client, in->bytes + in->at, in->len - in->at, nonce, &taken, out,
            sizeof out, &len);
        in->at += status == FE2O3_OK ? taken : 0;
    }
    fe2o3_sasl_end_of_input(&client->connection);
    return status == FE2O3_OK ? client->connection.why : status;
}

/* The lines of `scram users add`, and a secret of 32 random bytes that is stored beside them. */
struct store {
    const uint8_t *lines;
    size_t lines_len;
    uint8_t secret[32];
};

/* The user that a client claims to be, with the records that the store has of it. */
struct user {
    uint8_t name[512];
    size_t len, count;
    struct fe2o3_scram_record records[2];
};

static const uint32_t hashes[2] = {FE2O3_SHA_256, FE2O3_SHA_512};

static void find(const struct store *store, struct user *user)
{
    size_t i, line;
    for (i = 0; i < 2; i++)
        if (fe2o3_scram_lines_find(store->lines, store->lines_len, user->name, user->len, hashes[i], &line,
                &user->records[user->count])
            == FE2O3_OK)
            user->count++;
}

/* Makes the server answer a name without a record like one with a record. */
static void mock_unknown_users(struct fe2o3_sasl_server_config *config, const struct store *store)
{
    config->mock_secret = store->secret;
    config->mock_secret_len = sizeof store->secret;
    config->mock_salt_len = FE2O3_DEFAULT_SALT_LEN;
    config->iterations = FE2O3_DEFAULT_ITERATIONS;
}

/* Says for whom the user may act besides itself: here `admin` for `alice` and `bob`. */
static void set_rights(struct fe2o3_sasl_server_config *config, const struct user *user)
{
    static const char identities[] = "alice\0bob";
    int is_admin = user->len == 5 && memcmp(user->name, "admin", 5) == 0;
    config->accept_authzid = 1;
    config->identities = (const uint8_t *)identities;
    config->identities_len = is_admin ? sizeof identities : 0;
}

/* Writes the name to which the connection belongs after the login. Returns its length. */
static size_t owner(const struct fe2o3_sasl_server *server, uint8_t name[256])
{
    size_t len = 0;
    fe2o3_scram_server_acts_for(&server->scram, name, 256, &len);
    if (len == 0)
        fe2o3_scram_server_authenticated_user(&server->scram, name, 256, &len);
    return len;
}

/* Logs why a login failed, if it did. The claimed name may hold line feeds, so it is written in hexadecimal. */
static void log_failure(uint32_t status, uint32_t rejection, const struct user *user)
{
    struct fe2o3_text text = FE2O3_TEXT_INIT;
    size_t i;
    if (status == FE2O3_OK)
        return;
    fe2o3_status_text(status, &text);
    fprintf(stderr, "%s, rejection %u, user ", (const char *)text.bytes, (unsigned)rejection);
    for (i = 0; i < user->len; i++)
        fprintf(stderr, "%02x", user->name[i]);
    fputc('\n', stderr);
}

/* The store has to live as long as the configuration. */
static struct fe2o3_sasl_server_config new_config(const struct store *store, int is_tls)
{
    struct fe2o3_sasl_server_config config = FE2O3_SASL_SERVER_CONFIG_INIT;
    mock_unknown_users(&config, store);
    config.mechanisms = FE2O3_OFFER_SCRAM_SHA_512 | FE2O3_OFFER_SCRAM_SHA_256;
    config.flags = FE2O3_REJECT_MISPLACED;
    if (is_tls)
        config.mechanisms |= FE2O3_OFFER_PLAIN;
    return config;
}

/* Passes what the store has of the user whom received bytes claim. The server has written the name. */
static void look_up(const struct store *store, const uint8_t *name, size_t len, struct user *user,
    struct fe2o3_sasl_server_config *config)
{
    memset(user, 0, sizeof *user);
    memcpy(user->name, name, len);
    user->len = len;
    find(store, user);
    config->looked_up = 1;
    config->username = user->name;
    config->username_len = user->len;
    config->records = user->records;
    config->records_count = user->count;
    set_rights(config, user);
}

/* Returns FE2O3_OK if a user has logged in. `server` and `in` begin as zeros. */
static uint32_t serve(int sock, struct fe2o3_sasl_server_config config, const struct store *store,
    struct fe2o3_sasl_server *server, struct input *in)
{
    struct user user = {.len = 0};
    uint8_t out[520], nonce[32];
    size_t taken = 0, len = 0;
    uint32_t status = FE2O3_OK;
    while (server->connection.progress == FE2O3_IN_PROGRESS && has_input(sock, in)
        && getrandom(nonce, sizeof nonce, 0) == sizeof nonce) {
        status = fe2o3_sasl_server_receive(&config, server, in->bytes + in->at, in->len - in->at, nonce, &taken, out,
            sizeof out, &len);
        config.looked_up = 0;
        if (status == FE2O3_NEEDS_RECORDS)
            look_up(store, out, len, &user, &config);
        else if (status != FE2O3_OK || !send_all(sock, out, len))
            break;
        in->at += status == FE2O3_OK ? taken : 0;
    }
    fe2o3_sasl_end_of_input(&server->connection);
    status = status == FE2O3_OK ? server->connection.why : status;
    log_failure(status, server->scram.rejection, &user);
    fe2o3_wipe(&user, sizeof user);
    return status;
}

/* Makes the client bind its TLS connection, by SCRAM-SHA-256-PLUS, and the server bind its own. */
static void bind_client(struct fe2o3_sasl_login *login, const uint8_t exported[32])
{
    login->login.channel_use = FE2O3_CHANNEL_BOUND;
    login->login.channel_kind = FE2O3_TLS_EXPORTER;
    login->login.channel_data_len = 32;
    memcpy(login->login.channel_data, exported, 32);
}

static void bind_server(struct fe2o3_sasl_server_config *config, const uint8_t exported[32])
{
    config->channels.binds_channel = 1;
    config->channels.tls_exporter_len = 32;
    memcpy(config->channels.tls_exporter, exported, 32);
}

/* A login without a password. fe2o3_scram_client_get_keys has written the keys after an earlier login. */
static struct fe2o3_sasl_login new_login_with_keys(const char *host, const char *user,
    const struct fe2o3_scram_keys *keys)
{
    struct fe2o3_sasl_login login = new_login(host, user, "");
    login.login.version = keys->version;
    login.login.secret = FE2O3_BY_KEYS;
    login.login.keys = keys;
    return login;
}

/* Saves a side between two calls, and restores it in another process. */
static int save(FILE *file, const struct fe2o3_sasl_server *server)
{
    return fwrite(server, sizeof *server, 1, file) == 1 && fflush(file) == 0;
}

static int restore(FILE *file, struct fe2o3_sasl_server *server) { return fread(server, sizeof *server, 1, file) == 1; }
