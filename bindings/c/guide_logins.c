/* Makes each login of guide.c, over pairs of sockets, with the client in a thread of its own, and says how it ended. The
 * status is 0 if each login ends as it should. */
#include "guide.c"

#include <pthread.h>
#include <stdlib.h>
#include <unistd.h>

static int failures;

static void expect(const char *what, int holds)
{
    if (!holds) {
        printf("FAILED: %s\n", what);
        failures++;
    }
}

/* A client's side of a login, and how it ended. */
struct client_run {
    int sock;
    struct fe2o3_sasl_login login;
    struct fe2o3_sasl_client client;
    struct input in;
    uint32_t status;
};

static void *run_client(void *given)
{
    struct client_run *run = given;
    run->status = log_in(run->sock, &run->login, &run->client, &run->in);
    close(run->sock);
    return NULL;
}

/* A server's side of a login, and how it ended. */
struct server_run {
    struct fe2o3_sasl_server server;
    struct input in;
    uint32_t status;
};

/* How a server serves: at once, or with its struct saved and restored before each call. */
enum how { AT_ONCE, SAVED };

/* Serves a login one byte after another, and saves and restores the struct before each call. */
static uint32_t serve_saved(int sock, struct fe2o3_sasl_server_config config, const struct store *store,
    struct fe2o3_sasl_server *server, struct input *in)
{
    struct user user;
    uint32_t status = FE2O3_OK;
    while (status == FE2O3_OK && server->connection.progress == FE2O3_IN_PROGRESS) {
        uint8_t out[520], nonce[32] = {7};
        size_t taken = 0, len = 0;
        FILE *file = tmpfile();
        expect("a file is saved", file != NULL && save(file, server));
        memset(server, 0xA5, sizeof *server);
        rewind(file);
        expect("a file is restored", restore(file, server));
        fclose(file);
        if (!has_input(sock, in))
            return FE2O3_END_OF_INPUT;
        status =
            fe2o3_sasl_server_receive(&config, server, in->bytes + in->at, 1, nonce, &taken, out, sizeof out, &len);
        config.looked_up = 0;
        if (status == FE2O3_NEEDS_RECORDS) {
            look_up(store, out, len, &user, &config);
            status = FE2O3_OK;
            len = 0;
        }
        if (status == FE2O3_OK && send_all(sock, out, len))
            in->at += taken;
    }
    return status == FE2O3_OK ? server->connection.why : status;
}

/* Runs both sides of a login, each over its end of a pair of sockets. */
static void meet(struct client_run *client, const struct fe2o3_sasl_server_config *config, const struct store *store,
    struct server_run *server, enum how how)
{
    int ends[2];
    pthread_t thread;
    if (socketpair(AF_UNIX, SOCK_STREAM, 0, ends) != 0)
        exit(2);
    memset(&client->client, 0, sizeof client->client);
    memset(&client->in, 0, sizeof client->in);
    memset(server, 0, sizeof *server);
    client->sock = ends[0];
    if (pthread_create(&thread, NULL, run_client, client) != 0)
        exit(2);
    server->status = (how == SAVED ? serve_saved : serve)(ends[1], *config, store, &server->server, &server->in);
    close(ends[1]);
    pthread_join(thread, NULL);
}

/* Adds a user to the lines of a store. Returns the new length. */
static size_t add(uint8_t *lines, size_t size, size_t at, const char *name, uint8_t fill)
{
    size_t i, len = 0;
    for (i = 0; i < 2; i++) {
        struct fe2o3_scram_record record;
        uint8_t salt[FE2O3_DEFAULT_SALT_LEN];
        memset(salt, fill + (int)i, sizeof salt);
        expect("a record is made",
            fe2o3_scram_record_make(hashes[i], FE2O3_TYPED, (const uint8_t *)"pencil", 6, salt, sizeof salt,
                FE2O3_DEFAULT_ITERATIONS, &record)
                == FE2O3_OK);
        expect("a line is written",
            fe2o3_scram_line((const uint8_t *)name, strlen(name), &record, lines + at, size - at, &len) == FE2O3_OK);
        at += len;
    }
    return at;
}

static int is_owner(const struct server_run *server, const char *name)
{
    uint8_t found[256];
    size_t len = owner(&server->server, found);
    return len == strlen(name) && memcmp(found, name, len) == 0;
}

static void logins(const struct store *store, enum how how)
{
    struct client_run client = {.login = new_login("broker.example", "user", "pencil")};
    struct fe2o3_sasl_server_config plain = new_config(store, 0), tls = new_config(store, 1);
    struct server_run server;
    meet(&client, &plain, store, &server, how);
    expect("a login", client.status == FE2O3_OK && server.status == FE2O3_OK && is_owner(&server, "user"));
    meet(&client, &tls, store, &server, how);
    expect("a login under TLS", client.status == FE2O3_OK && server.status == FE2O3_OK);
    client.login = new_login("broker.example", "user", "crayon");
    meet(&client, &plain, store, &server, how);
    expect("a wrong password", client.status == FE2O3_REFUSED_AUTH && server.status == FE2O3_REFUSED_AUTH);
    expect("its reason", server.server.scram.rejection == FE2O3_REJECTION_WRONG_PROOF);
    client.login = new_login("broker.example", "nobody", "pencil");
    meet(&client, &plain, store, &server, how);
    expect("an unknown user",
        client.status == FE2O3_REFUSED_AUTH && server.server.scram.rejection == FE2O3_REJECTION_UNKNOWN_USER);
}

static void bound_logins(const struct store *store)
{
    struct client_run client = {.login = new_login("broker.example", "user", "pencil")};
    struct fe2o3_sasl_server_config same = new_config(store, 1), other = same, none = same;
    struct server_run server;
    const uint8_t near[32] = {1}, far[32] = {2};
    bind_client(&client.login, near);
    bind_server(&same, near);
    bind_server(&other, far);
    meet(&client, &same, store, &server, AT_ONCE);
    expect("a channel", client.status == FE2O3_OK && server.status == FE2O3_OK && is_owner(&server, "user"));
    meet(&client, &other, store, &server, AT_ONCE);
    expect("another channel", client.status == FE2O3_REFUSED_AUTH && server.status == FE2O3_REFUSED_AUTH);
    expect("its reason", server.server.scram.rejection == FE2O3_REJECTION_CHANNEL);
    meet(&client, &none, store, &server, AT_ONCE);
    expect("a channel that is not bound",
        client.status == FE2O3_NOT_IMPLEMENTED && server.status == FE2O3_END_OF_INPUT);
}

static void acting_logins(const struct store *store)
{
    static const struct {
        const char *user, *identity;
        int acts;
    } tries[] = {{"admin", "alice", 1}, {"admin", "bob", 1}, {"admin", "user", 0}, {"user", "alice", 0},
        {"user", "user", 1}};
    struct fe2o3_sasl_server_config config = new_config(store, 0);
    size_t i;
    for (i = 0; i < sizeof tries / sizeof *tries; i++) {
        struct client_run client = {.login = new_login("broker.example", tries[i].user, "pencil")};
        struct server_run server;
        client.login.login.acts_for = (const uint8_t *)tries[i].identity;
        client.login.login.acts_for_len = strlen(tries[i].identity);
        meet(&client, &config, store, &server, AT_ONCE);
        expect("an identity",
            (client.status == FE2O3_OK) == tries[i].acts && (server.status == FE2O3_OK) == tries[i].acts);
        expect("its owner", !tries[i].acts || is_owner(&server, tries[i].identity));
        expect("its reason", tries[i].acts || server.server.scram.rejection == FE2O3_REJECTION_NO_RIGHT);
    }
}

static void logins_by_keys(const struct store *store, const struct store *changed)
{
    struct client_run client = {.login = new_login("broker.example", "user", "pencil")};
    struct fe2o3_sasl_server_config config = new_config(store, 0);
    struct fe2o3_scram_keys keys = {0};
    struct server_run server;
    meet(&client, &config, store, &server, AT_ONCE);
    expect("keys", fe2o3_scram_client_get_keys(&client.client.scram, &keys) == FE2O3_OK);
    client.login = new_login_with_keys("broker.example", "user", &keys);
    meet(&client, &config, store, &server, AT_ONCE);
    expect("a login by keys", client.status == FE2O3_OK && server.status == FE2O3_OK);
    meet(&client, &config, changed, &server, AT_ONCE);
    expect("stale keys", client.status == FE2O3_CLIENT_STALE_KEYS && server.status == FE2O3_END_OF_INPUT);
}

int main(void)
{
    uint8_t lines[2048], changed_lines[2048];
    struct store store = {lines, 0, {9}}, changed = {changed_lines, 0, {9}};
    store.lines_len = add(lines, sizeof lines, 0, "user", 1);
    store.lines_len = add(lines, sizeof lines, store.lines_len, "admin", 3);
    changed.lines_len = add(changed_lines, sizeof changed_lines, 0, "user", 5);
    /* (the log of rejected logins) */
    if (freopen("/dev/null", "w", stderr) == NULL)
        return 2;
    logins(&store, AT_ONCE);
    logins(&store, SAVED);
    bound_logins(&store);
    acting_logins(&store);
    logins_by_keys(&store, &changed);
    printf("%d failures\n", failures);
    return failures != 0;
}
