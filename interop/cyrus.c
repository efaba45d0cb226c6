/* A login by libsasl2 over standard input and output, a message a line, as lines.c has it:
 *
 *     cyrus client PLUGINS MECHANISM USER PASSWORD [may | choose | must | late | tls-unique HEX] [as IDENTITY]
 *     cyrus server PLUGINS MECHANISM SASLDB COUNT [NAME | tls-unique HEX] [as IDENTITY]
 *     cyrus version
 *
 * PLUGINS is a folder of plugins, and SASLDB a file of users in the realm localhost. With `may`, `choose` and `must`
 * the client has a binding of its channel, made up, which it may use, or must; with `choose` it may, and has another
 * mechanism to choose from. With `late` it sends no initial response: its first message answers an empty line of the
 * server. With `tls-unique` either side has to bind a channel with these data, and the name of the mechanism that is sent
 * ends with -PLUS; libsasl2 itself does not say so. IDENTITY is the authorization identity, or the trace information of
 * ANONYMOUS. At a server each user may act for IDENTITY only, and has to. NAME is the name that the transport
 * authenticated, for EXTERNAL; on the client's side it is USER. The status is 0 where the login is done;
 * standard error says why it is not. */
#define _POSIX_C_SOURCE 200112L
#include <sasl/sasl.h>
#include <sasl/saslutil.h>

#include <stdio.h>
#include <string.h>

static char **words;
static const char *identity = "";

/* The channel that has to be bound, if it has data. */
static unsigned char channel_data[64];
static sasl_channel_binding_t channel = {"tls-unique", 1, 0, channel_data};

static void read_channel(const char *digits)
{
    unsigned byte;
    for (; channel.len < sizeof channel_data && sscanf(digits, "%2x", &byte) == 1; digits += 2)
        channel_data[channel.len++] = (unsigned char)byte;
}

static int get_path(void *context, const char **path)
{
    (void)context;
    *path = words[2];
    return SASL_OK;
}

static int get_name(void *context, int id, const char **name, unsigned *len)
{
    (void)context;
    *name = id == SASL_CB_USER ? identity : words[4];
    if (len != NULL)
        *len = (unsigned)strlen(*name);
    return SASL_OK;
}

static int get_password(sasl_conn_t *connection, void *context, int id, sasl_secret_t **secret)
{
    static union {
        sasl_secret_t secret;
        char room[1024];
    } kept;
    size_t len = strlen(words[5]);
    (void)connection;
    (void)context;
    (void)id;
    if (len >= sizeof kept - sizeof kept.secret)
        return SASL_FAIL;
    kept.secret.len = len;
    memcpy(kept.secret.data, words[5], len + 1);
    *secret = &kept.secret;
    return SASL_OK;
}

static int get_option(void *context, const char *plugin, const char *name, const char **value, unsigned *len)
{
    const char *const options[][2] = {{"auxprop_plugin", "sasldb"}, {"sasldb_path", words[4]},
        {"scram_iteration_counter", words[5]}, {"mech_list", words[3]}};
    size_t at;
    (void)context;
    (void)plugin;
    for (at = 0; at < sizeof options / sizeof *options; at++)
        if (strcmp(name, options[at][0]) == 0) {
            *value = options[at][1];
            if (len != NULL)
                *len = (unsigned)strlen(*value);
            return SASL_OK;
        }
    return SASL_FAIL;
}

static int say_nothing(void *context, int level, const char *words_of_log)
{
    (void)context;
    (void)level;
    (void)words_of_log;
    return SASL_OK;
}

/* Whether a name is this one, also with the realm that libsasl2 appends. */
static int is_name(const char *name, unsigned len, const char *expected)
{
    size_t whole = strlen(expected);
    return len >= whole && strncmp(name, expected, whole) == 0
        && (len == whole || (len == whole + 10 && strncmp(name + whole, "@localhost", 10) == 0));
}

static int may_act(sasl_conn_t *connection, void *context, const char *asked, unsigned len, const char *user,
    unsigned user_len, const char *realm, unsigned realm_len, struct propctx *properties)
{
    (void)connection;
    (void)context;
    (void)user;
    (void)user_len;
    (void)realm;
    (void)realm_len;
    (void)properties;
    return is_name(asked, len, identity) ? SASL_OK : SASL_NOAUTHZ;
}

#define CALL(function) (int (*)(void))(void (*)(void))(function)

static const sasl_callback_t of_client[] = {{SASL_CB_GETPATH, CALL(get_path), NULL},
    {SASL_CB_LOG, CALL(say_nothing), NULL}, {SASL_CB_USER, CALL(get_name), NULL},
    {SASL_CB_AUTHNAME, CALL(get_name), NULL}, {SASL_CB_PASS, CALL(get_password), NULL}, {SASL_CB_LIST_END, NULL, NULL}};
static const sasl_callback_t of_server[] = {{SASL_CB_GETPATH, CALL(get_path), NULL},
    {SASL_CB_LOG, CALL(say_nothing), NULL}, {SASL_CB_GETOPT, CALL(get_option), NULL}, {SASL_CB_LIST_END, NULL, NULL}};
static const sasl_callback_t with_policy[] = {{SASL_CB_PROXY_POLICY, CALL(may_act), NULL},
    {SASL_CB_LOG, CALL(say_nothing), NULL}, {SASL_CB_GETOPT, CALL(get_option), NULL}, {SASL_CB_LIST_END, NULL, NULL}};

static char message[4096];
static unsigned message_len;

static int hear(void)
{
    char line[4096];
    if (fgets(line, sizeof line, stdin) == NULL)
        return 0;
    line[strcspn(line, "\r\n")] = '\0';
    return sasl_decode64(line, (unsigned)strlen(line), message, sizeof message, &message_len) == SASL_OK;
}

static int say(const char *bytes, unsigned len)
{
    char line[8192];
    unsigned written = 0;
    if (len > 0 && sasl_encode64(bytes, len, line, sizeof line, &written) != SASL_OK)
        return 0;
    return printf("%.*s\n", (int)written, line) > 0 && fflush(stdout) == 0;
}

static int ended(sasl_conn_t *connection, int status)
{
    if (status != SASL_OK)
        fprintf(stderr, "%s\n", connection == NULL ? sasl_errstring(status, NULL, NULL) : sasl_errdetail(connection));
    return status != SASL_OK;
}

static int run_client(const char *how)
{
    const sasl_channel_binding_t binding = {"tls-unique", strcmp(how, "must") == 0, 4, (const unsigned char *)"made"};
    int late = strcmp(how, "late") == 0;
    sasl_conn_t *connection = NULL;
    const char *out = NULL, *mechanism = NULL;
    char offered[96];
    unsigned len = 0;
    int status = sasl_client_init(of_client);
    snprintf(offered, sizeof offered, "%s%s", words[3], strcmp(how, "choose") == 0 ? " SCRAM-SHA-0" : "");
    if (channel.len > 0)
        snprintf(offered, sizeof offered, "%s %s-PLUS", words[3], words[3]);
    if (status == SASL_OK)
        status = sasl_client_new("amqp", "localhost", NULL, NULL, of_client, SASL_SUCCESS_DATA, &connection);
    if (status == SASL_OK && *how != '\0' && !late)
        status = sasl_setprop(connection, SASL_CHANNEL_BINDING, channel.len > 0 ? &channel : &binding);
    if (status == SASL_OK && strcmp(words[3], "EXTERNAL") == 0)
        status = sasl_setprop(connection, SASL_AUTH_EXTERNAL, words[4]);
    /* (without a place for it there is no initial response) */
    if (status == SASL_OK)
        status = sasl_client_start(connection, offered, NULL, late ? NULL : &out, late ? NULL : &len, &mechanism);
    /* (a mechanism with one message is done by it) */
    if ((status == SASL_OK || status == SASL_CONTINUE)
        && (printf("%s%s\n", mechanism, channel.len > 0 ? "-PLUS" : "") < 0 || fflush(stdout) != 0))
        status = SASL_FAIL;
    for (; status == SASL_CONTINUE && (late || say(out, len)) && hear(); late = 0)
        status = sasl_client_step(connection, message, message_len, NULL, &out, &len);
    if (status == SASL_OK && !(say(out, len) && hear()))
        status = SASL_FAIL;
    return ended(connection, status);
}

static int run_server(const char *name)
{
    const sasl_callback_t *calls = *identity != '\0' ? with_policy : of_server;
    sasl_conn_t *connection = NULL;
    const char *out = NULL, *acts_for = NULL;
    unsigned len = 0;
    int status = sasl_server_init(of_server, "interop");
    if (status == SASL_OK)
        status = sasl_server_new("amqp", "localhost", "localhost", NULL, NULL, calls, SASL_SUCCESS_DATA, &connection);
    if (status == SASL_OK && channel.len > 0)
        status = sasl_setprop(connection, SASL_CHANNEL_BINDING, &channel);
    else if (status == SASL_OK && *name != '\0')
        status = sasl_setprop(connection, SASL_AUTH_EXTERNAL, name);
    printf("%s%s\n\n", words[3], channel.len > 0 ? "-PLUS" : "");
    fflush(stdout);
    if (status == SASL_OK)
        status = hear() ? sasl_server_start(connection, words[3], message, message_len, &out, &len) : SASL_FAIL;
    while (status == SASL_CONTINUE && say(out, len) && hear())
        status = sasl_server_step(connection, message, message_len, &out, &len);
    if (status == SASL_OK && *identity != '\0')
        status = sasl_getprop(connection, SASL_USERNAME, (const void **)&acts_for);
    if (status == SASL_OK && acts_for != NULL && !is_name(acts_for, (unsigned)strlen(acts_for), identity))
        status = SASL_FAIL;
    if (status == SASL_OK && !(say(out, len) && hear() && say("", 0)))
        status = SASL_FAIL;
    return ended(connection, status);
}

int main(int count, char **given)
{
    const char *what = count > 1 ? given[1] : "";
    words = given;
    if (strcmp(what, "version") == 0) {
        const char *version = "";
        sasl_version_info(NULL, &version, NULL, NULL, NULL, NULL);
        puts(version);
        return 0;
    }
    if (count >= 8 && strcmp(given[count - 2], "as") == 0) {
        identity = given[count - 1];
        count -= 2;
    }
    if (count == 8 && strcmp(given[6], "tls-unique") == 0) {
        read_channel(given[7]);
        count = 7;
    }
    if (strcmp(what, "client") == 0 && (count == 6 || count == 7))
        return run_client(count == 7 ? given[6] : "");
    if (strcmp(what, "server") == 0 && (count == 6 || count == 7))
        return run_server(count == 7 ? given[6] : "");
    return 2;
}
