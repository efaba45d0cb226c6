/* SCRAM, PLAIN, ANONYMOUS and EXTERNAL over TCP on the loopback, one base64 line per message, as GNU SASL's program has
 * it. The server writes the name of the mechanism and an empty challenge first, the client the name. After a login each
 * writes an empty line, the client first. A server that accepts the only message of a mechanism writes an empty line
 * before these.
 *
 *     lines client PORT MECHANISM USER LEAST MOST [prepared] [again] [for:IDENTITY] [KIND:HEX]
 *     lines server USERS MECHANISM LOGINS [unbound] [misplaced] [for:IDENTITY].. [KIND:HEX]
 *     lines server USERS PLAIN LOGINS [prepared | saslprep] [for:IDENTITY]..
 *     lines server USERS EXTERNAL LOGINS NAME
 *     lines record MECHANISM SALT COUNT [prepared]
 *     lines verify RECORD [prepared]
 *
 * LEAST and MOST bound the iteration count, SALT is in base64, and USERS is a file of users' lines. All but the server
 * take the password from the first line of standard input; with `prepared` it is what SASLprep prepares that to, for a
 * record without code points that Unicode 3.2 does not assign. With `again` a second login uses the keys of the
 * first one, without the password. With `unbound` the server takes the GS2 header `y,,` too. With `misplaced` it rejects
 * what is no extension in the place of one. With a kind of channel binding, such as `tls-exporter`, and the data of the
 * channel in hexadecimal, either side binds that channel: the name of the mechanism then ends with `-PLUS`. A client with a
 * channel and another mechanism was not offered `-PLUS`: its GS2 header is `y,,`. With `for:` the server accepts
 * authorization identities, and each user may act for these; an empty one adds none. A client of SCRAM or PLAIN acts for
 * its IDENTITY. The server prints its port; each login has a line that says how it ended, for which user, and for which
 * identity the user acts.
 *
 * For ANONYMOUS the USER is the trace information, and for EXTERNAL the authorization identity; both can be empty. NAME
 * is the name that the transport authenticated. With `prepared` a server of PLAIN expects a prepared password, and with
 * `saslprep` it prepares the received password itself. */
#define _POSIX_C_SOURCE 200112L
#include "channel.h"

#include <netinet/in.h>
#include <signal.h>
#include <stdlib.h>
#include <string.h>
#include <sys/socket.h>
#include <unistd.h>

static const struct text empty;

/* The channel that this side binds, if its use says so. */
static struct {
    uint32_t use, kind, len;
    uint8_t bytes[64];
} bound;

/* Reads a channel, KIND:HEX. Returns 0 if the word is none. */
static int read_channel(const char *word)
{
    static const char *kinds[] = {"tls-unique:", "tls-server-end-point:", "tls-exporter:"};
    for (uint32_t kind = 0; kind < 3; kind++) {
        size_t before = strlen(kinds[kind]);
        if (strncmp(word, kinds[kind], before) != 0)
            continue;
        unsigned byte;
        for (word += before; bound.len < sizeof bound.bytes && sscanf(word, "%2x", &byte) == 1; word += 2)
            bound.bytes[bound.len++] = (uint8_t)byte;
        bound.use = FE2O3_CHANNEL_BOUND;
        bound.kind = kind + 1;
        return 1;
    }
    return 0;
}

/* The rules of the server, and the identity that a client acts for. */
static struct fe2o3_scram_rules rules = {.identities = FE2O3_NONE};
static const char *client_acts_for = "";

/* Reads an identity that each user may act for, or the client, for:IDENTITY. Returns 0 if the word is none. */
static int read_identity(const char *word)
{
    static uint8_t identities[1024];
    size_t len = strlen(word) - (strncmp(word, "for:", 4) == 0 ? 4 : 0);
    if (len == strlen(word) || len + 1 > sizeof identities - rules.identities_len)
        return 0;
    client_acts_for = word + 4;
    rules.accept_authzid = 1;
    rules.identities = identities;
    memcpy(identities + rules.identities_len, word + 4, len + 1);
    rules.identities_len += len > 0 ? len + 1 : 0;
    return 1;
}

static void set_rules(int accepts_y, int rejects_misplaced)
{
    rules.accept_cbind_flag_y = (uint32_t)accepts_y;
    rules.reject_misplaced = (uint32_t)rejects_misplaced;
    rules.channels.binds_channel = bound.use == FE2O3_CHANNEL_BOUND;
    *(bound.kind == FE2O3_TLS_UNIQUE                   ? &rules.channels.tls_unique_len
            : bound.kind == FE2O3_TLS_SERVER_END_POINT ? &rules.channels.tls_server_end_point_len
                                                       : &rules.channels.tls_exporter_len) = bound.len;
    memcpy(rules.channels.tls_unique, bound.bytes, sizeof bound.bytes);
    memcpy(rules.channels.tls_server_end_point, bound.bytes, sizeof bound.bytes);
    memcpy(rules.channels.tls_exporter, bound.bytes, sizeof bound.bytes);
}

/* The hash of a mechanism, whose name may end with -PLUS, or 0. */
static uint32_t version_of(const char *mechanism)
{
    static const struct {
        const char *name;
        uint32_t version;
    } known[] = {{"SCRAM-SHA-1", FE2O3_SHA_1}, {"SCRAM-SHA-256", FE2O3_SHA_256}, {"SCRAM-SHA-512", FE2O3_SHA_512}};
    for (int at = 0; at < 3; at++) {
        size_t len = strlen(known[at].name);
        if (strncmp(mechanism, known[at].name, len) == 0
            && (mechanism[len] == 0 || strcmp(mechanism + len, "-PLUS") == 0))
            return known[at].version;
    }
    return 0;
}

/* Returns whether a mechanism has one message only, that of the client. */
static int has_one_message(const char *mechanism)
{
    return strcmp(mechanism, "PLAIN") == 0 || strcmp(mechanism, "ANONYMOUS") == 0 || strcmp(mechanism, "EXTERNAL") == 0;
}

/* Returns what a client of this mechanism says of its channel. */
static uint32_t channel_use_by(const char *mechanism)
{
    int has_channel = bound.use == FE2O3_CHANNEL_BOUND;
    return has_channel && strstr(mechanism, "-PLUS") == NULL ? FE2O3_CHANNEL_NOT_OFFERED : bound.use;
}

static int is_known(const char *mechanism) { return version_of(mechanism) != 0 || has_one_message(mechanism); }

/* Sets a text to these bytes, of which it has room for 2048. */
static void set_text(struct text *text, const uint8_t *bytes, size_t len)
{
    text->len = len < sizeof text->bytes ? len : sizeof text->bytes;
    memcpy(text->bytes, bytes, text->len);
}

static void told(const char *what, uint32_t status)
{
    struct fe2o3_text text = FE2O3_TEXT_INIT;
    fe2o3_status_text(status, &text);
    printf("%s: %s\n", what, status == OTHER_SIDE_ENDED ? "the other side ended" : (const char *)text.bytes);
    fflush(stdout);
}

static uint32_t log_in_by_scram(FILE *in, FILE *out, const struct fe2o3_login *login, struct fe2o3_scram_client *client)
{
    struct text message, answer;
    uint8_t nonce[32];
    uint32_t status;
    if (!random_bytes(nonce, sizeof nonce))
        return OTHER_SIDE_ENDED;
    status = fe2o3_scram_client_first(login, client, nonce, answer.bytes, sizeof answer.bytes, &answer.len);
    if (status != FE2O3_OK)
        return status;
    write_base64(out, &answer);
    if ((status = read_message(in, &message)) != FE2O3_OK)
        return status;
    status = fe2o3_scram_client_final(login, client, message.bytes, message.len, answer.bytes, sizeof answer.bytes,
        &answer.len);
    if (status != FE2O3_OK)
        return status;
    write_base64(out, &answer);
    if ((status = read_message(in, &message)) != FE2O3_OK)
        return status;
    status = fe2o3_scram_client_verify(login, client, message.bytes, message.len);
    if (status == FE2O3_OK)
        write_base64(out, &empty);
    return status;
}

/* Logs in by a mechanism with one message: that of PLAIN, or the user name itself. */
static uint32_t log_in_by_message(FILE *in, FILE *out, const char *mechanism, const struct fe2o3_login *login)
{
    struct text message = {{0}, 0}, answer;
    uint32_t status = FE2O3_OK;
    if (strcmp(mechanism, "PLAIN") == 0)
        status = fe2o3_plain_message(login->acts_for, login->acts_for_len, login->username, login->username_len,
            login->password, login->password_len, message.bytes, sizeof message.bytes, &message.len);
    else
        set_text(&message, login->username, login->username_len);
    if (status != FE2O3_OK)
        return status;
    write_base64(out, &message);
    if ((status = read_message(in, &answer)) == FE2O3_OK)
        write_base64(out, &empty);
    return status;
}

static uint32_t log_in(FILE *in, FILE *out, const char *mechanism, const struct fe2o3_login *login,
    struct fe2o3_scram_client *client)
{
    char line[256];
    if (!read_line(in, line, sizeof line) || !read_line(in, line, sizeof line))
        return OTHER_SIDE_ENDED;
    return has_one_message(mechanism) ? log_in_by_message(in, out, mechanism, login)
                                      : log_in_by_scram(in, out, login, client);
}

/* A login over a connection, which it closes. */
static uint32_t connected(int channel, const char *mechanism, const struct fe2o3_login *login,
    struct fe2o3_scram_client *client)
{
    int other = channel < 0 ? -1 : dup(channel);
    FILE *in = channel < 0 ? NULL : fdopen(channel, "r"), *out = other < 0 ? NULL : fdopen(other, "w");
    uint32_t status = in == NULL || out == NULL ? OTHER_SIDE_ENDED : log_in(in, out, mechanism, login, client);
    if (in != NULL)
        fclose(in);
    if (out != NULL)
        fclose(out);
    return status;
}

/* The password as it is typed, or what it is prepared to. */
static uint32_t read_password(const char *typed, int prepared, uint32_t unassigned, struct text *password)
{
    password->len = strlen(typed);
    memcpy(password->bytes, typed, password->len);
    if (!prepared)
        return FE2O3_OK;
    return fe2o3_saslprep((const uint8_t *)typed, strlen(typed), unassigned, password->bytes, sizeof password->bytes,
        &password->len);
}

static int run_client(char **words, int prepared, int again, const char *typed)
{
    struct fe2o3_scram_keys keys = {0};
    struct fe2o3_scram_client client = {0};
    struct fe2o3_login login = {0};
    struct text password;
    uint32_t status = read_password(typed, prepared, FE2O3_UNASSIGNED_ALLOWED, &password);
    login.form = prepared ? FE2O3_PREPARED : FE2O3_TYPED;
    login.version = version_of(words[1]);
    login.min_iterations = (uint32_t)strtoul(words[3], NULL, 10);
    login.max_iterations = (uint32_t)strtoul(words[4], NULL, 10);
    login.username = (const uint8_t *)words[2];
    login.username_len = strlen(words[2]);
    login.acts_for = (const uint8_t *)client_acts_for;
    login.acts_for_len = strlen(client_acts_for);
    login.password = password.bytes;
    login.password_len = password.len;
    login.keys = &keys;
    login.channel_use = channel_use_by(words[1]);
    login.channel_kind = bound.kind;
    login.channel_data_len = bound.len;
    memcpy(login.channel_data, bound.bytes, sizeof bound.bytes);
    if (status == FE2O3_OK)
        status = connected(loopback(words[0], 0), words[1], &login, &client);
    told(status == FE2O3_OK ? "logged in" : "not logged in", status);
    if (status != FE2O3_OK || !again)
        return status != FE2O3_OK;
    status = fe2o3_scram_client_get_keys(&client, &keys);
    login.secret = FE2O3_BY_KEYS;
    login.password_len = 0;
    if (status == FE2O3_OK)
        status = connected(loopback(words[0], 0), words[1], &login, &client);
    told(status == FE2O3_OK ? "logged in by keys" : "not logged in by keys", status);
    return status != FE2O3_OK;
}

static uint8_t users[65536], secret[32];
static size_t users_len;
static uint32_t plain_passwords = FE2O3_PLAIN_PASSWORDS_TYPED;
static const char *transport_name = "";

/* The record of a name: that of its line, or one that is made up, so that nobody learns which names there are. */
static void fetch(const struct text *name, uint32_t version, struct fe2o3_scram_record *record)
{
    size_t line = 0;
    if (fe2o3_scram_lines_find(users, users_len, name->bytes, name->len, version, &line, record) != FE2O3_OK)
        fe2o3_scram_record_mock(version, secret, sizeof secret, name->bytes, name->len, 16, 4096, record);
}

/* Lets the client log in that sent this first message, and writes its name, and the identity that it acts for. */
static uint32_t serve_scram(FILE *in, FILE *out, const char *mechanism, const struct text *first, struct text *name,
    struct text *acts_for)
{
    struct fe2o3_scram_server server = {0};
    struct fe2o3_scram_record record = {0};
    struct text message, answer;
    uint8_t nonce[32];
    uint32_t status;
    status =
        fe2o3_scram_server_claimed_user(&rules, first->bytes, first->len, name->bytes, sizeof name->bytes, &name->len);
    if (status != FE2O3_OK)
        return status;
    if (!random_bytes(nonce, sizeof nonce))
        return OTHER_SIDE_ENDED;
    fetch(name, version_of(mechanism), &record);
    status = fe2o3_scram_server_first(&rules, &record, &server, nonce, first->bytes, first->len, answer.bytes,
        sizeof answer.bytes, &answer.len);
    if (status != FE2O3_OK)
        return status;
    write_base64(out, &answer);
    if ((status = read_message(in, &message)) != FE2O3_OK)
        return status;
    status = fe2o3_scram_server_final(&rules, &record, &server, message.bytes, message.len, answer.bytes,
        sizeof answer.bytes, &answer.len);
    if (status != FE2O3_OK)
        return status;
    write_base64(out, &answer);
    status = fe2o3_scram_server_acts_for(&server, acts_for->bytes, sizeof acts_for->bytes, &acts_for->len);
    return status != FE2O3_OK
        ? status
        : fe2o3_scram_server_authenticated_user(&server, name->bytes, sizeof name->bytes, &name->len);
}

/* Tests a message of PLAIN, and writes the name of its user, and the identity that it acts for if the server accepts one. */
static uint32_t serve_plain(const struct text *message, struct text *name, struct text *acts_for)
{
    struct fe2o3_scram_record record = {0};
    uint32_t claims =
        fe2o3_plain_claimed_user(message->bytes, message->len, name->bytes, sizeof name->bytes, &name->len);
    if (claims == FE2O3_OK)
        fetch(name, FE2O3_SHA_256, &record);
    if (claims == FE2O3_OK && rules.accept_authzid)
        fe2o3_plain_claimed_identity(message->bytes, message->len, acts_for->bytes, sizeof acts_for->bytes,
            &acts_for->len);
    return fe2o3_plain_verify(&record, claims == FE2O3_OK, plain_passwords, 4096, rules.accept_authzid,
        rules.identities, rules.identities_len, message->bytes, message->len);
}

/* Tests the only message of a mechanism, and writes the name of its user: an empty one for ANONYMOUS. */
static uint32_t serve_message(FILE *out, const char *mechanism, const struct text *message, struct text *name,
    struct text *acts_for)
{
    const uint8_t *transport = (const uint8_t *)transport_name;
    size_t len = strlen(transport_name);
    uint32_t status = FE2O3_OK;
    name->len = 0;
    if (strcmp(mechanism, "PLAIN") == 0)
        status = serve_plain(message, name, acts_for);
    if (strcmp(mechanism, "EXTERNAL") == 0) {
        status = fe2o3_external_verify(transport, len, message->bytes, message->len);
        set_text(name, transport, len);
    }
    if (status == FE2O3_OK)
        write_base64(out, &empty);
    return status;
}

static uint32_t serve(FILE *in, FILE *out, const char *mechanism, struct text *name, struct text *acts_for)
{
    struct text message;
    char line[256];
    uint32_t status;
    if (!read_line(in, line, sizeof line) || strcmp(line, mechanism) != 0)
        return OTHER_SIDE_ENDED;
    if ((status = read_message(in, &message)) != FE2O3_OK)
        return status;
    status = has_one_message(mechanism) ? serve_message(out, mechanism, &message, name, acts_for)
                                        : serve_scram(in, out, mechanism, &message, name, acts_for);
    if (status == FE2O3_OK) {
        read_message(in, &message);
        write_base64(out, &empty);
    }
    return status;
}

static void served(int channel, const char *mechanism)
{
    struct text name, acts_for = {{0}, 0};
    int other = channel < 0 ? -1 : dup(channel);
    FILE *in = channel < 0 ? NULL : fdopen(channel, "r"), *out = other < 0 ? NULL : fdopen(other, "w");
    uint32_t status = in == NULL || out == NULL ? OTHER_SIDE_ENDED : serve(in, out, mechanism, &name, &acts_for);
    if (status == FE2O3_OK)
        printf("logged in: %.*s%s%.*s\n", (int)name.len, (const char *)name.bytes, acts_for.len > 0 ? " for " : "",
            (int)acts_for.len, (const char *)acts_for.bytes);
    else
        told("not logged in", status);
    fflush(stdout);
    if (in != NULL)
        fclose(in);
    if (out != NULL)
        fclose(out);
}

static int run_server(char **words)
{
    struct sockaddr_in address;
    socklen_t size = sizeof address;
    int logins = atoi(words[2]), listener = loopback("0", 1);
    FILE *file = fopen(words[0], "rb");
    if (file == NULL || listener < 0 || !random_bytes(secret, sizeof secret)
        || getsockname(listener, (struct sockaddr *)&address, &size) != 0)
        return 2;
    users_len = fread(users, 1, sizeof users, file);
    fclose(file);
    printf("%u\n", (unsigned)ntohs(address.sin_port));
    fflush(stdout);
    while (logins-- > 0)
        served(accept(listener, NULL, NULL), words[1]);
    close(listener);
    return 0;
}

static int run_record(char **words, int prepared, const char *typed)
{
    struct fe2o3_scram_record record = {0};
    struct text salt, password, out;
    uint32_t count = (uint32_t)strtoul(words[2], NULL, 10);
    uint32_t status = read_password(typed, prepared, FE2O3_UNASSIGNED_REFUSED, &password);
    if (!read_base64(words[1], &salt))
        status = FE2O3_RECORD_BASE64_DECODE_ERROR;
    if (status == FE2O3_OK)
        status = fe2o3_scram_record_make(version_of(words[0]), prepared ? FE2O3_PREPARED : FE2O3_TYPED, password.bytes,
            password.len, salt.bytes, salt.len, count, &record);
    if (status == FE2O3_OK)
        status = fe2o3_scram_record_text(&record, out.bytes, sizeof out.bytes, &out.len);
    if (status == FE2O3_OK)
        printf("%.*s\n", (int)out.len, (const char *)out.bytes);
    else
        told("no record", status);
    return status != FE2O3_OK;
}

static int run_verify(const char *text, int prepared, const char *typed)
{
    struct fe2o3_scram_record record = {0};
    struct text password;
    uint32_t status = read_password(typed, prepared, FE2O3_UNASSIGNED_ALLOWED, &password);
    if (status == FE2O3_OK)
        status = fe2o3_scram_record_parse((const uint8_t *)text, strlen(text), &record);
    if (status == FE2O3_OK)
        status =
            fe2o3_scram_record_verify(&record, prepared ? FE2O3_PREPARED : FE2O3_TYPED, password.bytes, password.len);
    told(status == FE2O3_OK ? "verified" : "not verified", status);
    return status != FE2O3_OK;
}

int main(int count, char **words)
{
    char password[1024] = "";
    const char *what = count > 1 ? words[1] : "", *last;
    int again, prepared, prepares, misplaced, takes_unbound;
    count -= count > 1 && read_channel(words[count - 1]);
    while (count > 1 && read_identity(words[count - 1]))
        count--;
    misplaced = strcmp(words[count - 1], "misplaced") == 0;
    count -= misplaced;
    last = words[count - 1];
    again = strcmp(what, "client") == 0 && strcmp(last, "again") == 0;
    prepares = strcmp(last, "saslprep") == 0;
    count -= again;
    prepared = strcmp(words[count - 1], "prepared") == 0;
    takes_unbound = strcmp(last, "unbound") == 0;
    count -= prepared + takes_unbound + prepares;
    set_rules(takes_unbound, misplaced);
    signal(SIGPIPE, SIG_IGN);
    if (strcmp(what, "server") == 0 && count == 6 && strcmp(words[3], "EXTERNAL") == 0)
        transport_name = words[--count];
    if (strcmp(what, "server") == 0 && count == 5 && is_known(words[3])) {
        plain_passwords = prepared ? FE2O3_PLAIN_PASSWORDS_PREPARED
            : prepares             ? FE2O3_PLAIN_PASSWORDS_SASLPREP
                                   : FE2O3_PLAIN_PASSWORDS_TYPED;
        return run_server(words + 2);
    }
    if (!read_line(stdin, password, sizeof password))
        return 2;
    if (strcmp(what, "client") == 0 && count == 7 && is_known(words[3]))
        return run_client(words + 2, prepared, again, password);
    if (strcmp(what, "record") == 0 && count == 5)
        return run_record(words + 2, prepared, password);
    if (strcmp(what, "verify") == 0 && count == 3)
        return run_verify(words[2], prepared, password);
    return 2;
}
