/* Serves logins of AMQP 1.0 over TCP on the loopback, by SCRAM with each hash for which all users have a record and, as if
 * under TLS, by PLAIN:
 *
 *     server USERS LOGINS [MECHANISM [PEER [challenge | ask | for:IDENTITY]..]]
 *
 * or by this mechanism only, where EXTERNAL accepts the name PEER, as if the transport had authenticated it. With
 * `challenge` SCRAM sends the server's signature in a challenge. With `ask` an init without an initial response is
 * answered by an empty challenge. With `for:` clients of SCRAM and PLAIN may name an identity to act for, and each user may
 * act for IDENTITY. USERS is a file of users, a line for each (fe2o3_scram_line writes one). It prints the port that it
 * listens on, serves so many connections, one after another, and says of each who has logged in, and for which identity, or
 * why nobody. On the standard error, as its log, it says more of why it rejected a login, which no peer may learn. */
#define _POSIX_C_SOURCE 200112L
#include "fe2o3_sasl.h"

#include <arpa/inet.h>
#include <netinet/in.h>
#include <signal.h>
#include <stdio.h>
#include <stdlib.h>
#include <string.h>
#include <sys/socket.h>
#include <sys/time.h>
#include <time.h>
#include <unistd.h>

static const uint32_t versions[3] = {FE2O3_SHA_256, FE2O3_SHA_512, FE2O3_SHA_1};
static const uint32_t hashes[3] = {FE2O3_OFFER_SCRAM_SHA_256, FE2O3_OFFER_SCRAM_SHA_512, FE2O3_OFFER_SCRAM_SHA_1};
static uint32_t mechanisms, flags = FE2O3_REJECT_MISPLACED;
static const char *peer = "", *identity = "";
static uint32_t accept_authzid;
static uint8_t users[65536], secret[32];
static size_t users_len;

/* Whether there is such a mechanism, which alone is offered then. */
static int offer_only(const char *name)
{
    static const struct {
        const char *name;
        uint32_t offer;
    } known[] = {{"SCRAM-SHA-512", FE2O3_OFFER_SCRAM_SHA_512}, {"SCRAM-SHA-256", FE2O3_OFFER_SCRAM_SHA_256},
        {"SCRAM-SHA-1", FE2O3_OFFER_SCRAM_SHA_1}, {"PLAIN", FE2O3_OFFER_PLAIN}, {"ANONYMOUS", FE2O3_OFFER_ANONYMOUS},
        {"EXTERNAL", FE2O3_OFFER_EXTERNAL}};
    size_t i;
    for (i = 0; i < sizeof known / sizeof *known; i++) {
        mechanisms = known[i].offer;
        if (strcmp(name, known[i].name) == 0)
            return 1;
    }
    return 0;
}

/* Whether each of these words is an option, which the server then has. */
static int add_options(int count, char **words)
{
    int known = 1;
    for (int i = 0; i < count; i++) {
        if (strcmp(words[i], "challenge") == 0)
            flags |= FE2O3_SIGNATURE_BY_CHALLENGE;
        else if (strcmp(words[i], "ask") == 0)
            flags |= FE2O3_INITIAL_RESPONSE_BY_CHALLENGE;
        else if (strncmp(words[i], "for:", 4) == 0) {
            accept_authzid = 1;
            identity = words[i] + 4;
        } else
            known = 0;
    }
    return known;
}

static int random_bytes(uint8_t *bytes, size_t len)
{
    FILE *source = fopen("/dev/urandom", "rb");
    size_t read = source == NULL ? 0 : fread(bytes, 1, len, source);
    if (source != NULL)
        fclose(source);
    return read == len;
}

static int sent(int channel, const uint8_t *bytes, size_t len)
{
    while (len > 0) {
        ssize_t some = send(channel, bytes, len, 0);
        if (some <= 0)
            return 0;
        bytes += some;
        len -= (size_t)some;
    }
    return 1;
}

/* The mechanisms of a server that is not told which: SCRAM with each hash for which all users have a record, and PLAIN. A
 * client selects the strongest hash that is offered, whether its user has a record for it or not. */
static uint32_t usual_mechanisms(void)
{
    uint32_t offer = FE2O3_OFFER_PLAIN, all;
    size_t i, line;
    for (i = 0; i < 3; i++)
        if (fe2o3_scram_lines_all_have(users, users_len, versions[i], &line, &all) == FE2O3_OK && all)
            offer |= hashes[i];
    return offer;
}

/* The records of a name, those of its lines: at most one for each hash. Returns how many. PLAIN takes the first. */
static size_t fetch(const uint8_t *name, size_t len, struct fe2o3_scram_record *records)
{
    size_t i, line, count = 0;
    for (i = 0; i < 3; i++)
        if (fe2o3_scram_lines_find(users, users_len, name, len, versions[i], &line, &records[count]) == FE2O3_OK)
            count++;
    return count;
}

/* What a connection keeps that is secret: the messages of its client, of which that of PLAIN has the password, and the
 * records of the user. */
struct secrets {
    uint8_t came[4096];
    struct fe2o3_scram_record records[3];
};

/* Reads and answers until a client is logged in or the connection is to be closed. Answers the number of a call that is
 * refused, and -1 where the connection ends. */
static int64_t serve(int channel, struct fe2o3_sasl_server *server, struct secrets *keep)
{
    uint8_t *came = keep->came, out[520], nonce[32] = {0}, name[512];
    size_t len = 0, at = 0, taken = 0, out_len = 0;
    while (server->connection.progress == FE2O3_IN_PROGRESS) {
        struct fe2o3_sasl_server_config config = {mechanisms, flags, FE2O3_DEFAULT_ITERATIONS, FE2O3_DEFAULT_SALT_LEN,
            secret, sizeof secret, 0, name, 0, keep->records, 0, (const uint8_t *)peer, strlen(peer), {0},
            accept_authzid, (const uint8_t *)identity, strlen(identity) + 1};
        uint32_t status;
        memset(keep->records, 0, sizeof keep->records);
        if (at == len) {
            ssize_t some = recv(channel, came, sizeof keep->came, 0);
            if (some <= 0)
                return -1;
            len = (size_t)some;
            at = 0;
        }
        if (fe2o3_sasl_wants_nonce(&server->connection) && !random_bytes(nonce, sizeof nonce))
            return -1;
        status =
            fe2o3_sasl_server_receive(&config, server, came + at, len - at, nonce, &taken, out, sizeof out, &out_len);
        if (status == FE2O3_NEEDS_RECORDS) {
            memcpy(name, out, out_len);
            config.records_count = fetch(name, out_len, keep->records);
            config.looked_up = 1;
            config.username_len = out_len;
            status = fe2o3_sasl_server_receive(&config, server, came + at, len - at, nonce, &taken, out, sizeof out,
                &out_len);
        }
        if (status != FE2O3_OK)
            return status;
        at += taken;
        if (!sent(channel, out, out_len))
            return -1;
    }
    return FE2O3_OK;
}

/* Closes a connection: ends the sending side, and discards what arrives until the client ends, for some seconds and
 * 64 KiB at most. A close with unread bytes resets the connection (RFC 1122, section 4.2.2.13), and the client can lose
 * the outcome. */
static void hang_up(int channel)
{
    uint8_t unread[4096];
    size_t left = 65536;
    struct timeval wait = {2, 0};
    time_t until = time(NULL) + wait.tv_sec;
    shutdown(channel, SHUT_WR);
    setsockopt(channel, SOL_SOCKET, SO_RCVTIMEO, &wait, sizeof wait);
    while (left > 0 && time(NULL) <= until) {
        ssize_t some = recv(channel, unread, left < sizeof unread ? left : sizeof unread, 0);
        if (some <= 0)
            break;
        left -= (size_t)some;
    }
    close(channel);
}

/* Logs why a login was rejected, by the header's name, or by the text of an error of a SCRAM message. */
static void log_rejection(uint32_t rejection)
{
#define NAMED(number) \
    { \
        number, #number \
    }
    static const struct {
        uint32_t number;
        const char *name;
    } known[] = {NAMED(FE2O3_REJECTION_MECHANISM_NOT_OFFERED), NAMED(FE2O3_REJECTION_NO_INITIAL_RESPONSE),
        NAMED(FE2O3_REJECTION_INVALID_MESSAGE), NAMED(FE2O3_REJECTION_CHANNEL), NAMED(FE2O3_REJECTION_UNKNOWN_USER),
        NAMED(FE2O3_REJECTION_NO_RECORD_FOR_HASH), NAMED(FE2O3_REJECTION_NO_RIGHT), NAMED(FE2O3_REJECTION_WRONG_PROOF),
        NAMED(FE2O3_REJECTION_WRONG_PASSWORD), NAMED(FE2O3_REJECTION_OTHER_IDENTITY),
        NAMED(FE2O3_REJECTION_UNEXPECTED_INIT), NAMED(FE2O3_REJECTION_UNEXPECTED_RESPONSE),
        NAMED(FE2O3_REJECTION_OTHER)};
    struct fe2o3_text text = FE2O3_TEXT_INIT;
    const char *reason;
    size_t i;
    fe2o3_status_text(rejection, &text);
    reason = (const char *)text.bytes;
    for (i = 0; i < sizeof known / sizeof *known; i++)
        if (known[i].number == rejection)
            reason = known[i].name;
    fprintf(stderr, "rejected: %s\n", reason);
}

static void told(int64_t answer, const struct fe2o3_sasl_server *server)
{
    struct fe2o3_text text = FE2O3_TEXT_INIT;
    uint8_t user[256], acts_for[256];
    size_t len = 0, acts_for_len = 0;
    if (answer == FE2O3_OK && server->connection.progress == FE2O3_AUTHENTICATED) {
        /* (by ANONYMOUS it names nobody) */
        fe2o3_scram_server_authenticated_user(&server->scram, user, sizeof user, &len);
        fe2o3_scram_server_acts_for(&server->scram, acts_for, sizeof acts_for, &acts_for_len);
        printf("logged in: %.*s%s%.*s\n", (int)len, (const char *)user, acts_for_len > 0 ? " for " : "",
            (int)acts_for_len, (const char *)acts_for);
    } else if (answer < 0) {
        puts("no connection");
    } else {
        if (answer == FE2O3_OK && server->connection.why == FE2O3_REFUSED_AUTH)
            log_rejection(server->scram.rejection);
        fe2o3_status_text(answer == FE2O3_OK ? server->connection.why : (uint32_t)answer, &text);
        printf("not logged in: %s\n", (const char *)text.bytes);
    }
}

int main(int count, char **words)
{
    struct sockaddr_in address;
    socklen_t size = sizeof address;
    int alone = count >= 4 && offer_only(words[3]) && (count <= 5 || add_options(count - 5, words + 5));
    int listener, logins = count == 3 || alone ? atoi(words[2]) : 0;
    FILE *file = logins > 0 ? fopen(words[1], "rb") : NULL;
    if (file == NULL || !random_bytes(secret, sizeof secret)) {
        fputs("server USERS LOGINS [MECHANISM [PEER [challenge | ask | for:IDENTITY]..]]\n", stderr);
        return 2;
    }
    /* (a client that resets the connection must not end the server) */
    signal(SIGPIPE, SIG_IGN);
    peer = count >= 5 ? words[4] : "";
    /* (so that no buffer of stdio keeps a record) */
    setvbuf(file, NULL, _IONBF, 0);
    users_len = fread(users, 1, sizeof users, file);
    fclose(file);
    if (count == 3)
        mechanisms = usual_mechanisms();
    memset(&address, 0, sizeof address);
    address.sin_family = AF_INET;
    address.sin_addr.s_addr = htonl(INADDR_LOOPBACK);
    listener = socket(AF_INET, SOCK_STREAM, 0);
    if (listener < 0 || bind(listener, (struct sockaddr *)&address, size) != 0 || listen(listener, 8) != 0
        || getsockname(listener, (struct sockaddr *)&address, &size) != 0)
        return 2;
    printf("%u\n", (unsigned)ntohs(address.sin_port));
    fflush(stdout);
    while (logins-- > 0) {
        struct fe2o3_sasl_server server = {0};
        struct secrets keep;
        int channel = accept(listener, NULL, NULL);
        int64_t answer = channel < 0 ? -1 : serve(channel, &server, &keep);
        fe2o3_wipe(&keep, sizeof keep);
        told(answer, &server);
        fflush(stdout);
        if (channel >= 0)
            hang_up(channel);
    }
    close(listener);
    fe2o3_wipe(users, sizeof users);
    fe2o3_wipe(secret, sizeof secret);
    return 0;
}
