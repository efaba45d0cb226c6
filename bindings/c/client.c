/* Logs in to a server of AMQP 1.0 over TCP:
 *
 *     client HOST PORT MECHANISM USER [challenge] [for:IDENTITY]
 *
 * with the password on the first line of standard input. `EXTERNAL as` and `ANONYMOUS as` send USER as the initial
 * response, which can be empty. With `challenge` the client also accepts the server's signature in a challenge. With `for:`
 * a client of SCRAM or PLAIN acts for IDENTITY.
 *
 * It says how the login ended, with the status 0 where the client is logged in, 1 where it is not, and 2 where the
 * words, the password or the connection are none. */
#define _POSIX_C_SOURCE 200112L
#include "fe2o3_sasl.h"

#include <netdb.h>
#include <stdio.h>
#include <string.h>
#include <sys/socket.h>
#include <unistd.h>

/* The mechanisms, by the numbers of the library. */
static const struct {
    const char *name;
    uint32_t mechanism, version;
} mechanisms[] = {
    {"SCRAM-SHA-1", FE2O3_SCRAM, FE2O3_SHA_1},
    {"SCRAM-SHA-256", FE2O3_SCRAM, FE2O3_SHA_256},
    {"SCRAM-SHA-512", FE2O3_SCRAM, FE2O3_SHA_512},
    {"PLAIN", FE2O3_PLAIN, 0},
    {"ANONYMOUS", FE2O3_ANONYMOUS, 0},
    {"EXTERNAL", FE2O3_EXTERNAL, 0},
    {"EXTERNAL as", FE2O3_EXTERNAL_AS, 0},
    {"ANONYMOUS as", FE2O3_ANONYMOUS_AS, 0},
};

/* The number of a mechanism in that list, or of its end. */
static size_t known(const char *name)
{
    size_t at = 0;
    while (at < sizeof mechanisms / sizeof *mechanisms && strcmp(mechanisms[at].name, name) != 0)
        at++;
    return at;
}

static int connected(const char *host, const char *port)
{
    struct addrinfo hints, *found = NULL, *one;
    int channel = -1;
    memset(&hints, 0, sizeof hints);
    hints.ai_socktype = SOCK_STREAM;
    if (getaddrinfo(host, port, &hints, &found) != 0)
        return -1;
    for (one = found; one != NULL && channel < 0; one = one->ai_next) {
        channel = socket(one->ai_family, one->ai_socktype, one->ai_protocol);
        if (channel >= 0 && connect(channel, one->ai_addr, one->ai_addrlen) != 0) {
            close(channel);
            channel = -1;
        }
    }
    freeaddrinfo(found);
    return channel;
}

static int sent(int channel, const uint8_t *bytes, size_t len)
{
    while (len > 0) {
        ssize_t some = send(channel, bytes, len, 0);
        if (some <= 0)
            return 0;
        bytes += some;
        len -= (size_t)some;
    }
    return 1;
}

static int random_bytes(uint8_t *bytes, size_t len)
{
    FILE *source = fopen("/dev/urandom", "rb");
    size_t read = source == NULL ? 0 : fread(bytes, 1, len, source);
    if (source != NULL)
        fclose(source);
    return read == len;
}

/* Reads and answers until the client is logged in or the connection is to be closed. Answers the number of a call that
 * is refused, and -1 where the connection ends. What is left of the last bytes would be AMQP's. */
static int64_t negotiate(int channel, const struct fe2o3_sasl_login *login, struct fe2o3_sasl_client *client,
    uint8_t out[512])
{
    uint8_t came[4096], nonce[32] = {0};
    size_t len = 0, at = 0, taken = 0, out_len = 0;
    uint32_t status = fe2o3_sasl_client_open(out, 512, &out_len);
    while (status == FE2O3_OK && sent(channel, out, out_len) && client->connection.progress == FE2O3_IN_PROGRESS) {
        if (at == len) {
            ssize_t some = recv(channel, came, sizeof came, 0);
            if (some <= 0)
                return -1;
            len = (size_t)some;
            at = 0;
        }
        if (fe2o3_sasl_wants_nonce(&client->connection) && !random_bytes(nonce, sizeof nonce))
            return -1;
        status = fe2o3_sasl_client_receive(login, client, came + at, len - at, nonce, &taken, out, 512, &out_len);
        at += taken;
    }
    return status == FE2O3_OK && client->connection.progress == FE2O3_IN_PROGRESS ? -1 : (int64_t)status;
}

static int told(const char *what, uint32_t status, int ends)
{
    struct fe2o3_text text = FE2O3_TEXT_INIT;
    fe2o3_status_text(status, &text);
    printf("%s: %s\n", what, (const char *)text.bytes);
    return ends;
}

int main(int count, char **words)
{
    char password[1024];
    uint8_t out[512];
    struct fe2o3_sasl_client client = FE2O3_SASL_CLIENT_INIT;
    struct fe2o3_sasl_login login = FE2O3_SASL_LOGIN_INIT;
    const char *acts_for = count > 5 && strncmp(words[count - 1], "for:", 4) == 0 ? words[--count] + 4 : "";
    int by_challenge = count == 6 && strcmp(words[5], "challenge") == 0;
    size_t which = count == 5 || by_challenge ? known(words[3]) : known("");
    int64_t answer;
    int channel;
    /* (so that no buffer of stdio keeps the password) */
    setvbuf(stdin, NULL, _IONBF, 0);
    if (which == known("") || fgets(password, sizeof password, stdin) == NULL) {
        fputs("client HOST PORT MECHANISM USER [challenge] [for:IDENTITY], with the password on standard input\n",
            stderr);
        return 2;
    }
    password[strcspn(password, "\n")] = '\0';
    login.mechanism = mechanisms[which].mechanism;
    login.login.signature_by_challenge = (uint32_t)by_challenge;
    login.hostname = (const uint8_t *)words[1];
    login.hostname_len = strlen(words[1]);
    login.login.version = mechanisms[which].version;
    login.login.min_iterations = 4096;
    login.login.max_iterations = 1000000;
    login.login.username = (const uint8_t *)words[4];
    login.login.username_len = strlen(words[4]);
    login.login.acts_for = (const uint8_t *)acts_for;
    login.login.acts_for_len = strlen(acts_for);
    login.login.password = (const uint8_t *)password;
    login.login.password_len = strlen(password);
    channel = connected(words[1], words[2]);
    answer = channel < 0 ? -1 : negotiate(channel, &login, &client, out);
    if (channel >= 0)
        close(channel);
    /* (PLAIN sends the password, and after SCRAM the client holds the keys) */
    fe2o3_wipe(password, sizeof password);
    fe2o3_wipe(out, sizeof out);
    fe2o3_wipe(&client.scram.keys, sizeof client.scram.keys);
    if (answer < 0) {
        puts("no connection");
        return 2;
    }
    if (answer != FE2O3_OK)
        return told("refused", (uint32_t)answer, 2);
    return client.connection.progress == FE2O3_AUTHENTICATED ? told("logged in", FE2O3_OK, 0)
                                                             : told("not logged in", client.connection.why, 1);
}
