#include "jobs.h"
#include "peers.h"
#include <stdio.h>
#include <string.h>

const char *const who_names[WHOS] = {"library", "openssl", "openssl-nosha", "rustcrypto", "rustcrypto-soft", "by-hand",
    "by-hand-soft", "postgres-protocol", "gsasl", "proton", "two-blocks", "two-blocks-nosha"};
double own_time;
uint32_t copies = 1;
struct text answered;

#define LOOP \
    for (uint32_t i = 0; i < times && good < REFUSED; i++) \
    good =
static int is_soft(enum who who)
{
    return who == OPENSSL_SOFT || who == RUST_SOFT || who == HAND_SOFT || who == BLOCKS_SOFT;
}
static size_t failed_if_zero(size_t number) { return number ? number : REFUSED; }

/* Hashes. */
static uint8_t large[16384];
static size_t digest(const struct job *job, enum who who, uint32_t times)
{
    size_t good = 0;
    unsigned len = 64;
    const struct openssl *peer = &openssl[is_soft(who)];
    if (who == LIBRARY)
        LOOP bench_digest(job->which, large, sizeof large, ROOM(answered));
    else if (who == RUST || who == RUST_SOFT)
        LOOP rust[is_soft(who)].digest(job->which, large, sizeof large, ROOM(answered));
    else
        LOOP peer->digest(large, sizeof large, answered.bytes, &len, peer->md[index_of(job->which)], NULL);
    return good;
}
static size_t mac(const struct job *job, enum who who, uint32_t times)
{
    size_t good = 0;
    unsigned len = 64;
    const struct openssl *peer = &openssl[is_soft(who)];
    if (who == LIBRARY)
        LOOP bench_hmac(job->which, GIVE(password), GIVE(client_nonce), ROOM(answered));
    else if (who == RUST || who == RUST_SOFT)
        LOOP rust[is_soft(who)].hmac(job->which, GIVE(password), GIVE(client_nonce), ROOM(answered));
    else
        LOOP peer->hmac(peer->md[index_of(job->which)], GIVE(password), GIVE(client_nonce), answered.bytes, &len)
            != NULL;
    return good;
}
static size_t two_blocks(const struct openssl *peer, uint32_t version, uint32_t count)
{
    SHA_CTX one = {0};
    SHA256_CTX two = {0};
    SHA512_CTX three = {0};
    for (uint32_t i = 0; i < 2 * count; i++) {
        if (version == 1)
            peer->block1(&one, large);
        else if (version == 256)
            peer->block256(&two, large);
        else
            peer->block512(&three, large);
    }
    return 1;
}
static size_t hi(const struct job *job, enum who who, uint32_t times)
{
    uint32_t count = 4096 * (times + 1);
    int soft = is_soft(who);
    const struct openssl *peer = &openssl[soft];
    if (who == LIBRARY)
        return bench_hi(job->which, GIVE(password), GIVE(salt), count, ROOM(answered));
    if (who == RUST || who == RUST_SOFT)
        return rust[soft].hi(job->which, GIVE(password), GIVE(salt), count, ROOM(answered));
    if (who == GSASL)
        return failed_if_zero(gsasl_hi(job->which, count, answered.bytes));
    if (who == BLOCKS || who == BLOCKS_SOFT)
        return two_blocks(peer, job->which, count);
    return peer->pbkdf2((const char *)password.bytes, password.len, GIVE(salt), count, peer->md[index_of(job->which)],
        digest_len(job->which), answered.bytes);
}
static size_t salted(const struct job *job, enum who who, uint32_t times)
{
    size_t good = 0;
    (void)who;
    LOOP bench_salted(job->which, GIVE(password), GIVE(salt));
    return good;
}

/* Messages. */
static size_t gsasl(const struct job *job, int call, uint32_t times)
{
    size_t good = 1;
    own_time = 0;
    for (uint32_t i = 0; i < times && good < REFUSED; i++) {
        good = failed_if_zero(gsasl_login(job->which));
        own_time += gsasl_time[call];
    }
    return good;
}
static size_t first_of_client(const struct job *job, enum who who, uint32_t times)
{
    size_t good = 0;
    if (who == GSASL)
        return gsasl(job, 0, times);
    LOOP bench_client_first(job->which, GIVE(username), GIVE(client_nonce), ROOM(answered));
    return good;
}
static size_t first_of_server(const struct job *job, enum who who, uint32_t times)
{
    if (who == GSASL)
        return gsasl(job, 1, times);
    return bench_server_first(job->which, GIVE(username), GIVE(client_first), GIVE(server_nonce), times,
        ROOM(answered));
}
static size_t postgres(uint32_t times)
{
    int good = 1;
    own_time = 0;
    for (uint32_t i = 0; i < times && good; i++)
        own_time += postgres_final(&good);
    return failed_if_zero(good);
}
static size_t final_of_client(const struct job *job, enum who who, uint32_t times)
{
    size_t good = 0;
    struct login *login = &logins[index_of(job->which)];
    struct text signature;
    if (who == GSASL)
        return gsasl(job, 2, times);
    if (who == POSTGRES)
        return postgres(times);
    if (who == LIBRARY)
        LOOP bench_client_final(job->which, GIVE(client_nonce), GIVE(password), GIVE(login->server_first), GIVE(bare),
            UINT32_MAX, ROOM(answered), ROOM(signature));
    else
        LOOP failed_if_zero(rust[is_soft(who)].client_final(job->which, GIVE(client_nonce), GIVE(password),
            GIVE(login->server_first), GIVE(bare), ROOM(answered), ROOM(signature)));
    return good;
}
static size_t final_of_server(const struct job *job, enum who who, uint32_t times)
{
    size_t good = 0;
    struct login *login = &logins[index_of(job->which)];
    if (who == GSASL)
        return gsasl(job, 3, times);
    if (who == LIBRARY)
        LOOP bench_server_final(job->which, GIVE(login->client_final), GIVE(nonce), GIVE(bare),
            GIVE(login->server_first), GIVE(login->stored_key), GIVE(login->server_key), ROOM(answered));
    else
        LOOP failed_if_zero(rust[is_soft(who)].server_final(job->which, GIVE(login->client_final), GIVE(nonce),
            GIVE(bare), GIVE(login->server_first), GIVE(login->stored_key), GIVE(login->server_key), ROOM(answered)));
    return good;
}
static size_t validate(const struct job *job, enum who who, uint32_t times)
{
    size_t good = 0;
    struct login *login = &logins[index_of(job->which)];
    if (who == GSASL)
        return gsasl(job, 4, times);
    LOOP bench_validate(job->which, GIVE(login->server_final), GIVE(login->signature));
    return good;
}
static size_t join(const struct job *job, enum who who, uint32_t times)
{
    size_t good = 0;
    (void)who;
    LOOP bench_auth_message(GIVE(bare), GIVE(logins[index_of(job->which)].server_first), GIVE(without_proof));
    return good;
}
static size_t escape(const struct job *job, enum who who, uint32_t times)
{
    size_t good = 0;
    (void)who, (void)job;
    LOOP bench_escape((const uint8_t *)"a,b=c", 5);
    return good;
}
static size_t unescape(const struct job *job, enum who who, uint32_t times)
{
    size_t good = 0;
    (void)who, (void)job;
    LOOP bench_unescape((const uint8_t *)"a=2Cb=3Dc", 9);
    return good;
}

/* Machines. */
#define MACHINE(name, by_keys, call) \
    static size_t name(const struct job *job, enum who who, uint32_t times) \
    { \
        (void)who; \
        return bench_machine(job->which, by_keys, call, copies, times, ROOM(answered)); \
    }
MACHINE(machine_first, 0, 1)
MACHINE(machine_open, 0, 2)
MACHINE(machine_respond, 0, 3)
MACHINE(machine_close, 0, 4)
MACHINE(machine_believe, 0, 5)
MACHINE(keyed_first, 1, 1)
MACHINE(keyed_respond, 1, 3)
MACHINE(keyed_believe, 1, 5)
#define ALONE_RUN(name, expression) \
    static size_t name(const struct job *job, enum who who, uint32_t times) \
    { \
        (void)who, (void)job; \
        return (expression); \
    }
ALONE_RUN(new_client, bench_new_client(job->which, times))
ALONE_RUN(new_keyed, bench_new_keyed_client(job->which, times))
ALONE_RUN(new_server, bench_new_server(job->which, times))
ALONE_RUN(log_in, bench_log_in(job->which, 0, 1, times))
ALONE_RUN(log_in_by_keys, bench_log_in(job->which, 1, 1, times))
ALONE_RUN(log_in_4096, bench_log_in(job->which, 0, 4096, times))
ALONE_RUN(log_in_by_keys_4096, bench_log_in(job->which, 1, 4096, times))

/* Records and lines. */
static size_t make_record(const struct job *job, enum who who, uint32_t times)
{
    size_t good = 0;
    (void)who;
    LOOP bench_record(job->which, GIVE(password), 1);
    return good;
}
static size_t read_record(const struct job *job, enum who who, uint32_t times)
{
    size_t good = 0;
    (void)who, (void)job;
    LOOP bench_read_record(GIVE(record));
    return good;
}
static size_t read_lines(const struct job *job, enum who who, uint32_t times)
{
    size_t good = 0;
    (void)who;
    LOOP bench_read_lines(job->which, lines.bytes, lines.len);
    return good;
}
static size_t look_up(const struct job *job, enum who who, uint32_t times)
{
    char name[32];
    size_t len = name_into(name, USERS - 1);
    (void)who;
    return bench_look_up(job->which, lines.bytes, lines.len, (const uint8_t *)name, len, times);
}
ALONE_RUN(write_record, bench_write_record(job->which, 1, times, ROOM(answered)))
ALONE_RUN(write_lines, bench_write_lines(job->which, lines.bytes, lines.len, times))

/* Runs and audits. */
#define CLIENT_EVENTS client_events.bytes, client_events.len
#define SERVER_EVENTS server_events.bytes, server_events.len
static size_t expected(size_t number, size_t wanted, uint32_t times)
{
    return number >= REFUSED || !times || number == wanted ? number : REFUSED;
}
ALONE_RUN(run_client, expected(bench_run_client(CLIENT_EVENTS, times), 3 * LOGINS, times))
ALONE_RUN(run_server, expected(bench_run_server(1, SERVER_EVENTS, times), 2 * LOGINS, times))
ALONE_RUN(audit, expected(bench_audit(1, CLIENT_EVENTS, SERVER_EVENTS, times), 2 * LOGINS, times))

/* Frames. */
static size_t view(const struct job *job, enum who who, uint32_t times)
{
    size_t good = 0;
    if (who == LIBRARY)
        LOOP bench_view(GIVE(bodies[job->which]));
    else
        LOOP failed_if_zero(rust[0].view(GIVE(bodies[job->which])));
    return good;
}
static size_t decode(const struct job *job, enum who who, uint32_t times)
{
    size_t good = 0;
    const uint8_t *row = rows_of_bodies[job->which];
    size_t len = MANY * bodies[job->which].len;
    if (who == LIBRARY)
        return bench_decode(row, len, times);
    if (who == HAND)
        return rust[0].decode(row, len, times) == times ? 1 : REFUSED;
    LOOP failed_if_zero(proton_decode(job->which));
    return good;
}
static size_t encode(const struct job *job, enum who who, uint32_t times)
{
    size_t good = 0;
    const uint8_t *row = rows_of_bodies[job->which];
    size_t len = MANY * bodies[job->which].len;
    if (who == LIBRARY)
        return bench_encode(row, len, times);
    if (who == HAND)
        return rust[0].encode(row, len, times) == times ? 1 : REFUSED;
    LOOP failed_if_zero(proton_encode(job->which));
    return good;
}
static size_t header(const struct job *job, enum who who, uint32_t times)
{
    size_t good = 0;
    (void)who, (void)job;
    LOOP bench_header();
    return good;
}

#define BIT(who) (1u << (who))
#define ALONE BIT(LIBRARY)
#define CRYPTO (ALONE | BIT(OPENSSL) | BIT(OPENSSL_SOFT) | BIT(RUST) | BIT(RUST_SOFT))
#define FLOORS (BIT(BLOCKS) | BIT(BLOCKS_SOFT))
#define HANDS (BIT(HAND) | BIT(HAND_SOFT))
#define CODEC (ALONE | BIT(HAND) | BIT(PROTON))
#define GNU BIT(GSASL)
const struct job jobs[] = {
    {"h-16k-sha1", "block", 256, 4, 1, CRYPTO, digest},
    {"h-16k-sha256", "block", 256, 4, 256, CRYPTO, digest},
    {"h-16k-sha512", "block", 128, 4, 512, CRYPTO, digest},
    {"hmac-sha1", "value", 1, 200, 1, CRYPTO, mac},
    {"hmac-sha256", "value", 1, 200, 256, CRYPTO, mac},
    {"hmac-sha512", "value", 1, 200, 512, CRYPTO, mac},
    {"hi-sha1", "iteration", 4096, 1, 1, CRYPTO | FLOORS | GNU, hi},
    {"hi-sha256", "iteration", 4096, 1, 256, CRYPTO | FLOORS | GNU, hi},
    {"hi-sha512", "iteration", 4096, 1, 512, CRYPTO | FLOORS, hi},
    {"salted-password", "call", 1, 100, 256, ALONE, salted},
    {"client-first", "call", 1, 400, 256, ALONE | GNU, first_of_client},
    {"server-first", "call", 1, 400, 256, ALONE | GNU, first_of_server},
    {"client-final-sha1", "call", 1, 50, 1, ALONE | HANDS | GNU, final_of_client},
    {"client-final-sha256", "call", 1, 50, 256, ALONE | HANDS | GNU | BIT(POSTGRES), final_of_client},
    {"client-final-sha512", "call", 1, 50, 512, ALONE | HANDS, final_of_client},
    {"server-final-sha1", "call", 1, 50, 1, ALONE | HANDS | GNU, final_of_server},
    {"server-final-sha256", "call", 1, 50, 256, ALONE | HANDS | GNU, final_of_server},
    {"server-final-sha512", "call", 1, 50, 512, ALONE | HANDS, final_of_server},
    {"validate", "call", 1, 400, 256, ALONE | GNU, validate},
    {"auth-message", "call", 1, 400, 256, ALONE, join},
    {"escape", "call", 1, 400, 0, ALONE, escape},
    {"unescape", "call", 1, 400, 0, ALONE, unescape},
    {"view-mechanisms", "body", 1, 2000, 0, ALONE | BIT(HAND), view},
    {"view-init", "body", 1, 2000, 1, ALONE | BIT(HAND), view},
    {"view-challenge", "body", 1, 2000, 2, ALONE | BIT(HAND), view},
    {"view-response", "body", 1, 2000, 3, ALONE | BIT(HAND), view},
    {"view-outcome", "body", 1, 2000, 4, ALONE | BIT(HAND), view},
    {"decode-mechanisms", "body", 1, MANY, 0, CODEC, decode},
    {"decode-init", "body", 1, MANY, 1, CODEC, decode},
    {"decode-challenge", "body", 1, MANY, 2, CODEC, decode},
    {"decode-response", "body", 1, MANY, 3, CODEC, decode},
    {"decode-outcome", "body", 1, MANY, 4, CODEC, decode},
    {"recode-mechanisms", "body", 1, MANY, 0, CODEC, encode},
    {"recode-init", "body", 1, MANY, 1, CODEC, encode},
    {"recode-challenge", "body", 1, MANY, 2, CODEC, encode},
    {"recode-response", "body", 1, MANY, 3, CODEC, encode},
    {"recode-outcome", "body", 1, MANY, 4, CODEC, encode},
    {"headers", "pair", 1, 400, 0, ALONE, header},
    {"machine-client-first", "call", 1, 100, 256, ALONE, machine_first},
    {"machine-server-first", "call", 1, 100, 256, ALONE, machine_open},
    {"machine-client-final-sha1", "call", 1, 50, 1, ALONE, machine_respond},
    {"machine-client-final-sha256", "call", 1, 50, 256, ALONE, machine_respond},
    {"machine-client-final-sha512", "call", 1, 50, 512, ALONE, machine_respond},
    {"machine-server-final-sha1", "call", 1, 50, 1, ALONE, machine_close},
    {"machine-server-final-sha256", "call", 1, 50, 256, ALONE, machine_close},
    {"machine-server-final-sha512", "call", 1, 50, 512, ALONE, machine_close},
    {"machine-validate", "call", 1, 100, 256, ALONE, machine_believe},
    {"keyed-client-first", "call", 1, 100, 256, ALONE, keyed_first},
    {"keyed-client-final-sha1", "call", 1, 50, 1, ALONE, keyed_respond},
    {"keyed-client-final-sha256", "call", 1, 50, 256, ALONE, keyed_respond},
    {"keyed-client-final-sha512", "call", 1, 50, 512, ALONE, keyed_respond},
    {"keyed-validate", "call", 1, 100, 256, ALONE, keyed_believe},
    {"new-client", "machine", 1, 400, 256, ALONE, new_client},
    {"new-keyed-client", "machine", 1, 400, 256, ALONE, new_keyed},
    {"new-server", "machine", 1, 400, 256, ALONE, new_server},
    {"login-sha1", "login", 1, 30, 1, ALONE, log_in},
    {"login-sha256", "login", 1, 30, 256, ALONE, log_in},
    {"login-sha512", "login", 1, 30, 512, ALONE, log_in},
    {"login-4096-sha256", "login", 1, 1, 256, ALONE, log_in_4096},
    {"login-keys-sha1", "login", 1, 30, 1, ALONE, log_in_by_keys},
    {"login-keys-sha256", "login", 1, 30, 256, ALONE, log_in_by_keys},
    {"login-keys-sha512", "login", 1, 30, 512, ALONE, log_in_by_keys},
    {"login-keys-4096-sha256", "login", 1, 30, 256, ALONE, log_in_by_keys_4096},
    {"record-make", "record", 1, 50, 256, ALONE, make_record},
    {"record-write", "record", 1, 400, 256, ALONE, write_record},
    {"record-read", "record", 1, 400, 256, ALONE, read_record},
    {"lines-read", "line", USERS, 50, 256, ALONE, read_lines},
    {"lines-write", "line", USERS, 50, 256, ALONE, write_lines},
    {"look-up", "call", 1, 1000, 256, ALONE, look_up},
    {"run-client", "login", LOGINS, 2, 256, ALONE, run_client},
    {"run-server", "login", LOGINS, 2, 256, ALONE, run_server},
    {"run-audit", "login", LOGINS, 2, 256, ALONE, audit},
};
const int jobs_len = sizeof jobs / sizeof *jobs;

int has(const struct job *job, enum who who)
{
    if (!(job->whos & BIT(who)))
        return 0;
    if (who == OPENSSL || who == BLOCKS)
        return openssl[0].digest != NULL;
    if (who == OPENSSL_SOFT || who == BLOCKS_SOFT)
        return openssl[1].digest != NULL;
    if (who == RUST || who == HAND || who == POSTGRES)
        return rust[0].hi != NULL;
    if (who == RUST_SOFT || who == HAND_SOFT)
        return rust[1].hi != NULL;
    return 1;
}
