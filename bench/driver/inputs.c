#include "inputs.h"
#include "memory.h"
#include <openssl/evp.h>
#include <stdio.h>
#include <stdlib.h>
#include <string.h>

const uint32_t versions[VERSIONS] = {1, 256, 512};
struct text password, username, salt, client_nonce, server_nonce, nonce, bare, client_first;
struct text without_proof;
struct login logins[VERSIONS];
struct text bodies[FRAMES];
uint8_t *rows_of_bodies[FRAMES];

int index_of(uint32_t version) { return version == 1 ? 0 : version == 256 ? 1 : 2; }
size_t digest_len(uint32_t version) { return version == 1 ? 20 : version == 256 ? 32 : 64; }
void set_text(struct text *text, const char *from)
{
    text->len = strlen(from);
    memcpy(text->bytes, from, text->len);
}
void base64_into(char *to, const uint8_t *bytes, size_t len) { EVP_EncodeBlock((uint8_t *)to, bytes, (int)len); }

static void need(int holds, const char *what)
{
    if (!holds) {
        fprintf(stderr, "the inputs cannot be made: %s\n", what);
        exit(2);
    }
}
static void make_login(uint32_t version, struct login *login)
{
    size_t len = digest_len(version);
    struct text salted, key;
    char digits[100], line[400];
    base64_into(digits, salt.bytes, salt.len);
    snprintf(line, sizeof line, "r=%.*s,s=%s,i=1", (int)nonce.len, nonce.bytes, digits);
    set_text(&login->server_first, line);
    need(bench_hi(version, GIVE(password), GIVE(salt), 1, ROOM(salted)) == len, "salted password");
    need(bench_hmac(version, salted.bytes, len, (const uint8_t *)"Client Key", 10, ROOM(key)) == len, "client key");
    login->stored_key.len = bench_digest(version, key.bytes, len, ROOM(login->stored_key));
    login->server_key.len =
        bench_hmac(version, salted.bytes, len, (const uint8_t *)"Server Key", 10, ROOM(login->server_key));
    login->signature.len = len;
    login->client_final.len = bench_client_final(version, GIVE(client_nonce), GIVE(password), GIVE(login->server_first),
        GIVE(bare), UINT32_MAX, ROOM(login->client_final), ROOM(login->signature));
    need(login->client_final.len < REFUSED, "client-final");
    login->server_final.len = bench_server_final(version, GIVE(login->client_final), GIVE(nonce), GIVE(bare),
        GIVE(login->server_first), GIVE(login->stored_key), GIVE(login->server_key), ROOM(login->server_final));
    need(login->server_final.len < REFUSED, "server-final");
    need(bench_validate(version, GIVE(login->server_final), GIVE(login->signature)) == 1, "validate");
}
static void make_bodies(void)
{
    static const char *heads[FRAMES] = {"\x02\x01\0\0\0\x53\x40\xc0\x13\x01\xe0\x10\x01\xa3\x0dSCRAM-SHA-256",
        "\x02\x01\0\0\0\x53\x41\xc0\x4a\x02\xa3\x0dSCRAM-SHA-256\xa0\x38", "\x02\x01\0\0\0\x53\x42\xc0\x93\x01\xa0\x90",
        "\x02\x01\0\0\0\x53\x43\xc0\x93\x01\xa0\x90", "\x02\x01\0\0\0\x53\x44\xc0\x33\x02\x50\0\xa0\x2e"};
    static const size_t head[FRAMES] = {28, 27, 12, 12, 14}, data[FRAMES] = {0, 56, 144, 144, 46};
    for (int k = 0; k < FRAMES; k++) {
        memcpy(bodies[k].bytes, heads[k], head[k]);
        memset(bodies[k].bytes + head[k], 'A', data[k]);
        bodies[k].len = head[k] + data[k];
        rows_of_bodies[k] = own_memory(MANY * bodies[k].len);
        for (int i = 0; i < MANY; i++)
            memcpy(rows_of_bodies[k] + i * bodies[k].len, GIVE(bodies[k]));
    }
}
struct text record, record_at_one;
struct list client_events, server_events, lines;

/* What a side is given in so many logins, each with nonces of its own. */
struct list events_of(uint32_t logins, int of_server)
{
    struct list list = {0};
    size_t room = (size_t)logins * (of_server ? 2 : 3) * EVENT;
    list.bytes = own_memory(room + 1);
    list.len = bench_make_events(GIVE(bodies[0]), 1, logins, of_server, list.bytes, room);
    need(list.len == room, "events");
    return list;
}
size_t name_into(char *to, size_t user) { return sprintf(to, "user%06zu", user); }
/* A line for each user; all have one record. */
struct list lines_of(size_t users)
{
    struct list list = {0};
    size_t line = 10 + 1 + record.len + 1;
    list.bytes = own_memory(users * line + 1);
    for (size_t i = 0; i < users; i++) {
        char name[32];
        uint8_t *at = list.bytes + i * line;
        memcpy(at, name, name_into(name, i));
        at[10] = ' ';
        memcpy(at + 11, GIVE(record));
        at[line - 1] = '\n';
    }
    list.len = users * line;
    return list;
}
void make_inputs(void)
{
    uint8_t ones[32], twos[32];
    char one[100], two[100], line[400];
    memset(ones, 1, 32);
    memset(twos, 2, 32);
    memset(salt.bytes, 3, salt.len = 32);
    base64_into(one, ones, 32);
    base64_into(two, twos, 32);
    set_text(&password, "pencil");
    set_text(&username, "user");
    set_text(&client_nonce, one);
    set_text(&server_nonce, two);
    snprintf(line, sizeof line, "%s%s", one, two);
    set_text(&nonce, line);
    snprintf(line, sizeof line, "n=user,r=%s", one);
    set_text(&bare, line);
    snprintf(line, sizeof line, "n,,n=user,r=%s", one);
    set_text(&client_first, line);
    snprintf(line, sizeof line, "c=biws,r=%.*s", (int)nonce.len, nonce.bytes);
    set_text(&without_proof, line);
    for (int k = 0; k < VERSIONS; k++)
        make_login(versions[k], &logins[k]);
    make_bodies();
    record.len = bench_write_record(256, 4096, 1, ROOM(record));
    record_at_one.len = bench_write_record(256, 1, 1, ROOM(record_at_one));
    need(record.len < sizeof record.bytes && record_at_one.len < sizeof record_at_one.bytes, "record");
    client_events = events_of(LOGINS, 0);
    server_events = events_of(LOGINS, 1);
    lines = lines_of(USERS);
}
