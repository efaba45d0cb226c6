#include "grow.h"
#include "inputs.h"
#include "memory.h"
#include <stdio.h>
#include <stdlib.h>
#include <string.h>

/* Two inputs, of any length. */
static uint8_t *first, *second;
static size_t first_len, second_len;
static struct text out, signature;

static void begin(size_t size)
{
    first = own_memory(8 * size + 4096);
    second = own_memory(8 * size + 4096);
    first_len = second_len = 0;
}
static void add(const char *text)
{
    memcpy(first + first_len, text, strlen(text));
    first_len += strlen(text);
}
static void add_text(const struct text *text)
{
    memcpy(first + first_len, text->bytes, text->len);
    first_len += text->len;
}
static void add_many(const char *text, size_t times)
{
    for (size_t i = 0; i < times; i++)
        add(text);
}
static void add_number(size_t number)
{
    for (int shift = 24; shift >= 0; shift -= 8)
        first[first_len++] = number >> shift;
}
static void add_start(uint8_t code)
{
    static const uint8_t start[] = {2, 1, 0, 0, 0, 0x53};
    memcpy(first, start, sizeof start);
    first_len = sizeof start;
    first[first_len++] = code;
    first[first_len++] = 0xd0;
}
static void plain_bytes(size_t size) { begin(size), add_many("a", size); }
static void commas(size_t size) { begin(size), add_many(",", size); }
static void escapes(size_t size) { begin(size), add_many("=2C", size); }
static void mechanisms(size_t size)
{
    begin(size);
    add_start(0x40);
    add_number(4 + 1 + 4 + 4 + 1 + 2 * size);
    add_number(1);
    first[first_len++] = 0xf0;
    add_number(4 + 1 + 2 * size);
    add_number(size);
    first[first_len++] = 0xa3;
    add_many("\001A", size);
}
static void challenge(size_t size)
{
    begin(size);
    add_start(0x42);
    add_number(4 + 5 + size);
    add_number(1);
    first[first_len++] = 0xb0;
    add_number(size);
    add_many("A", size);
}
static void extension(size_t size) { begin(size), add_text(&logins[1].server_first), add(",x="), add_many("x", size); }
static void extension_of_commas(size_t size) { begin(size), add_text(&logins[1].server_first), add_many(",", size); }
static void nonce_of_client(size_t size)
{
    begin(size);
    memset(second, 'n', second_len = size);
    add("r="), add_many("n", size), add("x,s=AAAA,i=1");
}
static void nonce_of_server(size_t size)
{
    begin(size), add("r="), add_text(&client_nonce), add_many("n", size), add(",s=AAAA,i=1");
}
static void long_salt(size_t size)
{
    begin(size), add("r="), add_text(&nonce), add(",s="), add_many("AAAA", (size + 3) / 4), add(",i=1");
}
static void digits(size_t size) { begin(size), add("r="), add_text(&nonce), add(",s=AAAA,i="), add_many("9", size); }
static void zeros(size_t size)
{
    begin(size), add("r="), add_text(&nonce), add(",s=AAAA,i="), add_many("0", size), add("1");
}
static void escaped_user(size_t size)
{
    begin(size);
    memset(second, ',', second_len = size);
    add("n,,n="), add_many("=2C", size), add(",r="), add_text(&client_nonce);
}
static void parts_of_final(size_t size)
{
    begin(size), add("c=biws,r="), add_text(&nonce), add_many(",", size);
    add(",p=AAAAAAAAAAAAAAAAAAAAAAAAAAAAAAAAAAAAAAAAAAA=");
}
static void server_final_of_commas(size_t size) { begin(size), add_text(&logins[1].server_final), add_many(",", size); }
static void none(size_t size) { (void)size; }

/* Runs and lines. */
static struct list of_client, of_server, of_users;
static void logins_of_client(size_t size) { of_client = events_of(size, 0); }
static void logins_of_server(size_t size) { of_server = events_of(size, 1); }
static void logins_of_both(size_t size) { logins_of_client(size), logins_of_server(size); }
/* So many events of which the first login alone ends well: the others are this one's last event. */
static struct list then_refused(struct list login, size_t size)
{
    struct list all = {own_memory(size * EVENT), size * EVENT};
    for (size_t at = 0; at < all.len; at += EVENT) {
        size_t from = at < login.len ? at : login.len - EVENT;
        memcpy(all.bytes + at, login.bytes + from, EVENT);
    }
    return all;
}
static void refused_by_client(size_t size) { of_client = then_refused(events_of(1, 0), size); }
static void refused_by_server(size_t size) { of_server = then_refused(events_of(1, 1), size); }
static void refused_by_both(size_t size) { refused_by_client(size), refused_by_server(size); }
static void users(size_t size) { of_users = lines_of(size); }
static void last_user(size_t size)
{
    begin(64);
    users(size);
    first_len = name_into((char *)first, size - 1);
}
/* So many users, and behind them the one of the events. */
static void users_and_login(size_t size)
{
    struct list others = lines_of(size);
    of_users = (struct list){own_memory(others.len + 1000), others.len};
    memcpy(of_users.bytes, others.bytes, others.len);
    memcpy(of_users.bytes + of_users.len, "user ", 5);
    memcpy(of_users.bytes + of_users.len + 5, GIVE(record_at_one));
    of_users.len += 5 + record_at_one.len;
    of_users.bytes[of_users.len++] = '\n';
    of_server = server_events;
}

#define FIRST first, first_len
#define RUN(name, expression) \
    static size_t name(size_t size, int call) \
    { \
        (void)size; \
        return call ? (expression) : 0; \
    }
RUN(view, bench_view(FIRST))
RUN(decode, bench_decode(FIRST, 1))
RUN(recode, bench_encode(FIRST, 1))
RUN(walk, bench_walk_symbols(FIRST))
RUN(offers, bench_offers(FIRST))
RUN(last, bench_last_symbol(FIRST))
RUN(hash, bench_digest(256, FIRST, ROOM(out)))
RUN(mac_key, bench_hmac(256, FIRST, GIVE(salt), ROOM(out)))
RUN(mac_text, bench_hmac(256, GIVE(salt), FIRST, ROOM(out)))
RUN(hi_salt, bench_hi(256, GIVE(password), FIRST, 1, ROOM(out)))
RUN(hi_count, bench_hi(256, GIVE(password), GIVE(salt), size, ROOM(out)))
RUN(client_first_name, bench_client_first(256, FIRST, GIVE(client_nonce), ROOM(out)))
RUN(client_first_nonce, bench_client_first(256, GIVE(username), FIRST, ROOM(out)))
RUN(escape, bench_escape(FIRST))
RUN(unescape, bench_unescape(FIRST))
RUN(client_final,
    bench_client_final(256, GIVE(client_nonce), GIVE(password), FIRST, GIVE(bare), UINT32_MAX, ROOM(out),
        ROOM(signature)))
RUN(client_final_nonce,
    bench_client_final(256, second, second_len, GIVE(password), FIRST, GIVE(bare), UINT32_MAX, ROOM(out),
        ROOM(signature)))
RUN(client_final_password,
    bench_client_final(256, GIVE(client_nonce), FIRST, GIVE(logins[1].server_first), GIVE(bare), UINT32_MAX, ROOM(out),
        ROOM(signature)))
RUN(server_final,
    bench_server_final(256, FIRST, GIVE(nonce), GIVE(bare), GIVE(logins[1].server_first), GIVE(logins[1].stored_key),
        GIVE(logins[1].server_key), ROOM(out)))
RUN(validate, bench_validate(256, FIRST, GIVE(logins[1].signature)))
static size_t server_first_user(size_t size, int call)
{
    (void)size;
    return bench_server_first(256, second, second_len, FIRST, GIVE(server_nonce), call, ROOM(out));
}
#define CLIENTS of_client.bytes, of_client.len
#define SERVERS of_server.bytes, of_server.len
#define LINES of_users.bytes, of_users.len
/* A call that is prepared by the library, and what it has to answer. */
#define PREPARED(name, wanted, expression) \
    static size_t name(size_t size, int call) \
    { \
        size_t answer = (expression); \
        if (answer != (call ? (size_t)(wanted) : 0)) { \
            fprintf(stderr, #name " of %zu answers %zu\n", size, answer); \
            exit(1); \
        } \
        return answer; \
    }
RUN(read_lines, bench_read_lines(256, LINES))
PREPARED(write_lines, of_users.len, bench_write_lines(256, LINES, call))
PREPARED(look_up, 32, bench_look_up(256, LINES, FIRST, call))
PREPARED(run_client, 3 * size, bench_run_client(CLIENTS, call))
PREPARED(run_server, 2 * size, bench_run_server(1, SERVERS, call))
PREPARED(run_audit, 2 * size, bench_audit(1, CLIENTS, SERVERS, call))
PREPARED(refuse_client, 3, bench_run_client(CLIENTS, call))
PREPARED(refuse_server, size, bench_run_server(1, SERVERS, call)) /* with outcomes that are not Ok */
PREPARED(refuse_audit, 2, bench_audit(1, CLIENTS, SERVERS, call))
PREPARED(serve_users, 2 * LOGINS, bench_serve_users(LINES, 0, SERVERS, call))
PREPARED(serve_shared_users, 2 * LOGINS, bench_serve_users(LINES, 1, SERVERS, call))

#define USUAL \
    { \
        1000, 10000, 100000 \
    }
#define TENS \
    { \
        10, 100, 1000, 10000 \
    }
const struct growth growths[] = {
    {"view-mechanisms", "names of a mechanisms frame", USUAL, mechanisms, view},
    {"decode-mechanisms", "the same", USUAL, mechanisms, decode},
    {"recode-mechanisms", "the same, decode and encode", USUAL, mechanisms, recode},
    {"walk-mechanisms", "the same, iter", USUAL, mechanisms, walk},
    {"offers-mechanisms", "the same, contains", USUAL, mechanisms, offers},
    {"last-mechanism", "the same, get of the last", USUAL, mechanisms, last},
    {"view-challenge", "bytes of a challenge frame", USUAL, challenge, view},
    {"decode-challenge", "the same", USUAL, challenge, decode},
    {"recode-challenge", "the same, decode and encode", USUAL, challenge, recode},
    {"h-message", "bytes of a message", USUAL, plain_bytes, hash},
    {"hmac-key", "bytes of a key", USUAL, plain_bytes, mac_key},
    {"hmac-message", "bytes of a message", USUAL, plain_bytes, mac_text},
    {"hi-salt", "bytes of a salt", USUAL, plain_bytes, hi_salt},
    {"hi-count", "iterations", {1000, 10000, 100000}, none, hi_count},
    {"client-first-name", "bytes of a user name", USUAL, plain_bytes, client_first_name},
    {"client-first-commas", "commas of a user name", USUAL, commas, client_first_name},
    {"client-first-nonce", "bytes of a nonce", USUAL, plain_bytes, client_first_nonce},
    {"escape-plain", "bytes of a user name", USUAL, plain_bytes, escape},
    {"escape-commas", "commas of a user name", USUAL, commas, escape},
    {"unescape-plain", "bytes of a user name", USUAL, plain_bytes, unescape},
    {"unescape-commas", "escapes of a user name", USUAL, escapes, unescape},
    {"server-first-commas", "escapes of the client's user name", USUAL, escaped_user, server_first_user},
    {"client-final-extension", "bytes of an extension of server-first", USUAL, extension, client_final},
    {"client-final-commas", "commas behind server-first", USUAL, extension_of_commas, client_final},
    {"client-final-own-nonce", "bytes of the client's nonce", USUAL, nonce_of_client, client_final_nonce},
    {"client-final-nonce", "bytes of the server's nonce", USUAL, nonce_of_server, client_final},
    {"client-final-salt", "base64 symbols of a salt", USUAL, long_salt, client_final},
    {"client-final-password", "bytes of a password", USUAL, plain_bytes, client_final_password},
    {"client-final-digits", "digits of a count (refused)", USUAL, digits, client_final},
    {"client-final-zeros", "zeros before a count", USUAL, zeros, client_final},
    {"server-final-commas", "commas of client-final (its proof is refused)", USUAL, parts_of_final, server_final},
    {"validate-commas", "commas behind server-final", USUAL, server_final_of_commas, validate},
    {"lines-read", "lines of users", TENS, users, read_lines},
    {"lines-write", "the same, written", TENS, users, write_lines},
    {"lines-look-up", "the same, the last user looked up", TENS, last_user, look_up},
    {"run-client", "logins of a client's run, 3 events each", {10, 100, 1000, 10000, 33334}, logins_of_client,
        run_client},
    {"run-server", "logins of a server's run, 2 events each", {10, 100, 1000, 10000, 50000}, logins_of_server,
        run_server},
    {"run-audit", "logins of an audit, 5 events each", {10, 100, 1000, 10000, 20000}, logins_of_both, run_audit},
    {"run-client-refused", "events of a client's run, all but three refused", USUAL, refused_by_client, refuse_client},
    {"run-server-refused", "events of a server's run, all but two refused", USUAL, refused_by_server, refuse_server},
    {"run-audit-refused", "events of each run of an audit, refused so", USUAL, refused_by_both, refuse_audit},
    {"run-server-users", "users of the store of a run of 10 logins", TENS, users_and_login, serve_users},
    {"run-server-shared-users", "the same, shared by an Rc", TENS, users_and_login, serve_shared_users},
};
const int growths_len = sizeof growths / sizeof *growths;
