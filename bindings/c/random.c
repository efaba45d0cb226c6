/* A hundred thousand structs of random bytes, and some fields of half of them as a call might leave them, each given to
 * every export that takes one. Each call answers a status that has a text; one that is refused has changed nothing; and
 * nobody is logged in: no proof, no signature and no password is right by chance. Prints for each call how often it was
 * made, how often it was done and how many other statuses it answered, and ends with 1 where one of these is not so.
 *
 * The counts of hashes are small ones, since one of random bytes could take hours. A server lets in whom ANONYMOUS and
 * EXTERNAL name, and a client without SCRAM takes the server's word, so neither is asked for that here. */
#include "fe2o3_sasl.h"

#include <stdio.h>
#include <string.h>

#define ROUNDS 40000
#define STATUSES 100
#define TEXT(words) (const uint8_t *)(words), sizeof(words) - 1
#define GIVEN(text) (text).bytes, (text).len

struct text {
    uint8_t bytes[1024];
    size_t len;
};

/* All that the calls of a round write, so that it can be compared: six structs of random bytes, and what is written. */
static struct all {
    struct fe2o3_scram_keys keys;
    struct fe2o3_scram_record record;
    struct fe2o3_scram_client client;
    struct fe2o3_scram_server server;
    struct fe2o3_sasl_client client_side;
    struct fe2o3_sasl_server server_side;
    struct text out;
    size_t taken, line;
} drawn, all;
#define STRUCTS 6

static int differences;

/* ---- random bytes: xorshift64*, the same in each run */

static uint64_t state = 20261125;

static uint32_t any(void)
{
    state ^= state >> 12;
    state ^= state << 25;
    state ^= state >> 27;
    return (uint32_t)(state * 2685821657736338717u >> 32);
}

static uint32_t below(uint32_t most) { return any() % most; }

static void fill(void *block, size_t len)
{
    uint8_t *bytes = block;
    for (size_t at = 0; at < len; at++)
        bytes[at] = (uint8_t)any();
}

static uint32_t one_of(const uint32_t *numbers, uint32_t count) { return numbers[below(count)]; }
#define ONE_OF(...) one_of((const uint32_t[]){__VA_ARGS__}, sizeof(const uint32_t[]){__VA_ARGS__} / sizeof(uint32_t))

/* ---- texts and frames */

static void add(struct text *to, const void *bytes, size_t len)
{
    memcpy(to->bytes + to->len, bytes, len);
    to->len += len;
}
#define ADD(to, words) add(to, words, sizeof(words) - 1)

/* Base64 of so many random bytes. */
static void add_base64(struct text *to, size_t count)
{
    static const char symbols[] = "ABCDEFGHIJKLMNOPQRSTUVWXYZabcdefghijklmnopqrstuvwxyz0123456789+/";
    for (size_t left = count; left > 0; left -= left < 3 ? left : 3)
        for (size_t place = 0; place < 4; place++) {
            /* (the bits behind the last byte are zero) */
            uint32_t bits = place < left ? below(64) : place > left ? 64 : left == 1 ? below(4) * 16 : below(16) * 4;
            add(to, bits == 64 ? "=" : &symbols[bits], 1);
        }
}

/* A frame of so many fields, which have no more than 255 bytes (AMQP 1.0, part 5, section 5.3.3). */
static void frame(struct text *to, uint8_t code, uint8_t fields, const struct text *body)
{
    uint8_t head[] = {0, 0, 0, 0, 2, 1, 0, 0, 0, 0x53, code, 0xc0, (uint8_t)(body->len + 1), fields};
    head[2] = (uint8_t)((sizeof head + body->len) >> 8);
    head[3] = (uint8_t)(sizeof head + body->len);
    to->len = 0;
    add(to, head, sizeof head);
    add(to, body->bytes, body->len);
}

static void field(struct text *to, uint8_t kind, const void *bytes, size_t len)
{
    const uint8_t head[] = {kind, (uint8_t)len};
    add(to, head, sizeof head);
    add(to, bytes, len);
}

/* ---- calls, and what each answered */

static struct seen {
    const char *name;
    long calls, of[STATUSES];
} calls[32];

static struct seen *seen(const char *name)
{
    struct seen *one = calls;
    while (one->name != NULL && strcmp(one->name, name) != 0)
        one++;
    one->name = name;
    return one;
}

static void noted(const char *name, uint32_t status)
{
    struct seen *one = seen(name);
    one->calls++;
    if (status < STATUSES)
        one->of[status]++;
}

static int has_text(uint32_t status)
{
    struct fe2o3_text text = FE2O3_TEXT_INIT, unknown = FE2O3_TEXT_INIT;
    fe2o3_status_text(status, &text);
    fe2o3_status_text(UINT32_MAX, &unknown);
    return text.bytes != unknown.bytes && text.bytes_len > 1;
}

/* Notes an answer of a call that was made with the structs as they were drawn. */
static void answered(const char *name, uint32_t status)
{
    noted(name, status);
    if (status >= STATUSES || !has_text(status)) {
        printf("%s answers %u, which has no text\n", name, (unsigned)status);
        differences++;
    }
    if (status == FE2O3_ROOM_TOO_SMALL)
        all.out.len = drawn.out.len;
    if (status == FE2O3_NEEDS_RECORDS) {
        /* (which writes the name of a user) */
        differences += all.out.len > 512;
        all.out = drawn.out;
    }
    if (status != FE2O3_OK && memcmp(&all, &drawn, sizeof all) != 0) {
        printf("%s answers %u, and has changed something\n", name, (unsigned)status);
        differences++;
    }
    all = drawn;
}

/* Notes why a connection is to be closed. */
static void closed(const char *name, const struct fe2o3_connection *connection)
{
    if (connection->progress == FE2O3_FAILED)
        noted(name, connection->why);
}

static void never(const char *name, int happens)
{
    if (happens) {
        printf("%s logs somebody in\n", name);
        differences++;
    }
}

static size_t room(void) { return below(8) == 0 ? below(300) : sizeof all.out.bytes; }
#define ROOM all.out.bytes, room(), &all.out.len

/* ---- structs */

static void draw_keys(struct fe2o3_scram_keys *keys)
{
    fill(keys, sizeof *keys);
    if (below(2)) {
        keys->version = ONE_OF(FE2O3_SHA_1, FE2O3_SHA_256, FE2O3_SHA_512);
        keys->salt_len = below(129);
        keys->iterations = below(9);
    }
}

static void draw_client(struct fe2o3_scram_client *client)
{
    fill(client, sizeof *client);
    draw_keys(&client->keys);
    if (below(2)) {
        client->state = below(5);
        client->signature_len = ONE_OF(20, 32, 64, 65);
    }
}

/* A server that has asked for the initial response of a mechanism that takes one. */
static void draw_asked(struct fe2o3_scram_server *server)
{
    const char *mechanism = below(2) ? "PLAIN" : "SCRAM-SHA-256";
    memset(server, 0, sizeof *server);
    server->state = FE2O3_SCRAM_SERVER_INITIAL_RESPONSE_ASKED;
    server->first_len = (uint32_t)strlen(mechanism);
    memcpy(server->first, mechanism, server->first_len);
    server->nonce_len = 32;
    fill(server->nonce, 32);
}

static void draw_server(struct fe2o3_scram_server *server)
{
    fill(server, sizeof *server);
    if (below(2)) {
        server->state = below(10);
        server->user_len = below(5);
        memcpy(server->user, "user", 4);
        server->bare_len = below(1026);
        server->nonce_len = 48 + below(2);
        for (size_t at = 0; at < 49; at++)
            server->nonce[at] = (uint8_t)('a' + below(26));
        server->first_len = below(1026);
        server->acts_for_len = below(3) ? 0 : below(6);
        memcpy(server->acts_for, "user", 4);
    } else if (below(4) == 0) {
        draw_asked(server);
    }
}

static void draw_record(struct fe2o3_scram_record *record)
{
    fill(record, sizeof *record);
    if (below(2)) {
        record->version = ONE_OF(FE2O3_SHA_1, FE2O3_SHA_256, FE2O3_SHA_512);
        record->salt_len = below(129);
    }
    record->iterations = below(9);
}

static void draw_connection(struct fe2o3_connection *connection, uint32_t due)
{
    fill(connection, sizeof *connection);
    if (below(2)) {
        connection->progress = below(8) == 0 ? below(3) : FE2O3_IN_PROGRESS;
        connection->expected = below(4) == 0 ? below(7) : due;
        connection->held_len = below(4) == 0 ? below(514) : 0;
    }
}

/* ---- a round */

static struct fe2o3_login login;
static uint8_t nonce[32];

/* A server-first message that fits the nonce of a client's struct, which the client-first message shows. */
static void fitting(const struct fe2o3_scram_client *client, struct text *server_first)
{
    static struct fe2o3_scram_keys no_keys;
    const struct fe2o3_login who = {.version = FE2O3_SHA_1,
        .username = TEXT("user"),
        .acts_for = FE2O3_NONE,
        .password = TEXT("pencil"),
        .keys = &no_keys};
    struct fe2o3_scram_client other = {0};
    struct text first = {{0}, 0};
    char count[8];
    fe2o3_scram_client_first(&who, &other, client->nonce, first.bytes, sizeof first.bytes, &first.len);
    server_first->len = 0;
    ADD(server_first, "r=");
    add(server_first, first.bytes + first.len - 44, 44);
    ADD(server_first, "more,s=");
    add_base64(server_first, below(40));
    add(server_first, count, (size_t)sprintf(count, ",i=%u", (unsigned)below(9)));
}

static void with_a_client(void)
{
    struct text server_first, server_final = {{0}, 0};
    fitting(&drawn.client, &server_first);
    ADD(&server_final, "v=");
    add_base64(&server_final, ONE_OF(20, 32, 64));
    if (below(8) == 0)
        server_first.bytes[below((uint32_t)server_first.len)] = (uint8_t)any();
    answered("client_first", fe2o3_scram_client_first(&login, &all.client, nonce, ROOM));
    answered("client_final", fe2o3_scram_client_final(&login, &all.client, GIVEN(server_first), ROOM));
    answered("client_verify", fe2o3_scram_client_verify(&login, &all.client, GIVEN(server_final)));
    answered("client_keys", fe2o3_scram_client_get_keys(&all.client, &all.keys));
    answered("plain_message",
        fe2o3_plain_message(login.acts_for, login.acts_for_len, TEXT("user"), TEXT("pencil"), ROOM));
}

/* A client-final message with the nonce of a server's struct, and a proof of random bytes. */
static void unproved(const struct fe2o3_scram_server *server, struct text *client_final)
{
    client_final->len = 0;
    ADD(client_final, "c=biws,r=");
    add(client_final, server->nonce, server->nonce_len < 50 ? server->nonce_len : 50);
    ADD(client_final, ",p=");
    add_base64(client_final, ONE_OF(20, 32, 64));
}

/* The initial response of PLAIN or of SCRAM. */
static void initial_response(int plain, struct text *message)
{
    message->len = 0;
    if (plain) {
        ADD(message, "\0user\0pencil");
    } else {
        ADD(message, "n,,n=user,r=");
        add_base64(message, 32);
    }
}

static int has_asked(const struct fe2o3_scram_server *server)
{
    return server->state == FE2O3_SCRAM_SERVER_INITIAL_RESPONSE_ASKED;
}

/* Rules of random bytes, half of them with flags and lengths that a caller may set. */
static void draw_rules(struct fe2o3_scram_rules *rules)
{
    static uint8_t identities[40];
    fill(rules, sizeof *rules);
    fill(identities, sizeof identities);
    rules->identities = identities;
    rules->identities_len = below(sizeof identities + 1);
    if (below(2))
        return;
    rules->accept_authzid = below(2);
    rules->accept_cbind_flag_y = below(2);
    rules->strict = below(2);
    rules->reject_misplaced = below(2);
    rules->channels.binds_channel = below(2);
    rules->channels.tls_unique_len = below(66);
    rules->channels.tls_server_end_point_len = below(66);
    rules->channels.tls_exporter_len = below(66);
}

static void with_a_server(void)
{
    struct fe2o3_scram_rules rules;
    struct text client_first, client_final;
    draw_rules(&rules);
    initial_response(0, &client_first);
    unproved(&drawn.server, &client_final);
    client_first.bytes[0] = below(2) ? 'n' : 'y';
    answered("server_claimed_user", fe2o3_scram_server_claimed_user(&rules, GIVEN(client_first), ROOM));
    answered("server_first",
        fe2o3_scram_server_first(&rules, &all.record, &all.server, nonce, GIVEN(client_first), ROOM));
    answered("server_final", fe2o3_scram_server_final(&rules, &all.record, &all.server, GIVEN(client_final), ROOM));
    answered("server_logged_in", fe2o3_scram_server_authenticated_user(&all.server, ROOM));
    answered("server_acts_for", fe2o3_scram_server_acts_for(&all.server, ROOM));
    answered("server_identity", fe2o3_scram_server_claimed_identity(&rules, GIVEN(client_first), ROOM));
}

static void with_a_record(void)
{
    answered("record_text", fe2o3_scram_record_text(&all.record, ROOM));
    answered("line", fe2o3_scram_line(TEXT("user"), &all.record, ROOM));
    answered("record_verify", fe2o3_scram_record_verify(&all.record, below(3), TEXT("pencil")));
    answered("record_verify_salted", fe2o3_scram_record_verify_salted(&all.record, nonce, ONE_OF(20, 31, 32)));
    answered("plain_verify",
        below(2) ? fe2o3_plain_verify(&all.record, below(2), below(4), below(9), 0, FE2O3_NONE, TEXT("\0user\0pencil"))
                 : fe2o3_plain_verify(&all.record, below(2), below(4), below(9), below(2), nonce, below(33),
                     TEXT("root\0user\0pencil")));
}

/* Some characters of one to four bytes, seldom with a byte among them that begins none. */
static void with_a_text(void)
{
    static const char *const characters[] = {"a", "Z", " ", "\x07", "\xc2\xad", "\xc2\xaa", "\xc8\xa1", "\xcc\x81",
        "\xd8\xa7", "\xe1\x84\x80", "\xe1\x85\xa1", "\xe2\x80\x8b", "\xe2\x85\xa8", "\xf0\x9d\x90\x80"};
    struct text typed = {{0}, 0};
    for (uint32_t left = below(9); left > 0; left--) {
        const char *character = characters[below(sizeof characters / sizeof *characters)];
        add(&typed, character, strlen(character));
    }
    if (below(8) == 0)
        ADD(&typed, "\xff");
    answered("saslprep", fe2o3_saslprep(GIVEN(typed), below(8) == 0 ? any() : below(2), ROOM));
}

/* What a server sends next, to a client of this mechanism, and now and then what is not due. */
static void to_client(uint32_t mechanism, const struct fe2o3_sasl_client *side, struct text *came)
{
    struct text body = {{0}, 0}, message;
    uint8_t code = (uint8_t)(mechanism != FE2O3_SCRAM ? 1 + below(4) : below(4) ? 0 : below(6));
    switch (below(8) == 0 ? below(6) : side->connection.expected) {
    case 0: ADD(came, "AMQP\3\1\0\0"); break;
    case 1:
        ADD(&body, "\xe0\x10\1\xa3\rSCRAM-SHA-256");
        frame(came, 0x40, 1, &body);
        break;
    case 3:
        fitting(&side->scram, &message);
        field(&body, 0xa0, message.bytes, message.len);
        frame(came, 0x42, 1, &body);
        break;
    default:
        message.len = 0;
        ADD(&message, "v=");
        add_base64(&message, ONE_OF(20, 32, 64));
        ADD(&body, "\x50");
        add(&body, &code, 1);
        field(&body, 0xa0, message.bytes, message.len);
        frame(came, 0x44, 2, &body);
    }
}

static void with_a_side_of_a_client(void)
{
    struct fe2o3_sasl_login who = {.mechanism = below(2) ? FE2O3_SCRAM : below(5),
        .hostname = TEXT("host"),
        .login = login};
    struct text came = {{0}, 0};
    uint32_t status;
    to_client(who.mechanism, &drawn.client_side, &came);
    if (below(4) == 0)
        fill(came.bytes, came.len);
    status = fe2o3_sasl_client_receive(&who, &all.client_side, GIVEN(came), nonce, &all.taken, ROOM);
    never("sasl_client_receive", status == FE2O3_OK && all.client_side.connection.progress == FE2O3_AUTHENTICATED);
    if (status == FE2O3_OK)
        closed("sasl_client_receive, why it closes", &all.client_side.connection);
    answered("sasl_client_receive", status);
}

/* What a client sends next, and now and then what is not due. */
static void to_server(const struct fe2o3_sasl_server *side, struct text *came)
{
    struct text body = {{0}, 0}, message;
    int plain = below(2) == 0;
    switch (below(8) == 0 ? below(6) : side->connection.expected) {
    case 0: ADD(came, "AMQP\3\1\0\0"); break;
    case 4:
        if (has_asked(&side->scram))
            initial_response(plain, &message);
        else
            unproved(&side->scram, &message);
        field(&body, 0xa0, message.bytes, message.len);
        frame(came, 0x43, 1, &body);
        break;
    default:
        initial_response(plain, &message);
        field(&body, 0xa3, plain ? "PLAIN" : "SCRAM-SHA-256", plain ? 5 : 13);
        if (below(4) == 0)
            ADD(&body, "\x40");
        else
            field(&body, 0xa0, message.bytes, message.len);
        frame(came, 0x41, 2, &body);
    }
}

static void with_a_side_of_a_server(void)
{
    const uint32_t option = ONE_OF(0, FE2O3_INITIAL_RESPONSE_BY_CHALLENGE, FE2O3_SIGNATURE_BY_CHALLENGE, FE2O3_STRICT)
        | (below(4) ? 0 : FE2O3_REJECT_MISPLACED);
    struct fe2o3_sasl_server_config config = {.mechanisms = below(65),
        .flags = option | below(2) * FE2O3_ACCEPT_CBIND_FLAG_Y | (below(16) ? 0 : below(64)),
        .iterations = below(9),
        .mock_salt_len = 16,
        .mock_secret = nonce,
        .mock_secret_len = option == 0 ? sizeof nonce : 0,
        .username = TEXT("user"),
        .records = &all.record,
        .records_count = below(2),
        .external_authcid = TEXT("peer")};
    struct fe2o3_scram_rules rules;
    struct text came = {{0}, 0};
    uint32_t status;
    draw_rules(&rules);
    if (below(4) == 0)
        config.channels = rules.channels;
    if (below(4) == 0) {
        config.accept_authzid = rules.accept_authzid;
        config.identities = rules.identities;
        config.identities_len = rules.identities_len;
    }
    to_server(&drawn.server_side, &came);
    if (below(4) == 0)
        fill(came.bytes, came.len);
    answered("sasl_peek_frame", fe2o3_sasl_peek_frame(&all.server_side.connection, GIVEN(came), ROOM));
    status = fe2o3_sasl_server_receive(&config, &all.server_side, GIVEN(came), nonce, &all.taken, ROOM);
    if (status == FE2O3_NEEDS_RECORDS) {
        answered("sasl_server_receive", status);
        config.looked_up = ONE_OF(1, UINT32_MAX);
        status = fe2o3_sasl_server_receive(&config, &all.server_side, GIVEN(came), nonce, &all.taken, ROOM);
    }
    never("sasl_server_receive", status == FE2O3_OK && all.server_side.connection.progress == FE2O3_AUTHENTICATED);
    if (status == FE2O3_OK)
        closed("sasl_server_receive, why it closes", &all.server_side.connection);
    if (status == FE2O3_OK && !has_asked(&drawn.server_side.scram) && has_asked(&all.server_side.scram))
        noted("sasl_server_receive, which asks", status);
    answered("sasl_server_receive", status);
}

/* An identity to act for, which may have bytes of any value, and may be too long. Returns its length. */
static size_t draw_identity(uint8_t identity[260])
{
    size_t len = below(2) ? 0 : below(3) ? below(8) : 250 + below(10);
    memset(identity, below(2) ? 'a' : '=', 260);
    if (below(4) == 0)
        fill(identity, 2);
    if (below(8) == 0)
        identity[0] = 0;
    return len;
}

static void one_round(void)
{
    uint8_t identity[260];
    memset(&drawn, 0, sizeof drawn);
    draw_keys(&drawn.keys);
    draw_record(&drawn.record);
    draw_client(&drawn.client);
    draw_server(&drawn.server);
    draw_connection(&drawn.client_side.connection, ONE_OF(0, 1, 3, 5));
    draw_client(&drawn.client_side.scram);
    draw_connection(&drawn.server_side.connection, ONE_OF(0, 2, 4));
    draw_server(&drawn.server_side.scram);
    fill(&drawn.out, sizeof drawn.out);
    fill(nonce, sizeof nonce);
    all = drawn;
    login = (struct fe2o3_login){.version = below(4) ? drawn.keys.version : ONE_OF(1, 2, 256, 512),
        .secret = below(2) ? 0 : below(4),
        .form = below(2) ? 0 : below(3),
        .min_iterations = below(3),
        .max_iterations = 5 + below(4),
        .username = TEXT("user"),
        .acts_for = identity,
        .acts_for_len = draw_identity(identity),
        .password = TEXT("pencil"),
        .keys = &drawn.keys,
        .signature_by_challenge = below(2)};
    with_a_client();
    with_a_server();
    with_a_record();
    with_a_text();
    with_a_side_of_a_client();
    with_a_side_of_a_server();
}

/* How often a call answered a status, which these structs have to come to. */
static void reached(const char *name, uint32_t status)
{
    if (seen(name)->of[status] < 10) {
        printf("%s answered %u only %ld times\n", name, (unsigned)status, seen(name)->of[status]);
        differences++;
    }
}

int main(void)
{
    for (int round = 0; round < ROUNDS; round++)
        one_round();
    never("client_verify", seen("client_verify")->of[FE2O3_OK] != 0);
    never("server_final", seen("server_final")->of[FE2O3_OK] != 0);
    never("record_verify", seen("record_verify")->of[FE2O3_OK] != 0);
    never("record_verify_salted", seen("record_verify_salted")->of[FE2O3_OK] != 0);
    never("plain_verify", seen("plain_verify")->of[FE2O3_OK] != 0);
    reached("client_first", FE2O3_OK);
    reached("client_final", FE2O3_OK);
    reached("client_verify", FE2O3_CLIENT_SERVER_SIGNATURE_MISMATCH);
    reached("client_keys", FE2O3_OK);
    reached("client_first", FE2O3_NOT_UTF8);
    reached("client_first", FE2O3_PROHIBITED_CHARACTER);
    reached("client_first", FE2O3_TOO_LONG);
    reached("client_final", FE2O3_NO_SUCH_SECRET);
    reached("client_final", FE2O3_NO_SUCH_CHOICE);
    reached("server_first", FE2O3_OK);
    reached("server_first", FE2O3_CHANNEL_DATA_LENGTH);
    reached("server_first", FE2O3_SERVER_CANNOT_PARSE_GS2_HEADER);
    reached("server_claimed_user", FE2O3_OK);
    reached("server_final", FE2O3_CHANNEL_DATA_LENGTH);
    reached("server_final", FE2O3_SERVER_AUTHENTICATION_FAILED);
    reached("server_final", FE2O3_SERVER_ILLEGAL_AUTHENTICATOR_STATE);
    reached("server_logged_in", FE2O3_OK);
    reached("record_text", FE2O3_OK);
    reached("line", FE2O3_OK);
    reached("record_verify", FE2O3_OTHER_PASSWORD);
    reached("record_verify", FE2O3_NO_SUCH_CHOICE);
    reached("record_verify_salted", FE2O3_OTHER_PASSWORD);
    reached("record_verify_salted", FE2O3_RECORD_KEY_LENGTH_MISMATCH);
    reached("plain_verify", FE2O3_SERVER_AUTHENTICATION_FAILED);
    reached("plain_verify", FE2O3_NO_SUCH_CHOICE);
    reached("plain_verify", FE2O3_NOT_UTF8);
    reached("plain_message", FE2O3_OK);
    reached("plain_message", FE2O3_NOT_UTF8);
    reached("plain_message", FE2O3_PROHIBITED_CHARACTER);
    reached("plain_message", FE2O3_TOO_LONG);
    reached("saslprep", FE2O3_OK);
    reached("saslprep", FE2O3_NOT_UTF8);
    reached("saslprep", FE2O3_NO_SUCH_CHOICE);
    reached("saslprep", FE2O3_PROHIBITED_CHARACTER);
    reached("saslprep", FE2O3_MIXED_DIRECTIONS);
    reached("saslprep", FE2O3_UNASSIGNED_CODE_POINT);
    reached("sasl_client_receive", FE2O3_OK);
    reached("sasl_client_receive", FE2O3_ENDED);
    reached("sasl_client_receive", FE2O3_INVALID_SNAPSHOT);
    reached("sasl_client_receive, why it closes", FE2O3_CLIENT_SERVER_SIGNATURE_MISMATCH);
    reached("sasl_client_receive, why it closes", FE2O3_UNEXPECTED_FRAME);
    reached("sasl_server_receive", FE2O3_NEEDS_RECORDS);
    reached("sasl_server_receive", FE2O3_OK);
    reached("sasl_server_receive, which asks", FE2O3_OK);
    reached("sasl_server_receive", FE2O3_ENDED);
    reached("sasl_server_receive", FE2O3_INVALID_SNAPSHOT);
    reached("sasl_server_receive, why it closes", FE2O3_REFUSED_AUTH);
    reached("sasl_server_receive, why it closes", FE2O3_UNEXPECTED_FRAME);
    for (const struct seen *one = calls; one->name != NULL; one++) {
        int others = 0;
        for (uint32_t status = 1; status < STATUSES; status++)
            others += one->of[status] > 0;
        printf("%s: %ld times, %ld done, %d other statuses\n", one->name, one->calls, one->of[FE2O3_OK], others);
    }
    printf("%ld structs of random bytes\n", (long)ROUNDS * STRUCTS);
    return differences != 0;
}
