/* The exports of the library. Each calls the proved function below a pad, and then clears the stack that it used. Written
 * by tools/generate/header.py.
 *
 * The linker gives each proved function its name with `proved_` (bindings/callers.mk). These take no null pointers: a
 * wrapper passes the address of something empty where a length is 0, or keys are null. */
#include "../c/fe2o3_sasl.h"
#include "wipe.h"

static uint8_t nothing[1];
static const struct fe2o3_scram_record no_record;
static const struct fe2o3_scram_keys no_keys;
#define BYTES(bytes, len) ((len) != 0 ? (bytes) : nothing)
#define RECORDS(records, count) ((count) != 0 ? (records) : &no_record)
#define KEYS(keys) ((keys) != NULL ? (keys) : &no_keys)

static struct fe2o3_login lent_login(const struct fe2o3_login *given)
{
    struct fe2o3_login lent = *given;
    lent.username = BYTES(lent.username, lent.username_len);
    lent.acts_for = BYTES(lent.acts_for, lent.acts_for_len);
    lent.password = BYTES(lent.password, lent.password_len);
    lent.keys = KEYS(lent.keys);
    return lent;
}

static struct fe2o3_scram_rules lent_scram_rules(const struct fe2o3_scram_rules *given)
{
    struct fe2o3_scram_rules lent = *given;
    lent.identities = BYTES(lent.identities, lent.identities_len);
    return lent;
}

static struct fe2o3_sasl_login lent_sasl_login(const struct fe2o3_sasl_login *given)
{
    struct fe2o3_sasl_login lent = *given;
    lent.hostname = BYTES(lent.hostname, lent.hostname_len);
    lent.login = lent_login(&lent.login);
    return lent;
}

static struct fe2o3_sasl_server_config lent_sasl_server_config(const struct fe2o3_sasl_server_config *given)
{
    struct fe2o3_sasl_server_config lent = *given;
    lent.mock_secret = BYTES(lent.mock_secret, lent.mock_secret_len);
    lent.username = BYTES(lent.username, lent.username_len);
    lent.records = RECORDS(lent.records, lent.records_count);
    lent.external_authcid = BYTES(lent.external_authcid, lent.external_authcid_len);
    lent.identities = BYTES(lent.identities, lent.identities_len);
    return lent;
}

uint32_t proved_fe2o3_version(void);
uint32_t fe2o3_version(void)
{
    uint32_t answer;
    BELOW_PAD(answer = proved_fe2o3_version());
    clear_stack(depth_version);
    return answer;
}

size_t proved_fe2o3_size(uint32_t which);
size_t fe2o3_size(uint32_t which)
{
    size_t answer;
    BELOW_PAD(answer = proved_fe2o3_size(which));
    clear_stack(depth_size);
    return answer;
}

void proved_fe2o3_status_text(uint32_t status, struct fe2o3_text *text);
void fe2o3_status_text(uint32_t status, struct fe2o3_text *text)
{
    struct fe2o3_text own_text = FE2O3_TEXT_INIT;
    own_text.bytes = nothing;
    BELOW_PAD(proved_fe2o3_status_text(status, &own_text));
    *text = own_text;
    clear_stack(depth_status_text);
}

uint32_t proved_fe2o3_saslprep(const uint8_t *text, size_t text_len, uint32_t unassigned, uint8_t *out, size_t out_size,
    size_t *out_len);
uint32_t fe2o3_saslprep(const uint8_t *text, size_t text_len, uint32_t unassigned, uint8_t *out, size_t out_size,
    size_t *out_len)
{
    uint32_t answer;
    BELOW_PAD(answer = proved_fe2o3_saslprep(BYTES(text, text_len), text_len, unassigned, BYTES(out, out_size),
        out_size, out_len));
    clear_stack(depth_saslprep);
    return answer;
}

uint32_t proved_fe2o3_scram_record_make(uint32_t version, uint32_t form, const uint8_t *password, size_t password_len,
    const uint8_t *salt, size_t salt_len, uint32_t iterations, struct fe2o3_scram_record *kept);
uint32_t fe2o3_scram_record_make(uint32_t version, uint32_t form, const uint8_t *password, size_t password_len,
    const uint8_t *salt, size_t salt_len, uint32_t iterations, struct fe2o3_scram_record *kept)
{
    uint32_t answer;
    BELOW_PAD(answer = proved_fe2o3_scram_record_make(version, form, BYTES(password, password_len), password_len,
        BYTES(salt, salt_len), salt_len, iterations, kept));
    clear_stack(depth_scram_record_make);
    return answer;
}

uint32_t proved_fe2o3_scram_record_from_fields(uint32_t version, const uint8_t *salt, size_t salt_len,
    uint32_t iterations, const uint8_t *stored_key, size_t stored_key_len, const uint8_t *server_key,
    size_t server_key_len, struct fe2o3_scram_record *kept);
uint32_t fe2o3_scram_record_from_fields(uint32_t version, const uint8_t *salt, size_t salt_len, uint32_t iterations,
    const uint8_t *stored_key, size_t stored_key_len, const uint8_t *server_key, size_t server_key_len,
    struct fe2o3_scram_record *kept)
{
    uint32_t answer;
    BELOW_PAD(answer = proved_fe2o3_scram_record_from_fields(version, BYTES(salt, salt_len), salt_len, iterations,
        BYTES(stored_key, stored_key_len), stored_key_len, BYTES(server_key, server_key_len), server_key_len, kept));
    clear_stack(depth_scram_record_from_fields);
    return answer;
}

uint32_t proved_fe2o3_scram_record_mock(uint32_t version, const uint8_t *secret, size_t secret_len,
    const uint8_t *username, size_t username_len, size_t salt_len, uint32_t iterations,
    struct fe2o3_scram_record *kept);
uint32_t fe2o3_scram_record_mock(uint32_t version, const uint8_t *secret, size_t secret_len, const uint8_t *username,
    size_t username_len, size_t salt_len, uint32_t iterations, struct fe2o3_scram_record *kept)
{
    uint32_t answer;
    BELOW_PAD(answer = proved_fe2o3_scram_record_mock(version, BYTES(secret, secret_len), secret_len,
        BYTES(username, username_len), username_len, salt_len, iterations, kept));
    clear_stack(depth_scram_record_mock);
    return answer;
}

uint32_t proved_fe2o3_scram_record_parse(const uint8_t *text, size_t text_len, struct fe2o3_scram_record *kept);
uint32_t fe2o3_scram_record_parse(const uint8_t *text, size_t text_len, struct fe2o3_scram_record *kept)
{
    uint32_t answer;
    BELOW_PAD(answer = proved_fe2o3_scram_record_parse(BYTES(text, text_len), text_len, kept));
    clear_stack(depth_scram_record_parse);
    return answer;
}

uint32_t proved_fe2o3_scram_record_text(const struct fe2o3_scram_record *kept, uint8_t *out, size_t out_size,
    size_t *out_len);
uint32_t fe2o3_scram_record_text(const struct fe2o3_scram_record *kept, uint8_t *out, size_t out_size, size_t *out_len)
{
    uint32_t answer;
    BELOW_PAD(answer = proved_fe2o3_scram_record_text(kept, BYTES(out, out_size), out_size, out_len));
    clear_stack(depth_scram_record_text);
    return answer;
}

uint32_t proved_fe2o3_scram_record_verify(const struct fe2o3_scram_record *kept, uint32_t form, const uint8_t *password,
    size_t password_len);
uint32_t fe2o3_scram_record_verify(const struct fe2o3_scram_record *kept, uint32_t form, const uint8_t *password,
    size_t password_len)
{
    uint32_t answer;
    BELOW_PAD(answer = proved_fe2o3_scram_record_verify(kept, form, BYTES(password, password_len), password_len));
    clear_stack(depth_scram_record_verify);
    return answer;
}

uint32_t proved_fe2o3_scram_record_of_salted(uint32_t version, const uint8_t *salted, size_t salted_len,
    const uint8_t *salt, size_t salt_len, uint32_t iterations, struct fe2o3_scram_record *kept);
uint32_t fe2o3_scram_record_of_salted(uint32_t version, const uint8_t *salted, size_t salted_len, const uint8_t *salt,
    size_t salt_len, uint32_t iterations, struct fe2o3_scram_record *kept)
{
    uint32_t answer;
    BELOW_PAD(answer = proved_fe2o3_scram_record_of_salted(version, BYTES(salted, salted_len), salted_len,
        BYTES(salt, salt_len), salt_len, iterations, kept));
    clear_stack(depth_scram_record_of_salted);
    return answer;
}

uint32_t proved_fe2o3_scram_record_verify_salted(const struct fe2o3_scram_record *kept, const uint8_t *salted,
    size_t salted_len);
uint32_t fe2o3_scram_record_verify_salted(const struct fe2o3_scram_record *kept, const uint8_t *salted,
    size_t salted_len)
{
    uint32_t answer;
    BELOW_PAD(answer = proved_fe2o3_scram_record_verify_salted(kept, BYTES(salted, salted_len), salted_len));
    clear_stack(depth_scram_record_verify_salted);
    return answer;
}

uint32_t proved_fe2o3_scram_lines_find(const uint8_t *lines, size_t lines_len, const uint8_t *username,
    size_t username_len, uint32_t version, size_t *line, struct fe2o3_scram_record *kept);
uint32_t fe2o3_scram_lines_find(const uint8_t *lines, size_t lines_len, const uint8_t *username, size_t username_len,
    uint32_t version, size_t *line, struct fe2o3_scram_record *kept)
{
    uint32_t answer;
    BELOW_PAD(answer = proved_fe2o3_scram_lines_find(BYTES(lines, lines_len), lines_len, BYTES(username, username_len),
        username_len, version, line, kept));
    clear_stack(depth_scram_lines_find);
    return answer;
}

uint32_t proved_fe2o3_scram_lines_all_have(const uint8_t *lines, size_t lines_len, uint32_t version, size_t *line,
    uint32_t *all);
uint32_t fe2o3_scram_lines_all_have(const uint8_t *lines, size_t lines_len, uint32_t version, size_t *line,
    uint32_t *all)
{
    uint32_t answer;
    BELOW_PAD(answer = proved_fe2o3_scram_lines_all_have(BYTES(lines, lines_len), lines_len, version, line, all));
    clear_stack(depth_scram_lines_all_have);
    return answer;
}

uint32_t proved_fe2o3_scram_line(const uint8_t *username, size_t username_len, const struct fe2o3_scram_record *kept,
    uint8_t *out, size_t out_size, size_t *out_len);
uint32_t fe2o3_scram_line(const uint8_t *username, size_t username_len, const struct fe2o3_scram_record *kept,
    uint8_t *out, size_t out_size, size_t *out_len)
{
    uint32_t answer;
    BELOW_PAD(answer = proved_fe2o3_scram_line(BYTES(username, username_len), username_len, kept, BYTES(out, out_size),
        out_size, out_len));
    clear_stack(depth_scram_line);
    return answer;
}

uint32_t proved_fe2o3_scram_keys_make(uint32_t version, uint32_t form, const uint8_t *password, size_t password_len,
    const uint8_t *salt, size_t salt_len, uint32_t iterations, struct fe2o3_scram_keys *keys);
uint32_t fe2o3_scram_keys_make(uint32_t version, uint32_t form, const uint8_t *password, size_t password_len,
    const uint8_t *salt, size_t salt_len, uint32_t iterations, struct fe2o3_scram_keys *keys)
{
    uint32_t answer;
    BELOW_PAD(answer = proved_fe2o3_scram_keys_make(version, form, BYTES(password, password_len), password_len,
        BYTES(salt, salt_len), salt_len, iterations, keys));
    clear_stack(depth_scram_keys_make);
    return answer;
}

uint32_t proved_fe2o3_scram_keys_of_salted(uint32_t version, const uint8_t *salted, size_t salted_len,
    const uint8_t *salt, size_t salt_len, uint32_t iterations, struct fe2o3_scram_keys *keys);
uint32_t fe2o3_scram_keys_of_salted(uint32_t version, const uint8_t *salted, size_t salted_len, const uint8_t *salt,
    size_t salt_len, uint32_t iterations, struct fe2o3_scram_keys *keys)
{
    uint32_t answer;
    BELOW_PAD(answer = proved_fe2o3_scram_keys_of_salted(version, BYTES(salted, salted_len), salted_len,
        BYTES(salt, salt_len), salt_len, iterations, keys));
    clear_stack(depth_scram_keys_of_salted);
    return answer;
}

uint32_t proved_fe2o3_scram_client_first(const struct fe2o3_login *login, struct fe2o3_scram_client *client,
    const uint8_t nonce[32], uint8_t *out, size_t out_size, size_t *out_len);
uint32_t fe2o3_scram_client_first(const struct fe2o3_login *login, struct fe2o3_scram_client *client,
    const uint8_t nonce[32], uint8_t *out, size_t out_size, size_t *out_len)
{
    uint32_t answer;
    struct fe2o3_login own_login = lent_login(login);
    BELOW_PAD(answer = proved_fe2o3_scram_client_first(&own_login, client, nonce, BYTES(out, out_size), out_size,
        out_len));
    fe2o3_wipe(&own_login, sizeof own_login);
    clear_stack(depth_scram_client_first);
    return answer;
}

uint32_t proved_fe2o3_scram_client_final(const struct fe2o3_login *login, struct fe2o3_scram_client *client,
    const uint8_t *server_first, size_t server_first_len, uint8_t *out, size_t out_size, size_t *out_len);
uint32_t fe2o3_scram_client_final(const struct fe2o3_login *login, struct fe2o3_scram_client *client,
    const uint8_t *server_first, size_t server_first_len, uint8_t *out, size_t out_size, size_t *out_len)
{
    uint32_t answer;
    struct fe2o3_login own_login = lent_login(login);
    BELOW_PAD(answer = proved_fe2o3_scram_client_final(&own_login, client, BYTES(server_first, server_first_len),
        server_first_len, BYTES(out, out_size), out_size, out_len));
    fe2o3_wipe(&own_login, sizeof own_login);
    clear_stack(depth_scram_client_final);
    return answer;
}

uint32_t proved_fe2o3_scram_client_verify(const struct fe2o3_login *login, struct fe2o3_scram_client *client,
    const uint8_t *server_final, size_t server_final_len);
uint32_t fe2o3_scram_client_verify(const struct fe2o3_login *login, struct fe2o3_scram_client *client,
    const uint8_t *server_final, size_t server_final_len)
{
    uint32_t answer;
    struct fe2o3_login own_login = lent_login(login);
    BELOW_PAD(answer = proved_fe2o3_scram_client_verify(&own_login, client, BYTES(server_final, server_final_len),
        server_final_len));
    fe2o3_wipe(&own_login, sizeof own_login);
    clear_stack(depth_scram_client_verify);
    return answer;
}

uint32_t proved_fe2o3_scram_client_get_keys(const struct fe2o3_scram_client *client, struct fe2o3_scram_keys *keys);
uint32_t fe2o3_scram_client_get_keys(const struct fe2o3_scram_client *client, struct fe2o3_scram_keys *keys)
{
    uint32_t answer;
    BELOW_PAD(answer = proved_fe2o3_scram_client_get_keys(client, keys));
    clear_stack(depth_scram_client_get_keys);
    return answer;
}

uint32_t proved_fe2o3_scram_server_claimed_user(const struct fe2o3_scram_rules *rules, const uint8_t *client_first,
    size_t client_first_len, uint8_t *out, size_t out_size, size_t *out_len);
uint32_t fe2o3_scram_server_claimed_user(const struct fe2o3_scram_rules *rules, const uint8_t *client_first,
    size_t client_first_len, uint8_t *out, size_t out_size, size_t *out_len)
{
    uint32_t answer;
    struct fe2o3_scram_rules own_rules = lent_scram_rules(rules);
    BELOW_PAD(answer = proved_fe2o3_scram_server_claimed_user(&own_rules, BYTES(client_first, client_first_len),
        client_first_len, BYTES(out, out_size), out_size, out_len));
    fe2o3_wipe(&own_rules, sizeof own_rules);
    clear_stack(depth_scram_server_claimed_user);
    return answer;
}

uint32_t proved_fe2o3_scram_server_claimed_identity(const struct fe2o3_scram_rules *rules, const uint8_t *client_first,
    size_t client_first_len, uint8_t *out, size_t out_size, size_t *out_len);
uint32_t fe2o3_scram_server_claimed_identity(const struct fe2o3_scram_rules *rules, const uint8_t *client_first,
    size_t client_first_len, uint8_t *out, size_t out_size, size_t *out_len)
{
    uint32_t answer;
    struct fe2o3_scram_rules own_rules = lent_scram_rules(rules);
    BELOW_PAD(answer = proved_fe2o3_scram_server_claimed_identity(&own_rules, BYTES(client_first, client_first_len),
        client_first_len, BYTES(out, out_size), out_size, out_len));
    fe2o3_wipe(&own_rules, sizeof own_rules);
    clear_stack(depth_scram_server_claimed_identity);
    return answer;
}

uint32_t proved_fe2o3_scram_server_first(const struct fe2o3_scram_rules *rules, const struct fe2o3_scram_record *kept,
    struct fe2o3_scram_server *server, const uint8_t nonce[32], const uint8_t *client_first, size_t client_first_len,
    uint8_t *out, size_t out_size, size_t *out_len);
uint32_t fe2o3_scram_server_first(const struct fe2o3_scram_rules *rules, const struct fe2o3_scram_record *kept,
    struct fe2o3_scram_server *server, const uint8_t nonce[32], const uint8_t *client_first, size_t client_first_len,
    uint8_t *out, size_t out_size, size_t *out_len)
{
    uint32_t answer;
    struct fe2o3_scram_rules own_rules = lent_scram_rules(rules);
    BELOW_PAD(answer = proved_fe2o3_scram_server_first(&own_rules, kept, server, nonce,
        BYTES(client_first, client_first_len), client_first_len, BYTES(out, out_size), out_size, out_len));
    fe2o3_wipe(&own_rules, sizeof own_rules);
    clear_stack(depth_scram_server_first);
    return answer;
}

uint32_t proved_fe2o3_scram_server_final(const struct fe2o3_scram_rules *rules, const struct fe2o3_scram_record *kept,
    struct fe2o3_scram_server *server, const uint8_t *client_final, size_t client_final_len, uint8_t *out,
    size_t out_size, size_t *out_len);
uint32_t fe2o3_scram_server_final(const struct fe2o3_scram_rules *rules, const struct fe2o3_scram_record *kept,
    struct fe2o3_scram_server *server, const uint8_t *client_final, size_t client_final_len, uint8_t *out,
    size_t out_size, size_t *out_len)
{
    uint32_t answer;
    struct fe2o3_scram_rules own_rules = lent_scram_rules(rules);
    BELOW_PAD(answer = proved_fe2o3_scram_server_final(&own_rules, kept, server, BYTES(client_final, client_final_len),
        client_final_len, BYTES(out, out_size), out_size, out_len));
    fe2o3_wipe(&own_rules, sizeof own_rules);
    clear_stack(depth_scram_server_final);
    return answer;
}

uint32_t proved_fe2o3_scram_server_authenticated_user(const struct fe2o3_scram_server *server, uint8_t *out,
    size_t out_size, size_t *out_len);
uint32_t fe2o3_scram_server_authenticated_user(const struct fe2o3_scram_server *server, uint8_t *out, size_t out_size,
    size_t *out_len)
{
    uint32_t answer;
    BELOW_PAD(answer = proved_fe2o3_scram_server_authenticated_user(server, BYTES(out, out_size), out_size, out_len));
    clear_stack(depth_scram_server_authenticated_user);
    return answer;
}

uint32_t proved_fe2o3_scram_server_acts_for(const struct fe2o3_scram_server *server, uint8_t *out, size_t out_size,
    size_t *out_len);
uint32_t fe2o3_scram_server_acts_for(const struct fe2o3_scram_server *server, uint8_t *out, size_t out_size,
    size_t *out_len)
{
    uint32_t answer;
    BELOW_PAD(answer = proved_fe2o3_scram_server_acts_for(server, BYTES(out, out_size), out_size, out_len));
    clear_stack(depth_scram_server_acts_for);
    return answer;
}

uint32_t proved_fe2o3_scram_server_error(const uint8_t *message, size_t message_len);
uint32_t fe2o3_scram_server_error(const uint8_t *message, size_t message_len)
{
    uint32_t answer;
    BELOW_PAD(answer = proved_fe2o3_scram_server_error(BYTES(message, message_len), message_len));
    clear_stack(depth_scram_server_error);
    return answer;
}

void proved_fe2o3_scram_server_error_text(uint32_t error, struct fe2o3_text *text);
void fe2o3_scram_server_error_text(uint32_t error, struct fe2o3_text *text)
{
    struct fe2o3_text own_text = FE2O3_TEXT_INIT;
    own_text.bytes = nothing;
    BELOW_PAD(proved_fe2o3_scram_server_error_text(error, &own_text));
    *text = own_text;
    clear_stack(depth_scram_server_error_text);
}

uint32_t proved_fe2o3_scram_server_error_message(uint32_t status, uint8_t *out, size_t out_size, size_t *out_len);
uint32_t fe2o3_scram_server_error_message(uint32_t status, uint8_t *out, size_t out_size, size_t *out_len)
{
    uint32_t answer;
    BELOW_PAD(answer = proved_fe2o3_scram_server_error_message(status, BYTES(out, out_size), out_size, out_len));
    clear_stack(depth_scram_server_error_message);
    return answer;
}

uint32_t proved_fe2o3_plain_message(const uint8_t *acts_for, size_t acts_for_len, const uint8_t *username,
    size_t username_len, const uint8_t *password, size_t password_len, uint8_t *out, size_t out_size, size_t *out_len);
uint32_t fe2o3_plain_message(const uint8_t *acts_for, size_t acts_for_len, const uint8_t *username, size_t username_len,
    const uint8_t *password, size_t password_len, uint8_t *out, size_t out_size, size_t *out_len)
{
    uint32_t answer;
    BELOW_PAD(answer = proved_fe2o3_plain_message(BYTES(acts_for, acts_for_len), acts_for_len,
        BYTES(username, username_len), username_len, BYTES(password, password_len), password_len, BYTES(out, out_size),
        out_size, out_len));
    clear_stack(depth_plain_message);
    return answer;
}

uint32_t proved_fe2o3_plain_claimed_user(const uint8_t *message, size_t message_len, uint8_t *out, size_t out_size,
    size_t *out_len);
uint32_t fe2o3_plain_claimed_user(const uint8_t *message, size_t message_len, uint8_t *out, size_t out_size,
    size_t *out_len)
{
    uint32_t answer;
    BELOW_PAD(answer = proved_fe2o3_plain_claimed_user(BYTES(message, message_len), message_len, BYTES(out, out_size),
        out_size, out_len));
    clear_stack(depth_plain_claimed_user);
    return answer;
}

uint32_t proved_fe2o3_plain_claimed_identity(const uint8_t *message, size_t message_len, uint8_t *out, size_t out_size,
    size_t *out_len);
uint32_t fe2o3_plain_claimed_identity(const uint8_t *message, size_t message_len, uint8_t *out, size_t out_size,
    size_t *out_len)
{
    uint32_t answer;
    BELOW_PAD(answer = proved_fe2o3_plain_claimed_identity(BYTES(message, message_len), message_len,
        BYTES(out, out_size), out_size, out_len));
    clear_stack(depth_plain_claimed_identity);
    return answer;
}

uint32_t proved_fe2o3_plain_verify(const struct fe2o3_scram_record *records, size_t records_count, uint32_t passwords,
    uint32_t iterations, uint32_t accept_authzid, const uint8_t *identities, size_t identities_len,
    const uint8_t *message, size_t message_len);
uint32_t fe2o3_plain_verify(const struct fe2o3_scram_record *records, size_t records_count, uint32_t passwords,
    uint32_t iterations, uint32_t accept_authzid, const uint8_t *identities, size_t identities_len,
    const uint8_t *message, size_t message_len)
{
    uint32_t answer;
    BELOW_PAD(answer = proved_fe2o3_plain_verify(RECORDS(records, records_count), records_count, passwords, iterations,
        accept_authzid, BYTES(identities, identities_len), identities_len, BYTES(message, message_len), message_len));
    clear_stack(depth_plain_verify);
    return answer;
}

uint32_t proved_fe2o3_external_verify(const uint8_t *authcid, size_t authcid_len, const uint8_t *message,
    size_t message_len);
uint32_t fe2o3_external_verify(const uint8_t *authcid, size_t authcid_len, const uint8_t *message, size_t message_len)
{
    uint32_t answer;
    BELOW_PAD(answer = proved_fe2o3_external_verify(BYTES(authcid, authcid_len), authcid_len,
        BYTES(message, message_len), message_len));
    clear_stack(depth_external_verify);
    return answer;
}

uint32_t proved_fe2o3_sasl_client_open(uint8_t *out, size_t out_size, size_t *out_len);
uint32_t fe2o3_sasl_client_open(uint8_t *out, size_t out_size, size_t *out_len)
{
    uint32_t answer;
    BELOW_PAD(answer = proved_fe2o3_sasl_client_open(BYTES(out, out_size), out_size, out_len));
    clear_stack(depth_sasl_client_open);
    return answer;
}

uint32_t proved_fe2o3_sasl_client_receive(const struct fe2o3_sasl_login *login, struct fe2o3_sasl_client *client,
    const uint8_t *bytes, size_t bytes_len, const uint8_t nonce[32], size_t *taken, uint8_t *out, size_t out_size,
    size_t *out_len);
uint32_t fe2o3_sasl_client_receive(const struct fe2o3_sasl_login *login, struct fe2o3_sasl_client *client,
    const uint8_t *bytes, size_t bytes_len, const uint8_t nonce[32], size_t *taken, uint8_t *out, size_t out_size,
    size_t *out_len)
{
    uint32_t answer;
    struct fe2o3_sasl_login own_login = lent_sasl_login(login);
    BELOW_PAD(answer = proved_fe2o3_sasl_client_receive(&own_login, client, BYTES(bytes, bytes_len), bytes_len, nonce,
        taken, BYTES(out, out_size), out_size, out_len));
    fe2o3_wipe(&own_login, sizeof own_login);
    clear_stack(depth_sasl_client_receive);
    return answer;
}

uint32_t proved_fe2o3_sasl_server_receive(const struct fe2o3_sasl_server_config *config,
    struct fe2o3_sasl_server *server, const uint8_t *bytes, size_t bytes_len, const uint8_t nonce[32], size_t *taken,
    uint8_t *out, size_t out_size, size_t *out_len);
uint32_t fe2o3_sasl_server_receive(const struct fe2o3_sasl_server_config *config, struct fe2o3_sasl_server *server,
    const uint8_t *bytes, size_t bytes_len, const uint8_t nonce[32], size_t *taken, uint8_t *out, size_t out_size,
    size_t *out_len)
{
    uint32_t answer;
    struct fe2o3_sasl_server_config own_config = lent_sasl_server_config(config);
    BELOW_PAD(answer = proved_fe2o3_sasl_server_receive(&own_config, server, BYTES(bytes, bytes_len), bytes_len, nonce,
        taken, BYTES(out, out_size), out_size, out_len));
    fe2o3_wipe(&own_config, sizeof own_config);
    clear_stack(depth_sasl_server_receive);
    return answer;
}

uint32_t proved_fe2o3_sasl_wants_nonce(const struct fe2o3_connection *connection);
uint32_t fe2o3_sasl_wants_nonce(const struct fe2o3_connection *connection)
{
    uint32_t answer;
    BELOW_PAD(answer = proved_fe2o3_sasl_wants_nonce(connection));
    clear_stack(depth_sasl_wants_nonce);
    return answer;
}

uint32_t proved_fe2o3_sasl_peek_frame(const struct fe2o3_connection *connection, const uint8_t *bytes, size_t bytes_len,
    uint8_t *out, size_t out_size, size_t *out_len);
uint32_t fe2o3_sasl_peek_frame(const struct fe2o3_connection *connection, const uint8_t *bytes, size_t bytes_len,
    uint8_t *out, size_t out_size, size_t *out_len)
{
    uint32_t answer;
    BELOW_PAD(answer = proved_fe2o3_sasl_peek_frame(connection, BYTES(bytes, bytes_len), bytes_len,
        BYTES(out, out_size), out_size, out_len));
    clear_stack(depth_sasl_peek_frame);
    return answer;
}

void proved_fe2o3_sasl_end_of_input(struct fe2o3_connection *connection);
void fe2o3_sasl_end_of_input(struct fe2o3_connection *connection)
{
    BELOW_PAD(proved_fe2o3_sasl_end_of_input(connection));
    clear_stack(depth_sasl_end_of_input);
}

uint32_t proved_fe2o3_sasl_view_frame(const uint8_t *body, size_t body_len, struct fe2o3_sasl_frame_view *view);
uint32_t fe2o3_sasl_view_frame(const uint8_t *body, size_t body_len, struct fe2o3_sasl_frame_view *view)
{
    uint32_t answer;
    struct fe2o3_sasl_frame_view own_view = FE2O3_SASL_FRAME_VIEW_INIT;
    own_view.mechanism = nothing;
    own_view.message = nothing;
    own_view.hostname = nothing;
    BELOW_PAD(answer = proved_fe2o3_sasl_view_frame(BYTES(body, body_len), body_len, &own_view));
    if (answer == FE2O3_OK) *view = own_view;
    clear_stack(depth_sasl_view_frame);
    return answer;
}

uint32_t proved_fe2o3_sasl_offers(const uint8_t *body, size_t body_len, const uint8_t *mechanism, size_t mechanism_len);
uint32_t fe2o3_sasl_offers(const uint8_t *body, size_t body_len, const uint8_t *mechanism, size_t mechanism_len)
{
    uint32_t answer;
    BELOW_PAD(answer = proved_fe2o3_sasl_offers(BYTES(body, body_len), body_len, BYTES(mechanism, mechanism_len),
        mechanism_len));
    clear_stack(depth_sasl_offers);
    return answer;
}
