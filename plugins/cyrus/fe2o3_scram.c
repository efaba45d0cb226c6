/* SCRAM-SHA-1, SCRAM-SHA-256 and SCRAM-SHA-512 for Cyrus SASL (libsasl2), client and server, over the library of
 * crates/sasl_c. README.md says how it is installed, and where it differs from the plugin of Cyrus SASL. */
#define _DEFAULT_SOURCE
#include "fe2o3_sasl.h"
#include "prompts.h"

#include <sasl/sasl.h>
#include <sasl/saslplug.h>
#include <stdlib.h>
#include <string.h>
#include <unistd.h>

/* The least count that RFC 7677, section 4, allows, which a record made at login has; and the most that is hashed. */
#define LEAST_ITERATIONS 4096
#define MOST_ITERATIONS 1000000
#define SALT_LEN 16

/* Those of Cyrus SASL's own plugin, and its features. */
#define SECURITY(bits) \
    (SASL_SET_HASH_STRENGTH_BITS(bits) | SASL_SEC_NOPLAINTEXT | SASL_SEC_NOACTIVE | SASL_SEC_NOANONYMOUS \
        | SASL_SEC_MUTUAL_AUTH)
#define FEATURES (SASL_FEAT_SUPPORTS_HTTP | SASL_FEAT_CHANNEL_BINDING | SASL_FEAT_ALLOWS_PROXY)
#define EXPORTED __attribute__((visibility("default")))
#define UNUSED __attribute__((unused))

#define BYTES(text, len) (const uint8_t *)(text), (len)
#define ROOM(one) (one)->out, sizeof((one)->out), &(one)->out_len

struct mechanism {
    const char *name;
    uint32_t version;
    unsigned security;
};

enum { MECHANISMS = 3 };
static const struct mechanism mechanisms[MECHANISMS] = {
    {"SCRAM-SHA-512", FE2O3_SHA_512, SECURITY(512)},
    {"SCRAM-SHA-256", FE2O3_SHA_256, SECURITY(256)},
    {"SCRAM-SHA-1", FE2O3_SHA_1, SECURITY(160)},
};

/* Which message is expected of this side. An exchange that was refused has ended. */
enum expected { FIRST, SECOND, THIRD, ENDED };

/* Either side of an exchange, and the message that it wrote last. */
struct exchange {
    const struct mechanism *mechanism;
    enum expected expected;
    int asked, prepares, acts; /* acts: whether the client names an identity other than its own name */
    sasl_cbinding_disp_t channel; /* of the server: what the client's header says of the channel */
    struct fe2o3_scram_client client;
    struct fe2o3_scram_server server;
    struct fe2o3_scram_record record;
    size_t password_len, out_len;
    char password[1024];
    uint8_t out[4096];
};

/* The salts that go with passwords are made of it, so that a name keeps its salt as long as the process lives. */
static uint8_t secret[32];

static int code_of(uint32_t status)
{
    switch (status) {
    case FE2O3_OUT_OF_MEMORY: return SASL_NOMEM;
    case FE2O3_ROOM_TOO_SMALL:
    case FE2O3_TOO_LONG: return SASL_BUFOVER;
    case FE2O3_NOT_PRINTABLE:
    case FE2O3_PROHIBITED_CHARACTER:
    case FE2O3_MIXED_DIRECTIONS: return SASL_NOVERIFY;
    case FE2O3_UNASSIGNED_CODE_POINT: return SASL_NOVERIFY;
    case FE2O3_NOT_UTF8:
    case FE2O3_CLIENT_NORMALIZE_ERROR: return SASL_BADPARAM;
    case FE2O3_CLIENT_SERVER_SIGNATURE_MISMATCH: return SASL_BADSERV;
    case FE2O3_SERVER_AUTHENTICATION_FAILED: return SASL_BADAUTH;
    default: return SASL_BADPROT;
    }
}

static int refused(const struct exchange *one, const sasl_utils_t *utils, int code, const char *why)
{
    utils->seterror(utils->conn, 0, "%s: %s", one->mechanism->name, why);
    return code;
}

/* The code of a status. The text of a refusal is told, and that of a typed password is plainer. */
static int told(const struct exchange *one, const sasl_utils_t *utils, uint32_t status)
{
    struct fe2o3_text text = FE2O3_TEXT_INIT;
    fe2o3_status_text(status == FE2O3_CLIENT_NORMALIZE_ERROR ? FE2O3_NOT_PRINTABLE : status, &text);
    return status == FE2O3_OK ? SASL_OK : refused(one, utils, code_of(status), (const char *)text.bytes);
}

/* Whether an option is on, by the words that libsasl2 takes for that. */
static int is_on(const struct exchange *one, const sasl_utils_t *utils, const char *option)
{
    const char *text = NULL;
    utils->getopt(utils->getopt_context, one->mechanism->name, option, &text, NULL);
    return text && (*text == '1' || *text == 'y' || *text == 't' || strncmp(text, "on", 2) == 0);
}

/* Puts what a password is prepared to (RFC 4013) in its place, where scram_saslprep says so. */
static int prepare(struct exchange *one, const sasl_utils_t *utils, const char **password, size_t *len,
    uint32_t unassigned)
{
    const char *text = *password;
    uint32_t status;
    one->prepares = is_on(one, utils, "scram_saslprep");
    if (!one->prepares)
        return SASL_OK;
    *password = one->password;
    status = fe2o3_saslprep(BYTES(text, *len), unassigned, (uint8_t *)one->password, sizeof one->password, len);
    if (status == FE2O3_ROOM_TOO_SMALL)
        return refused(one, utils, SASL_BUFOVER, "the password is too long");
    return told(one, utils, status);
}

static int begin(const void *mechanism, const sasl_utils_t *utils, void **context)
{
    struct exchange *one = utils->calloc(1, sizeof *one);
    if (one)
        one->mechanism = mechanism;
    *context = one;
    return one ? SASL_OK : SASL_NOMEM;
}

static void dispose(void *context, const sasl_utils_t *utils)
{
    if (!context)
        return;
    utils->erasebuffer(context, sizeof(struct exchange));
    utils->free(context);
}

static int complete(sasl_out_params_t *result, sasl_cbinding_disp_t channel, const sasl_channel_binding_t *binding)
{
    result->doneflag = 1;
    result->mech_ssf = result->maxoutbuf = 0;
    result->encode = NULL;
    result->decode = NULL;
    result->cbindingdisp = channel;
    result->cbindingname = channel == SASL_CB_DISP_USED ? binding->name : NULL;
    return SASL_OK;
}

/* A channel under its registered name: its kind, or 0 if it is not known, and its data. */
struct channel {
    const char *name;
    uint32_t kind;
    const char *data;
    size_t len;
};

/* The application's channel. OpenLDAP gives every channel the name `ldap`, and puts the registered name and a colon before
 * its data. */
static struct channel channel_of(const sasl_channel_binding_t *binding)
{
    static const struct channel known[] = {{"tls-unique", FE2O3_TLS_UNIQUE, NULL, 0},
        {"tls-server-end-point", FE2O3_TLS_SERVER_END_POINT, NULL, 0}, {"tls-exporter", FE2O3_TLS_EXPORTER, NULL, 0}};
    struct channel found = {binding->name, 0, (const char *)binding->data, binding->len};
    const char *name = found.name, *colon = NULL;
    size_t len = strlen(name);
    if (strcmp(name, "ldap") == 0 && found.len > 0)
        colon = memchr(found.data, ':', found.len);
    if (colon) {
        name = found.data;
        len = (size_t)(colon - name);
        found.data = colon + 1;
        found.len -= len + 1;
    }
    for (size_t i = 0; i < sizeof known / sizeof known[0]; i++)
        if (strlen(known[i].name) == len && memcmp(known[i].name, name, len) == 0) {
            found.name = known[i].name;
            found.kind = known[i].kind;
        }
    return found;
}

/* Reads the application's channel. Its kind is not known, or its data are too long: SASL_BADPARAM. */
static int read_channel(const struct exchange *one, const sasl_utils_t *utils, const sasl_channel_binding_t *binding,
    struct channel *channel)
{
    static const struct fe2o3_login login;
    *channel = binding ? channel_of(binding) : (struct channel){0};
    if (!channel->kind)
        return refused(one, utils, SASL_BADPARAM, "this kind of channel binding is not known");
    if (channel->len == 0 || channel->len > sizeof login.channel_data)
        return refused(one, utils, SASL_BADPARAM, "the data of the channel are empty or have more than 64 bytes");
    return SASL_OK;
}

/* The client. Passes the names to libsasl2, which makes them canonical. A client that is to act for another never acts for
 * itself in its place. */
static int pass_names(const struct exchange *one, const sasl_client_params_t *params, const struct question *name,
    const struct question *user, sasl_out_params_t *result)
{
    sasl_conn_t *conn = params->utils->conn;
    unsigned whose = one->acts ? SASL_CU_AUTHID : SASL_CU_AUTHID | SASL_CU_AUTHZID;
    int code = params->canon_user(conn, name->text, (unsigned)name->len, whose, result);
    if (code == SASL_OK && one->acts)
        code = params->canon_user(conn, user->text, (unsigned)user->len, SASL_CU_AUTHZID, result);
    if (code == SASL_OK && one->acts && result->ulen == 0)
        return refused(one, params->utils, SASL_BADPARAM, "the authorization identity is empty");
    return code;
}

/* Learns who logs in, and keeps the password until it is used. */
static int identify(struct exchange *one, sasl_client_params_t *params, sasl_interact_t **prompts,
    sasl_out_params_t *result)
{
    const sasl_utils_t *utils = params->utils;
    struct question asked[QUESTIONS] = {{SASL_CB_AUTHNAME, "Please enter your authentication name", NULL, 0},
        {SASL_CB_USER, "Please enter your authorization name", NULL, 0},
        {SASL_CB_PASS, "Please enter your password", NULL, 0}};
    struct question *name = &asked[0], *user = &asked[1], *word = &asked[2];
    int code = ask_all(utils, prompts, asked);
    if (code != SASL_OK)
        return code;
    if (name->len == 0 || memchr(name->text, 0, name->len))
        return refused(one, utils, SASL_BADPARAM, "the name of the user is empty, or has a zero byte");
    if (user->len > 0 && memchr(user->text, 0, user->len))
        return refused(one, utils, SASL_BADPARAM, "the authorization identity has a zero byte");
    one->acts = user->len > 0 && (user->len != name->len || memcmp(user->text, name->text, name->len) != 0);
    code = prepare(one, utils, &word->text, &word->len, FE2O3_UNASSIGNED_ALLOWED);
    if (code != SASL_OK)
        return code == SASL_NOVERIFY ? SASL_BADPARAM : code;
    if (word->len > sizeof one->password)
        return refused(one, utils, SASL_BUFOVER, "the password is too long");
    memmove(one->password, word->text, word->len);
    one->password_len = word->len;
    return pass_names(one, params, name, user, result);
}

/* Puts into the login what the client says of its channel, as libsasl2 has decided it by the server's mechanisms. */
static int say_channel(const struct exchange *one, const sasl_client_params_t *params, struct fe2o3_login *login)
{
    struct channel channel;
    int code;
    if (params->cbindingdisp == SASL_CB_DISP_WANT)
        login->channel_use = FE2O3_CHANNEL_NOT_OFFERED;
    if (params->cbindingdisp != SASL_CB_DISP_USED)
        return SASL_OK;
    code = read_channel(one, params->utils, params->cbinding, &channel);
    if (code != SASL_OK)
        return code;
    login->channel_use = FE2O3_CHANNEL_BOUND;
    login->channel_kind = channel.kind;
    login->channel_data_len = (uint32_t)channel.len;
    memcpy(login->channel_data, channel.data, channel.len);
    return SASL_OK;
}

/* Writes the message that is expected, or believes the server. */
static int client_answer(struct exchange *one, enum expected expected, const sasl_client_params_t *params,
    const sasl_out_params_t *who, const char *in, unsigned in_len)
{
    static const struct fe2o3_scram_keys no_keys;
    const sasl_utils_t *utils = params->utils;
    struct fe2o3_login login = {.version = one->mechanism->version,
        .secret = FE2O3_BY_PASSWORD,
        .form = one->prepares ? FE2O3_PREPARED : FE2O3_TYPED,
        .min_iterations = LEAST_ITERATIONS,
        .max_iterations = MOST_ITERATIONS,
        .username = (const uint8_t *)who->authid,
        .username_len = who->alen,
        .acts_for = (const uint8_t *)who->user,
        .acts_for_len = one->acts ? who->ulen : 0,
        .password = (const uint8_t *)one->password,
        .password_len = one->password_len,
        .keys = &no_keys};
    uint8_t nonce[32];
    int code = expected == ENDED ? SASL_OK : say_channel(one, params, &login);
    if (code != SASL_OK)
        return code;
    switch (expected) {
    case FIRST:
        if (getentropy(nonce, sizeof nonce) != 0)
            return refused(one, utils, SASL_FAIL, "there are no random bytes");
        return told(one, utils, fe2o3_scram_client_first(&login, &one->client, nonce, ROOM(one)));
    case SECOND: return told(one, utils, fe2o3_scram_client_final(&login, &one->client, BYTES(in, in_len), ROOM(one)));
    case THIRD:
        if (in_len >= 2 && memcmp(in, "e=", 2) == 0)
            return refused(one, utils, SASL_BADAUTH, "the server has refused the login");
        return told(one, utils, fe2o3_scram_client_verify(&login, &one->client, BYTES(in, in_len)));
    default: return refused(one, utils, SASL_FAIL, "the exchange has ended");
    }
}

static int client_step(void *context, sasl_client_params_t *params, const char *in, unsigned in_len,
    sasl_interact_t **prompts, const char **out, unsigned *out_len, sasl_out_params_t *result)
{
    struct exchange *one = context;
    enum expected expected = one->expected;
    int code = expected == FIRST ? identify(one, params, prompts, result) : SASL_OK;
    if (code == SASL_INTERACT)
        return code;
    one->expected = ENDED;
    if (code == SASL_OK)
        code = client_answer(one, expected, params, result, in ? in : "", in_len);
    if (code != SASL_OK || expected == SECOND)
        params->utils->erasebuffer(one->password, sizeof one->password);
    if (code != SASL_OK || expected == THIRD)
        return code == SASL_OK ? complete(result, params->cbindingdisp, params->cbinding) : code;
    one->expected = expected + 1;
    *out = (const char *)one->out;
    *out_len = (unsigned)one->out_len;
    return SASL_CONTINUE;
}

static int client_new(void *mechanism, sasl_client_params_t *params, void **context)
{
    return begin(mechanism, params->utils, context);
}

EXPORTED int sasl_client_plug_init(const sasl_utils_t *utils UNUSED, int most, int *version, sasl_client_plug_t **list,
    int *count)
{
    static sasl_client_plug_t plugs[MECHANISMS];
    for (int i = 0; i < MECHANISMS; i++)
        plugs[i] = (sasl_client_plug_t){.mech_name = mechanisms[i].name,
            .security_flags = mechanisms[i].security,
            .features = FEATURES,
            .glob_context = (void *)&mechanisms[i],
            .mech_new = client_new,
            .mech_step = client_step,
            .mech_dispose = dispose};
    *version = SASL_CLIENT_PLUG_VERSION;
    *list = plugs;
    *count = MECHANISMS;
    return most < SASL_CLIENT_PLUG_VERSION ? SASL_BADVERS : SASL_OK;
}

/* The server. The option scram_iteration_counter, where it is a count that a client of this plugin takes. */
static uint32_t iterations(const sasl_utils_t *utils, const char *mechanism)
{
    const char *text = NULL;
    char *end = NULL;
    unsigned long count;
    utils->getopt(utils->getopt_context, mechanism, "scram_iteration_counter", &text, NULL);
    count = text ? strtoul(text, &end, 10) : LEAST_ITERATIONS;
    if (!text || (*end == 0 && count >= LEAST_ITERATIONS && count <= MOST_ITERATIONS))
        return (uint32_t)count;
    utils->log(utils->conn, SASL_LOG_WARN, "%s: scram_iteration_counter is not from %d to %d, and %d is taken",
        mechanism, LEAST_ITERATIONS, MOST_ITERATIONS, LEAST_ITERATIONS);
    return LEAST_ITERATIONS;
}

/* Makes the record of a password, with the salt that a made-up record has for the name. */
static int from_password(struct exchange *one, const sasl_utils_t *utils, const char *password,
    const sasl_out_params_t *who)
{
    uint32_t version = one->mechanism->version, count = iterations(utils, one->mechanism->name), status;
    uint8_t salt[SALT_LEN];
    size_t len = strlen(password);
    int code = prepare(one, utils, &password, &len, FE2O3_UNASSIGNED_REFUSED);
    if (code != SASL_OK)
        return code == SASL_BADPARAM ? SASL_NOVERIFY : code;
    if (len == 0)
        return refused(one, utils, SASL_NOVERIFY, "the password of the user is empty");
    status = fe2o3_scram_record_mock(version, secret, sizeof secret, BYTES(who->authid, who->alen), SALT_LEN, count,
        &one->record);
    memcpy(salt, one->record.salt, SALT_LEN);
    if (status == FE2O3_OK)
        status = fe2o3_scram_record_make(version, one->prepares ? FE2O3_PREPARED : FE2O3_TYPED, BYTES(password, len),
            salt, SALT_LEN, count, &one->record);
    utils->erasebuffer(one->password, sizeof one->password);
    return told(one, utils, status == FE2O3_NOT_UTF8 ? FE2O3_NOT_PRINTABLE : status);
}

/* Fetches what the server knows of a user: the password, or else the record of it for this mechanism. An identity that the
 * user acts for is looked up after the proof. */
static int look_up(struct exchange *one, sasl_server_params_t *params, const char *name, size_t name_len,
    sasl_out_params_t *result)
{
    static const char *wanted[] = {SASL_AUX_PASSWORD, "*authPassword", NULL};
    const sasl_utils_t *utils = params->utils;
    struct propval found[3] = {{0}};
    const char **stored;
    unsigned whose = one->acts ? SASL_CU_AUTHID : SASL_CU_AUTHID | SASL_CU_AUTHZID;
    int code = utils->prop_request(params->propctx, wanted);
    if (code == SASL_OK)
        code = params->canon_user(utils->conn, name, (unsigned)name_len, whose, result);
    if (code != SASL_OK)
        return code;
    if (utils->prop_getnames(params->propctx, wanted, found) < 0)
        return refused(one, utils, SASL_FAIL, "the properties of the user cannot be read");
    if (found[0].values && found[0].values[0]) {
        code = from_password(one, utils, found[0].values[0], result);
        utils->prop_erase(params->propctx, SASL_AUX_PASSWORD);
        return code;
    }
    for (stored = found[1].values; stored && *stored; stored++)
        if (fe2o3_scram_record_parse(BYTES(*stored, strlen(*stored)), &one->record) == FE2O3_OK
            && one->record.version == one->mechanism->version)
            return SASL_OK;
    return refused(one, utils, params->transition ? SASL_TRANS : stored ? SASL_NOVERIFY : SASL_NOUSER, "no secret");
}

/* Whether a client-first message binds a channel of this kind. */
static int binds_kind(const char *in, unsigned in_len, const char *kind)
{
    size_t len = strlen(kind);
    return in_len > len + 2 && memcmp(in + 2, kind, len) == 0 && in[len + 2] == ',';
}

/* Why the header of a client-first message is refused. */
static const char *why_header(const struct exchange *one, const sasl_server_params_t *params, const char *in,
    unsigned in_len)
{
    const char *comma = memchr(in, ',', in_len);
    if (one->channel == SASL_CB_DISP_WANT && SASL_CB_PRESENT(params))
        return "the client assumes that the server supports no channel binding";
    if (one->channel == SASL_CB_DISP_USED && !params->cbinding)
        return "the server has no channel to bind";
    if (one->channel == SASL_CB_DISP_USED && binds_kind(in, in_len, "ldap"))
        return "the client binds its channel under OpenLDAP's name for it";
    if (one->channel == SASL_CB_DISP_USED && !binds_kind(in, in_len, channel_of(params->cbinding).name))
        return "the client binds another kind of channel";
    if (comma && in + in_len - comma >= 3 && memcmp(comma, ",a=", 3) == 0)
        return "the authorization identity is empty, has a zero byte or a wrong escape";
    return "the message does not begin with n,,";
}

/* Puts into the rules what the server accepts after a client's header: `y,,` only without a channel (RFC 5802, section 6),
 * and `p=` only with the application's channel. If there is a channel, every header has to stay in its place, so that
 * nobody moves from one message to another what a client says of its channel. */
static int accept_channel(const struct exchange *one, const sasl_server_params_t *params,
    struct fe2o3_scram_rules *rules)
{
    const sasl_channel_binding_t *binding = params->cbinding;
    struct channel channel;
    int code;
    rules->reject_misplaced = binding != NULL;
    if (one->channel == SASL_CB_DISP_WANT)
        rules->accept_cbind_flag_y = !binding;
    if (one->channel != SASL_CB_DISP_USED || !binding)
        return SASL_OK;
    code = read_channel(one, params->utils, binding, &channel);
    if (code != SASL_OK)
        return code;
    rules->channels.binds_channel = 1;
    if (channel.kind == FE2O3_TLS_UNIQUE) {
        rules->channels.tls_unique_len = (uint32_t)channel.len;
        memcpy(rules->channels.tls_unique, channel.data, channel.len);
    } else if (channel.kind == FE2O3_TLS_SERVER_END_POINT) {
        rules->channels.tls_server_end_point_len = (uint32_t)channel.len;
        memcpy(rules->channels.tls_server_end_point, channel.data, channel.len);
    } else {
        rules->channels.tls_exporter_len = (uint32_t)channel.len;
        memcpy(rules->channels.tls_exporter, channel.data, channel.len);
    }
    return SASL_OK;
}

/* Writes the user name that a client-first message claims, and notes whether it names an identity other than this name. */
static uint32_t read_names(struct exchange *one, const struct fe2o3_scram_rules *rules, const char *in, unsigned in_len,
    uint8_t name[sizeof one->server.user], size_t *len)
{
    uint8_t identity[sizeof one->server.acts_for];
    size_t identity_len = 0;
    uint32_t status = fe2o3_scram_server_claimed_user(rules, BYTES(in, in_len), name, sizeof one->server.user, len);
    if (status == FE2O3_OK)
        status =
            fe2o3_scram_server_claimed_identity(rules, BYTES(in, in_len), identity, sizeof identity, &identity_len);
    one->acts = identity_len > 0 && (identity_len != *len || memcmp(identity, name, *len) != 0);
    return status;
}

static int server_first(struct exchange *one, sasl_server_params_t *params, const char *in, unsigned in_len,
    sasl_out_params_t *result)
{
    const sasl_utils_t *utils = params->utils;
    struct fe2o3_scram_rules rules = {.accept_authzid = 1, .identities = FE2O3_NONE};
    uint8_t name[sizeof one->server.user + 1], nonce[32];
    size_t len = 0;
    uint32_t status;
    int code;
    one->channel = in_len > 0 && *in == 'p' ? SASL_CB_DISP_USED
        : in_len > 0 && *in == 'y'          ? SASL_CB_DISP_WANT
                                            : SASL_CB_DISP_NONE;
    code = accept_channel(one, params, &rules);
    if (code != SASL_OK)
        return code;
    status = read_names(one, &rules, in, in_len, name, &len);
    if (status == FE2O3_OK && one->channel == SASL_CB_DISP_WANT && SASL_CB_PRESENT(params))
        status = FE2O3_SERVER_CANNOT_PARSE_GS2_HEADER;
    if (status == FE2O3_SERVER_CANNOT_PARSE_GS2_HEADER)
        return refused(one, utils, SASL_BADPROT, why_header(one, params, in, in_len));
    if (status != FE2O3_OK)
        return told(one, utils, status);
    if (len == 0 || memchr(name, 0, len))
        return refused(one, utils, SASL_BADPROT, "the name of the user is empty, or has a zero byte");
    name[len] = 0;
    code = look_up(one, params, (const char *)name, len, result);
    if (code == SASL_OK && getentropy(nonce, sizeof nonce) != 0)
        code = refused(one, utils, SASL_FAIL, "there are no random bytes");
    if (code != SASL_OK)
        return code;
    status = fe2o3_scram_server_first(&rules, &one->record, &one->server, nonce, BYTES(in, in_len), ROOM(one));
    return told(one, utils, status);
}

/* Tests the proof, with the identity that the client named as one that the user may act for: libsasl2 asks the application
 * for this right (SASL_CB_PROXY_POLICY) once it has the names of both. */
static int server_final(struct exchange *one, const sasl_server_params_t *params, const char *in, unsigned in_len,
    sasl_out_params_t *result)
{
    struct fe2o3_scram_rules rules = {.accept_authzid = 1};
    uint8_t identity[sizeof one->server.acts_for + 1];
    uint32_t len = one->server.acts_for_len;
    int code = accept_channel(one, params, &rules);
    if (code != SASL_OK)
        return code;
    memcpy(identity, one->server.acts_for, len);
    identity[len] = 0;
    rules.identities = identity;
    rules.identities_len = len > 0 ? len + 1 : 0;
    code = told(one, params->utils,
        fe2o3_scram_server_final(&rules, &one->record, &one->server, BYTES(in, in_len), ROOM(one)));
    if (code == SASL_OK && one->acts)
        code = params->canon_user(params->utils->conn, (const char *)identity, len, SASL_CU_AUTHZID, result);
    return code;
}

static int server_step(void *context, sasl_server_params_t *params, const char *in, unsigned in_len, const char **out,
    unsigned *out_len, sasl_out_params_t *result)
{
    struct exchange *one = context;
    enum expected expected = one ? one->expected : ENDED;
    int code = SASL_FAIL;
    if (!one)
        return SASL_BADPROT;
    if (expected == FIRST && in_len == 0 && one->asked++ == 0)
        return SASL_CONTINUE;
    one->expected = ENDED;
    if (expected == FIRST)
        code = server_first(one, params, in ? in : "", in_len, result);
    else if (expected == SECOND)
        code = server_final(one, params, in ? in : "", in_len, result);
    if (code != SASL_OK)
        return code;
    *out = (const char *)one->out;
    *out_len = (unsigned)one->out_len;
    if (expected == SECOND)
        return complete(result, one->channel, params->cbinding);
    one->expected = SECOND;
    return SASL_CONTINUE;
}

static int server_new(void *mechanism, sasl_server_params_t *params, const char *challenge UNUSED,
    unsigned challenge_len UNUSED, void **context)
{
    return begin(mechanism, params->utils, context);
}

EXPORTED int sasl_server_plug_init(const sasl_utils_t *utils UNUSED, int most, int *version, sasl_server_plug_t **list,
    int *count)
{
    static sasl_server_plug_t plugs[MECHANISMS];
    for (int i = 0; i < MECHANISMS; i++)
        plugs[i] = (sasl_server_plug_t){.mech_name = mechanisms[i].name,
            .security_flags = mechanisms[i].security,
            .features = FEATURES,
            .glob_context = (void *)&mechanisms[i],
            .mech_new = server_new,
            .mech_step = server_step,
            .mech_dispose = dispose};
    *version = SASL_SERVER_PLUG_VERSION;
    *list = plugs;
    *count = MECHANISMS;
    if (most < SASL_SERVER_PLUG_VERSION)
        return SASL_BADVERS;
    return getentropy(secret, sizeof secret) == 0 ? SASL_OK : SASL_FAIL;
}
