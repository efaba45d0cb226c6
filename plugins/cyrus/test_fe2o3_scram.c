/* Logins through libsasl2, client and server in one program, each side by the plugins of a folder of its own:
 *
 *   test_fe2o3_scram CLIENT-FOLDER ours|theirs SERVER-FOLDER ours|theirs
 *
 * Theirs is the SCRAM of Cyrus SASL. Prints what is not as it should be, and counts; ends with 1 where something is
 * not. What theirs answers was read in its source, and is tested along. */
#include "test_rows.h"

#include <sasl/sasl.h>
#include <sasl/saslplug.h>
#include <sasl/saslutil.h>
#include <stdio.h>
#include <stdlib.h>
#include <string.h>

#define CALL(function) (int (*)(void))(void (*)(void))(function)

static const struct login *now;
static int ours_client, ours_server, differences, told, exchanges, policy_calls;
static const char *mechanism;
static enum side refuse_memory;

/* The name that a user has at the server, without the spaces around it. */
static int is_name(const char *name, const char *text, size_t len)
{
    name += strspn(name, " ");
    return strcspn(name, " ") == len && memcmp(name, text, len) == 0;
}

/* The users of the server, in a plugin of properties that is part of this program. The property "identity" is of the one
 * whom the client acts for. */
static int fetch(void *context, sasl_server_params_t *params, unsigned flags, const char *name, unsigned len)
{
    const struct user *user = NULL;
    struct propctx *properties = params->propctx;
    (void)context;
    for (size_t i = 0; i < sizeof users / sizeof users[0]; i++)
        if (strlen(users[i].name) == len && memcmp(users[i].name, name, len) == 0)
            user = &users[i];
    if (!user)
        return SASL_NOUSER;
    for (const struct propval *wanted = params->utils->prop_get(properties); wanted->name; wanted++) {
        if (flags & SASL_AUXPROP_AUTHZID) {
            if (strcmp(wanted->name, "identity") == 0 && !wanted->values)
                params->utils->prop_set(properties, wanted->name, user->name, -1);
            continue;
        }
        if (strcmp(wanted->name, SASL_AUX_PASSWORD) == 0 && user->password)
            params->utils->prop_set(properties, wanted->name, user->password, -1);
        if (strcmp(wanted->name, "*authPassword") == 0 && user->records[0]) {
            params->utils->prop_set(properties, wanted->name, user->records[0], -1);
            for (int i = 1; user->records[i]; i++)
                params->utils->prop_set(properties, NULL, user->records[i], -1);
        }
    }
    return SASL_OK;
}

static int store(void *context, sasl_server_params_t *params, struct propctx *properties, const char *name,
    unsigned len)
{
    (void)context;
    (void)params;
    (void)name;
    (void)len;
    return properties ? SASL_FAIL : SASL_OK;
}

static int properties_init(const sasl_utils_t *utils, int most, int *version, sasl_auxprop_plug_t **plug,
    const char *name)
{
    static char own_name[] = "in_memory";
    static sasl_auxprop_plug_t own = {.name = own_name, .auxprop_lookup = fetch, .auxprop_store = store};
    (void)utils;
    (void)name;
    *version = SASL_AUXPROP_PLUG_VERSION;
    *plug = &own;
    return most < SASL_AUXPROP_PLUG_VERSION ? SASL_BADVERS : SASL_OK;
}

/* Memory for libsasl2. The exchange is the one large block that a plugin asks for as it begins. */
static void *zeros(size_t count, size_t size)
{
    return refuse_memory != NEITHER && count * size > 4096 ? NULL : calloc(count, size);
}

/* What the two sides ask of their application. */
static int get_path(void *folder, const char **path)
{
    *path = folder;
    return SASL_OK;
}

static int quiet(void *context, int level, const char *message)
{
    (void)context;
    if (getenv("LOUD"))
        fprintf(stderr, "[%d] %s\n", level, message);
    return SASL_OK;
}

static int get_option(void *context, const char *plugin, const char *option, const char **value, unsigned *len)
{
    (void)context;
    *value = NULL;
    if (strcmp(option, "auxprop_plugin") == 0)
        *value = "in_memory";
    else if (strcmp(option, "auto_transition") == 0 && now && now->flags & TRANSITION)
        *value = "yes";
    else if (strcmp(option, "scram_saslprep") == 0 && now && now->flags & PREPARES)
        *value = "on";
    else if (strcmp(option, "scram_iteration_counter") == 0 && now && plugin && strcmp(plugin, mechanism) == 0)
        *value = now->counter;
    if (len && *value)
        *len = (unsigned)strlen(*value);
    return *value ? SASL_OK : SASL_FAIL;
}

static int get_name(void *context, int id, const char **name, unsigned *len)
{
    (void)context;
    *name = id == SASL_CB_AUTHNAME ? now->name : now->user ? now->user : "";
    if (len)
        *len = (unsigned)strlen(*name);
    return SASL_OK;
}

static int get_password(sasl_conn_t *conn, void *context, int id, sasl_secret_t **password)
{
    static sasl_secret_t *kept;
    size_t len = strlen(now->password);
    (void)conn;
    (void)context;
    (void)id;
    if (now->flags & NO_PASSWORD) {
        *password = NULL;
        return SASL_OK;
    }
    free(kept);
    kept = malloc(sizeof *kept + len);
    if (!kept)
        return SASL_NOMEM;
    kept->len = len;
    memcpy(kept->data, now->password, len + 1);
    *password = kept;
    return SASL_OK;
}

/* The policy of a server that has one: whether the user may act for the identity. */
static int may_act(sasl_conn_t *conn, void *context, const char *identity, unsigned identity_len, const char *name,
    unsigned len, const char *realm, unsigned realm_len, struct propctx *properties)
{
    (void)conn;
    (void)context;
    (void)realm;
    (void)realm_len;
    (void)properties;
    policy_calls++;
    return now->flags & ALLOWS && is_name(now->user, identity, identity_len) && is_name(now->name, name, len)
        ? SASL_OK
        : SASL_NOAUTHZ;
}

static sasl_callback_t client_calls[] = {{SASL_CB_GETPATH, CALL(get_path), NULL}, {SASL_CB_LOG, CALL(quiet), NULL},
    {SASL_CB_GETOPT, CALL(get_option), NULL}, {SASL_CB_USER, CALL(get_name), NULL},
    {SASL_CB_AUTHNAME, CALL(get_name), NULL}, {SASL_CB_PASS, CALL(get_password), NULL}, {SASL_CB_LIST_END, NULL, NULL}};
static sasl_callback_t prompting[] = {{SASL_CB_LOG, CALL(quiet), NULL}, {SASL_CB_USER, NULL, NULL},
    {SASL_CB_AUTHNAME, NULL, NULL}, {SASL_CB_PASS, NULL, NULL}, {SASL_CB_LIST_END, NULL, NULL}};
static sasl_callback_t server_calls[] = {{SASL_CB_GETPATH, CALL(get_path), NULL}, {SASL_CB_LOG, CALL(quiet), NULL},
    {SASL_CB_GETOPT, CALL(get_option), NULL}, {SASL_CB_LIST_END, NULL, NULL}};
static sasl_callback_t with_policy[] = {{SASL_CB_LOG, CALL(quiet), NULL}, {SASL_CB_GETOPT, CALL(get_option), NULL},
    {SASL_CB_PROXY_POLICY, CALL(may_act), NULL}, {SASL_CB_LIST_END, NULL, NULL}};

/* A message on its way, in a block of its own. Clients of libsasl2 may read a zero behind it, which ours does not. */
struct message {
    char *text;
    unsigned len;
};

/* Hides from the server that the client has a channel: `n,,` in place of `y,,`, `c=biws` and the nonce behind the server's
 * first message, and the same before the client's last one. Both sides then have one AuthMessage, unless one of them tests
 * extensions. */
static unsigned hide_channel(char *line, int which, unsigned len)
{
    static char moved[512];
    char *comma = strchr(line, ',');
    size_t more = strlen(moved);
    if (which == 1 && strncmp(line, "y,,", 3) == 0)
        *line = 'n';
    if (which == 2 && strncmp(line, "r=", 2) == 0 && comma) {
        more = (size_t)snprintf(moved, sizeof moved, "c=biws,%.*s,", (int)(comma - line), line);
        sprintf(line + len, ",%.*s", (int)more - 1, moved);
        return len + (unsigned)more;
    }
    if (which == 3 && strncmp(line, "c=", 2) == 0) {
        memmove(line + more, line, len + 1);
        memcpy(line, moved, more);
        return len + (unsigned)more;
    }
    return len;
}

static void carry(struct message *message, int which, const char *text, unsigned len, int zero)
{
    static char line[8192];
    const char *at;
    free(message->text);
    message->text = NULL;
    message->len = 0;
    if (!text)
        return;
    memcpy(line, text, len);
    line[len] = 0;
    if (now->flags & MOVES)
        len = hide_channel(line, which, len);
    if (now->message == which && (at = strstr(line, now->at))) {
        size_t before = (size_t)(at - line), cut = strlen(now->at), more = now->with ? strlen(now->with) : 0;
        if (now->with) {
            memmove(line + before + more, line + before + cut, len - before - cut + 1);
            memcpy(line + before, now->with, more);
            len = (unsigned)(len + more - cut);
        } else
            line[before + cut] = line[before + cut] == 'A' ? 'B' : 'A';
    }
    message->text = malloc(len + (zero ? 1 : 0));
    if (message->text)
        memcpy(message->text, line, len + (zero ? 1 : 0));
    message->len = len;
}

/* How a login went: the last code of each side, what was sent, who it was, and for whom, also by the property. */
struct run {
    int client, server, left;
    char server_first[512], said[512], name[512], acts_for[512], property[512];
};

static int start_client(sasl_conn_t *conn, const char **out, unsigned *len, const char **chosen)
{
    char names[96];
    sasl_interact_t *prompts = NULL;
    int code;
    snprintf(names, sizeof names, "%s%s%s%s", mechanism, now->flags & TWO_NAMES ? " SCRAM-SHA-0" : "",
        now->flags & PLUS ? " " : "", now->flags & PLUS ? mechanism : "");
    if (now->flags & PLUS)
        strcat(names, "-PLUS");
    code = sasl_client_start(conn, names, &prompts, out, len, chosen);
    if (code != SASL_INTERACT)
        return code;
    for (sasl_interact_t *prompt = prompts; prompt->id != SASL_CB_LIST_END; prompt++) {
        prompt->result = prompt->id == SASL_CB_PASS ? now->password
            : prompt->id == SASL_CB_AUTHNAME        ? now->name
            : now->user                             ? now->user
                                                    : "";
        prompt->len = (unsigned)strlen(prompt->result) + (prompt->id == SASL_CB_USER && now->flags & ZERO);
    }
    return sasl_client_start(conn, names, &prompts, out, len, chosen);
}

/* A channel of this kind, under the kind's name, or under OpenLDAP's with the kind before the data. */
static sasl_channel_binding_t channel(char room[96], const char *kind, const char *data, size_t len, unsigned by_ldap)
{
    size_t before = by_ldap ? (size_t)snprintf(room, 96, "%s:", kind) : 0;
    memcpy(room + before, data, len);
    return (
        sasl_channel_binding_t){.name = by_ldap ? "ldap" : kind, .len = before + len, .data = (unsigned char *)room};
}

static void demand(sasl_conn_t *client, sasl_conn_t *server)
{
    static char of_client[96], of_server[96];
    static sasl_channel_binding_t binding, must;
    static const char data[65] = "0123";
    static sasl_http_request_t request = {.method = "GET",
        .uri = "/",
        .entity = (const unsigned char *)"",
        .elen = 0,
        .non_persist = 0};
    sasl_security_properties_t properties = {0, 0, 0, 0, NULL, NULL};
    const char *kind = now->flags & UNKNOWN_KIND ? "ldap" : now->flags & OTHER_KIND ? "tls-exporter" : "tls-unique";
    binding = channel(of_client, kind, now->flags & OTHER_DATA ? "0124" : data,
        now->flags & LONG_DATA ? sizeof data : 4, now->flags & LDAP_CLIENT);
    must = channel(of_server, "tls-unique", data, 4, now->flags & LDAP_SERVER);
    binding.critical = (now->flags & MUST_BIND) != 0;
    must.critical = (now->flags & SERVER_BINDS) != 0;
    if (now->flags & (MAY_BIND | MUST_BIND))
        sasl_setprop(client, SASL_CHANNEL_BINDING, &binding);
    if (now->flags & (SERVER_BINDS | SERVER_HAS))
        sasl_setprop(server, SASL_CHANNEL_BINDING, &must);
    if (now->flags & HTTP) {
        sasl_setprop(client, SASL_HTTP_REQUEST, &request);
        sasl_setprop(server, SASL_HTTP_REQUEST, &request);
    }
    if (now->flags & LAYER) {
        properties.min_ssf = 56;
        properties.max_ssf = 256;
        properties.maxbufsize = 4096;
        sasl_setprop(client, SASL_SEC_PROPS, &properties);
    }
}

/* The value of a property that the server fetched, or an empty text. */
static const char *property(sasl_conn_t *server, const char *name)
{
    const char *names[] = {name, NULL};
    struct propval found[2] = {{NULL, NULL, 0, 0}};
    int is_there =
        prop_getnames(sasl_auxprop_getctx(server), names, found) > 0 && found[0].values && found[0].values[0];
    return is_there ? found[0].values[0] : "";
}

/* Notes who logged in, and for whom. */
static void note_names(sasl_conn_t *server, struct run *run)
{
    const void *authid = NULL, *who = NULL;
    if (sasl_getprop(server, SASL_AUTHUSER, &authid) != SASL_OK || sasl_getprop(server, SASL_USERNAME, &who) != SASL_OK)
        return;
    snprintf(run->name, sizeof run->name, "%s", (const char *)authid);
    snprintf(run->acts_for, sizeof run->acts_for, "%s", (const char *)who);
    snprintf(run->property, sizeof run->property, "%s", property(server, "identity"));
}

static void converse(sasl_conn_t *client, sasl_conn_t *server, struct run *run)
{
    struct message to_server = {NULL, 0}, to_client = {NULL, 0};
    const char *out = NULL, *chosen = NULL, *last = NULL;
    unsigned len = 0;
    int turn = 1, late = (now->flags & LATE) != 0;
    run->server = SASL_CONTINUE;
    refuse_memory = now->flags & NO_MEMORY && now->side == CLIENT ? CLIENT : NEITHER;
    run->client = start_client(client, &out, &len, &chosen);
    refuse_memory = now->flags & NO_MEMORY && now->side == SERVER ? SERVER : NEITHER;
    if (run->client == SASL_CONTINUE && late) {
        run->server = sasl_server_start(server, chosen, NULL, 0, &last, &len);
        if (run->server != SASL_CONTINUE || len != 0)
            run->server = SASL_FAIL;
        len = (unsigned)strlen(out);
    }
    while (run->client == SASL_CONTINUE && run->server == SASL_CONTINUE) {
        carry(&to_server, turn, out, len, 0);
        run->server = turn == 1 && !late ? sasl_server_start(server, chosen, to_server.text, to_server.len, &out, &len)
                                         : sasl_server_step(server, to_server.text, to_server.len, &out, &len);
        refuse_memory = NEITHER;
        if (turn == 1 && run->server == SASL_CONTINUE)
            snprintf(run->server_first, sizeof run->server_first, "%.*s", (int)len, out);
        if (run->server != SASL_CONTINUE && run->server != SASL_OK)
            break;
        carry(&to_client, turn + 1, out, len, !ours_client);
        run->client = sasl_client_step(client, to_client.text, to_client.len, NULL, &out, &len);
        turn += 2;
        if (run->client == SASL_OK && run->server == SASL_CONTINUE && now->flags & SEPARATE)
            run->server = sasl_server_step(server, out, len, &last, &len);
    }
    free(to_server.text);
    free(to_client.text);
    run->left = *property(server, SASL_AUX_PASSWORD) != 0;
    if (run->server == SASL_OK)
        note_names(server, run);
}

/* A login from its first message. Behind a refusal of ours that side answers no more. */
static int log_in(struct run *run)
{
    sasl_conn_t *client = NULL, *server = NULL;
    unsigned flags = (now->flags & SEPARATE ? 0 : SASL_SUCCESS_DATA) | (now->flags & HTTP ? SASL_NEED_HTTP : 0)
        | (now->flags & PROXY ? SASL_NEED_PROXY : 0),
             len;
    static const char *wanted[] = {"identity", NULL};
    const char *out;
    int ended = 1;
    exchanges++;
    memset(run, 0, sizeof *run);
    policy_calls = 0;
    const sasl_callback_t *calls = now->flags & PROMPTS ? prompting : client_calls;
    const sasl_callback_t *of_server = now->flags & (ALLOWS | FORBIDS) ? with_policy : server_calls;
    if (sasl_client_new("test", "localhost", NULL, NULL, calls, flags, &client) != SASL_OK
        || sasl_server_new("test", "localhost", NULL, NULL, NULL, of_server, flags, &server) != SASL_OK
        || sasl_auxprop_request(server, wanted) != SASL_OK)
        return 0;
    demand(client, server);
    converse(client, server, run);
    if (now->flags & NO_MEMORY)
        ended = 1;
    else if (run->client != SASL_OK && run->client != SASL_CONTINUE && run->client != SASL_NOMECH) {
        snprintf(run->said, sizeof run->said, "%s", sasl_errdetail(client));
        ended = !ours_client || sasl_client_step(client, "v=", 2, NULL, &out, &len) == SASL_FAIL;
    } else if (run->server != SASL_OK && run->server != SASL_CONTINUE) {
        snprintf(run->said, sizeof run->said, "%s", sasl_errdetail(server));
        ended = !ours_server || run->server == SASL_BADBINDING || run->server == SASL_NOMECH
            || sasl_server_step(server, "n,,n=user,r=abc", 15, &out, &len) == SASL_BADPROT;
    }
    sasl_dispose(&client);
    sasl_dispose(&server);
    return ended;
}

static void is_so(int so, const char *what, const struct run *run)
{
    told++;
    if (so)
        return;
    differences++;
    printf("DIFFERS: %s, %s: client %d, server %d, \"%s\" for \"%s\" and \"%s\", %d calls of the policy, %s\n",
        mechanism, what, run->client, run->server, run->name, run->acts_for, run->property, policy_calls, run->said);
}

/* Whether a login went as it should. */
static int as_said(const struct login *login, const struct run *run)
{
    int ours = login->side == CLIENT ? ours_client : ours_server, due = ours ? login->ours : login->theirs;
    const char *acts_for = login->user ? login->user : login->name;
    if (login->side == NEITHER || due == SASL_OK)
        return run->client == SASL_OK && run->server == SASL_OK && is_name(login->name, run->name, strlen(run->name))
            && is_name(acts_for, run->acts_for, strlen(run->acts_for)) && strcmp(run->property, run->acts_for) == 0
            && policy_calls == ((login->flags & ALLOWS) != 0);
    /* (the policy comes after the proof) */
    return (login->side == CLIENT ? run->client : run->server) == due
        && (!ours || !login->says || strstr(run->said, login->says))
        && (!ours || policy_calls == (login->side == SERVER && due == SASL_NOAUTHZ));
}

static int to_be_tried(const struct login *login)
{
    if ((login->flags & THEIR_CLIENT && ours_client) || (login->flags & OUR_CLIENT && !ours_client)
        || (login->flags & OUR_SERVER && !ours_server))
        return 0;
    return login->side == NEITHER || (login->side == CLIENT ? ours_client : ours_server) || login->theirs != SKIP;
}

static size_t salt_of(const struct run *run, const char **salt)
{
    *salt = strstr(run->server_first, ",s=");
    return *salt ? strcspn(*salt + 3, ",") : 0;
}

/* A name keeps its salt, has another one than another name, and gets a nonce for each login. */
static void salts(void)
{
    struct run first, second, third;
    const char *one, *two = NULL, *three = NULL;
    size_t len;
    now = &logins[0];
    log_in(&first);
    log_in(&second);
    now = &logins[2];
    log_in(&third);
    len = salt_of(&first, &one);
    is_so(len > 0 && salt_of(&second, &two) == len && memcmp(one, two, len + 3) == 0, "a name keeps its salt", &second);
    is_so(salt_of(&third, &three) == len && memcmp(one, three, len + 3) != 0, "another name, another salt", &third);
    is_so(strlen(first.server_first) > 90 && strncmp(first.server_first, second.server_first, 46) != 0
            && memcmp(one - 40, two - 40, 40) != 0,
        "each login has its nonces", &second);
}

/* What both plugins state of a mechanism. */
static unsigned client_flags, server_flags, client_layer, server_layer;

static void of_client(client_sasl_mechanism_t *of, sasl_info_callback_stage_t stage, void *context)
{
    (void)context;
    if (stage == SASL_INFO_LIST_MECH && strcmp(of->plug->mech_name, mechanism) == 0) {
        client_flags = of->plug->security_flags;
        client_layer = of->plug->max_ssf;
    }
}

static void of_server(server_sasl_mechanism_t *of, sasl_info_callback_stage_t stage, void *context)
{
    (void)context;
    if (stage == SASL_INFO_LIST_MECH && strcmp(of->plug->mech_name, mechanism) == 0) {
        server_flags = of->plug->security_flags;
        server_layer = of->plug->max_ssf;
    }
}

int main(int count, char **words)
{
    static const char *mechanisms[] = {"SCRAM-SHA-1", "SCRAM-SHA-256", "SCRAM-SHA-512"};
    const struct run none = {0};
    struct run run;
    if (count != 5)
        return 2;
    client_calls[0].context = words[1];
    server_calls[0].context = words[3];
    ours_client = strcmp(words[2], "ours") == 0;
    ours_server = strcmp(words[4], "ours") == 0;
    sasl_set_alloc((sasl_malloc_t *)malloc, (sasl_calloc_t *)zeros, (sasl_realloc_t *)realloc, free);
    if (sasl_client_init(client_calls) != SASL_OK || sasl_server_init(server_calls, "test") != SASL_OK
        || sasl_auxprop_add_plugin("in_memory", properties_init) != SASL_OK)
        return 3;
    for (int which = 0; which < 3; which++) {
        mechanism = mechanisms[which];
        sasl_client_plugin_info(mechanism, of_client, NULL);
        sasl_server_plugin_info(mechanism, of_server, NULL);
        is_so(client_flags != 0 && client_flags == server_flags && client_layer == server_layer, "one strength", &none);
        for (size_t i = 0; i < sizeof logins / sizeof logins[0]; i++) {
            now = &logins[i];
            if (!to_be_tried(now))
                continue;
            is_so(log_in(&run), "a refused exchange goes on", &run);
            is_so(as_said(now, &run), now->what, &run);
            is_so(!run.left || !ours_server, "the server's password is left", &run);
            is_so(!now->count || !ours_server || strstr(run.server_first, now->count), "the server's count", &run);
        }
        salts();
    }
    sasl_client_done();
    sasl_server_done();
    printf("%s to %s: %d exchanges, %d of %d things as they should be\n", words[2], words[4], exchanges,
        told - differences, told);
    return differences != 0;
}
