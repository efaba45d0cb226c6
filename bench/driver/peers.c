#define _GNU_SOURCE
#include "peers.h"
#include "inputs.h"
#include "memory.h"
#include <dlfcn.h>
#include <gsasl.h>
#include <proton/codec.h>
#include <stdio.h>
#include <stdlib.h>
#include <string.h>
#include <time.h>

struct openssl openssl[2];
struct rust rust[2];

double thread_time(void)
{
    struct timespec t;
    clock_gettime(CLOCK_THREAD_CPUTIME_ID, &t);
    return t.tv_sec * 1e9 + t.tv_nsec;
}
static void take(void *library, const char *name, void *place) { *(void **)place = dlsym(library, name); }

static void load_openssl(struct openssl *peer, const char *path)
{
    static const char *const names[] = {"EVP_sha1", "EVP_sha256", "EVP_sha512"};
    void *library = dlopen(path, RTLD_NOW | RTLD_LOCAL | RTLD_DEEPBIND);
    if (!library) {
        fprintf(stderr, "left out: %s\n", dlerror());
        return;
    }
    take(library, "EVP_Digest", &peer->digest);
    take(library, "HMAC", &peer->hmac);
    take(library, "PKCS5_PBKDF2_HMAC", &peer->pbkdf2);
    take(library, "SHA1_Transform", &peer->block1);
    take(library, "SHA256_Transform", &peer->block256);
    take(library, "SHA512_Transform", &peer->block512);
    for (int k = 0; k < 3; k++) {
        const EVP_MD *(*md)(void);
        take(library, names[k], &md);
        peer->md[k] = md();
    }
}
static void load_rust(struct rust *peer, const char *path)
{
    void *library = dlopen(path, RTLD_NOW | RTLD_LOCAL);
    if (!library) {
        fprintf(stderr, "left out: %s\n", dlerror());
        return;
    }
    take(library, "peer_digest", &peer->digest);
    take(library, "peer_hmac", &peer->hmac);
    take(library, "peer_hi", &peer->hi);
    take(library, "peer_client_final", &peer->client_final);
    take(library, "peer_server_final", &peer->server_final);
    take(library, "peer_view", &peer->view);
    take(library, "peer_decode", &peer->decode);
    take(library, "peer_encode", &peer->encode);
    take(library, "postgres_new", &peer->postgres_new);
    take(library, "postgres_update", &peer->postgres_update);
    take(library, "postgres_free", &peer->postgres_free);
}
void load_peers(void)
{
    load_openssl(&openssl[0], "libcrypto.so.3");
    /* Bit 29 of EBX of leaf 7: the SHA instructions. Read once, when a library is loaded. */
    setenv("OPENSSL_ia32cap", ":~0x20000000", 1);
    load_openssl(&openssl[1], "build/libcrypto_nosha.so");
    load_rust(&rust[0], "build/libpeers.so");
    load_rust(&rust[1], "build/libpeers_soft.so");
    proton_inputs();
}

/* GNU SASL: both sides of one login, with the time and the requests for memory of each call. */
static char gsasl_salt[100], gsasl_stored[100], gsasl_server[100];
static int gsasl_is_server;
double gsasl_time[5];
long gsasl_requests[5];

static int gsasl_answer(Gsasl *context, Gsasl_session *session, Gsasl_property property)
{
    (void)context;
    switch (property) {
    case GSASL_AUTHID: return gsasl_property_set(session, property, "user");
    case GSASL_PASSWORD: return gsasl_is_server ? GSASL_NO_CALLBACK : gsasl_property_set(session, property, "pencil");
    case GSASL_SCRAM_ITER: return gsasl_property_set(session, property, "1");
    case GSASL_SCRAM_SALT: return gsasl_property_set(session, property, gsasl_salt);
    case GSASL_SCRAM_STOREDKEY: return gsasl_property_set(session, property, gsasl_stored);
    case GSASL_SCRAM_SERVERKEY: return gsasl_property_set(session, property, gsasl_server);
    default: return GSASL_NO_CALLBACK;
    }
}
static int gsasl_call(int call, Gsasl_session *session, char **in, size_t *in_len, char **out, size_t *out_len)
{
    gsasl_is_server = call % 2;
    double start = thread_time();
    long before = requests;
    int status = gsasl_step(session, *in, *in_len, out, out_len);
    gsasl_time[call] = thread_time() - start;
    gsasl_requests[call] = requests - before;
    free(*in);
    *in = NULL;
    *in_len = 0;
    return status == GSASL_OK || status == GSASL_NEEDS_MORE;
}
int gsasl_login(uint32_t version)
{
    static Gsasl *context;
    if (!context) {
        if (gsasl_init(&context))
            return 0;
        gsasl_callback_set(context, gsasl_answer);
    }
    struct login *login = &logins[index_of(version)];
    base64_into(gsasl_salt, GIVE(salt));
    base64_into(gsasl_stored, GIVE(login->stored_key));
    base64_into(gsasl_server, GIVE(login->server_key));
    const char *mechanism = version == 1 ? "SCRAM-SHA-1" : "SCRAM-SHA-256";
    Gsasl_session *client, *server;
    if (gsasl_client_start(context, mechanism, &client))
        return 0;
    if (gsasl_server_start(context, mechanism, &server))
        return 0;
    char *a = NULL, *b = NULL;
    size_t a_len = 0, b_len = 0;
    int good = gsasl_call(0, client, &b, &b_len, &a, &a_len) && gsasl_call(1, server, &a, &a_len, &b, &b_len)
        && gsasl_call(2, client, &b, &b_len, &a, &a_len) && gsasl_call(3, server, &a, &a_len, &b, &b_len)
        && gsasl_call(4, client, &b, &b_len, &a, &a_len);
    free(a);
    free(b);
    gsasl_finish(client);
    gsasl_finish(server);
    return good;
}
int gsasl_hi(uint32_t version, int iterations, uint8_t *out)
{
    char client_key[64], server_key[64], stored_key[64];
    Gsasl_hash hash = version == 1 ? GSASL_HASH_SHA1 : GSASL_HASH_SHA256;
    return gsasl_scram_secrets_from_password(hash, "pencil", iterations, (char *)salt.bytes, salt.len, (char *)out,
               client_key, server_key, stored_key)
        == GSASL_OK;
}

/* Qpid Proton: its tree of a body, decoded anew each time, or built once and encoded. */
static pn_data_t *proton_tree, *proton_built[FRAMES];
void proton_inputs(void)
{
    proton_tree = pn_data(16);
    for (int k = 0; k < FRAMES; k++) {
        proton_built[k] = pn_data(16);
        pn_data_decode(proton_built[k], (char *)bodies[k].bytes + 4, bodies[k].len - 4);
    }
}
int proton_decode(int frame)
{
    pn_data_clear(proton_tree);
    return pn_data_decode(proton_tree, (char *)bodies[frame].bytes + 4, bodies[frame].len - 4) > 0;
}
int proton_encode(int frame)
{
    char out[700];
    return pn_data_encode(proton_built[frame], out, sizeof out) > 0;
}

/* postgres-protocol: its nonce is random, so each call has a challenge of its own. The time of the answer. */
double postgres_final(int *answered)
{
    uint8_t own[200];
    char digits[100], message[500];
    size_t len;
    void *client = rust[0].postgres_new(own, &len);
    base64_into(digits, GIVE(salt));
    int message_len = snprintf(message, sizeof message, "r=%.*s%.*s,s=%s,i=1", (int)len, own, (int)server_nonce.len,
        server_nonce.bytes, digits);
    double start = thread_time();
    *answered = rust[0].postgres_update(client, (uint8_t *)message, message_len) > 0;
    double spent = thread_time() - start;
    rust[0].postgres_free(client);
    return spent;
}
