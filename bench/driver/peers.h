/* The peers: OpenSSL with and without the SHA instructions, the Rust peers with and without them, GNU
   SASL, Proton. A peer that is not installed has null pointers. */
#ifndef PEERS_H
#define PEERS_H
#include "exports.h"
#include <openssl/evp.h>
#include <openssl/sha.h>

struct openssl {
    int (*digest)(const void *, size_t, uint8_t *, unsigned *, const EVP_MD *, ENGINE *);
    uint8_t *(*hmac)(const EVP_MD *, const void *, int, const uint8_t *, size_t, uint8_t *, unsigned *);
    int (*pbkdf2)(const char *, int, const uint8_t *, int, int, const EVP_MD *, int, uint8_t *);
    void (*block1)(SHA_CTX *, const uint8_t *);
    void (*block256)(SHA256_CTX *, const uint8_t *);
    void (*block512)(SHA512_CTX *, const uint8_t *);
    const EVP_MD *md[3];
};
struct rust {
    size_t (*digest)(uint32_t, IN(message), OUT(out));
    size_t (*hmac)(uint32_t, IN(key), IN(input), OUT(out));
    size_t (*hi)(uint32_t, IN(password), IN(salt), uint32_t, OUT(out));
    size_t (*client_final)(uint32_t, IN(nonce), IN(password), IN(message), IN(bare), OUT(out), OUT(signature));
    size_t (*server_final)(uint32_t, IN(message), IN(nonce), IN(bare), IN(challenge), IN(stored), IN(server), OUT(out));
    size_t (*view)(IN(body));
    uint32_t (*decode)(IN(bodies), uint32_t), (*encode)(IN(bodies), uint32_t);
    void *(*postgres_new)(uint8_t *, size_t *);
    size_t (*postgres_update)(void *, IN(message));
    void (*postgres_free)(void *);
};
extern struct openssl openssl[2]; /* as it is; with the SHA instructions hidden */
extern struct rust rust[2]; /* the same */
extern double gsasl_time[5]; /* of the last login, by call */
extern long gsasl_requests[5];

void load_peers(void);
double thread_time(void); /* nanoseconds */
int gsasl_login(uint32_t version);
int gsasl_hi(uint32_t version, int iterations, uint8_t *out);
void proton_inputs(void);
int proton_decode(int frame);
int proton_encode(int frame);
double postgres_final(int *answered);
#endif
