/* The messages of a login at the count 1, made by the library, the bodies of the five frames, and lists of events
   and of users. */
#ifndef INPUTS_H
#define INPUTS_H
#include "exports.h"

enum { MANY = 256, VERSIONS = 3, FRAMES = 5 };
struct text {
    uint8_t bytes[700];
    size_t len;
};
#define GIVE(text) (text).bytes, (text).len
#define ROOM(text) (text).bytes, sizeof(text).bytes
struct login {
    struct text server_first, client_final, server_final, signature, stored_key, server_key;
};

extern const uint32_t versions[VERSIONS];
extern struct text password, username, salt, client_nonce, server_nonce, nonce, bare, client_first;
extern struct login logins[VERSIONS];
extern struct text bodies[FRAMES]; /* mechanisms, init, challenge, response, outcome */
extern uint8_t *rows_of_bodies[FRAMES]; /* MANY of each */
extern struct text without_proof;

/* Bytes of any length. */
struct list {
    uint8_t *bytes;
    size_t len;
};
enum { EVENT = 256, LOGINS = 10, USERS = 10 }; /* bytes of an event; logins and users of a job */
extern struct text record, record_at_one;
extern struct list client_events, server_events, lines; /* of the jobs */
struct list events_of(uint32_t logins, int of_server);
struct list lines_of(size_t users);
size_t name_into(char *to, size_t user);
int index_of(uint32_t version);
size_t digest_len(uint32_t version);
void set_text(struct text *text, const char *from);
void base64_into(char *to, const uint8_t *bytes, size_t len);
void make_inputs(void);
#endif
