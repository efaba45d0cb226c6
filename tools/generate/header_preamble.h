/* SCRAM (RFC 5802, RFC 7677) and the SASL layer of AMQP 1.0. Written by tools/generate/header.py.
 *
 * A call returns a status: FE2O3_OK, or why it failed. There is nothing to initialize and nothing to free. The state of
 * an exchange is a struct that you allocate, and the library keeps nothing between calls.
 *
 * Protocols other than AMQP, such as IMAP, SMTP, XMPP and Kafka, carry the messages of SASL themselves. For them SCRAM,
 * PLAIN and EXTERNAL have calls over messages. ANONYMOUS needs none: its message is trace information, and the server
 * accepts any (RFC 4505, section 2).
 *
 * What you have to ensure, since no call can test it:
 *
 * - Each pointer is valid for as many bytes as its type, or the length after it, says, and for no more than
 *   PTRDIFF_MAX. It may be null, or any value, if the length after it is 0, also in a struct. `keys` of a login may be null:
 *   there are none. No other pointer is null.
 * - What a call writes to (`out`, its length, each struct that is not const) does not overlap its other arguments. What
 *   a call only reads may overlap, and other threads may read it meanwhile.
 * - A struct that a call writes to is used by one call at a time. Any thread may call, but no signal handler.
 * - A struct is set to zeros before its first use: by its FE2O3_.._INIT, or by `memset`. All zeros is a client that has
 *   sent nothing, a server without an open challenge, a connection that has received nothing, no keys, or no options.
 * - malloc, realloc and free are those of C, and there is enough stack. A call uses and clears at most 96 KiB of it.
 *
 * Numbers, bytes, and lengths inside structs may have any value. So any bit pattern of a struct without pointers is
 * legal, even one that the library never wrote, or wrote for another login: every call defines its result, and none
 * harms memory. But anyone who can write to a client's struct can write there that the server is authenticated.
 *
 * What the calls promise:
 *
 * - A call that fails changes nothing, with three exceptions: with FE2O3_ROOM_TOO_SMALL `out_len` says how many bytes
 *   suffice, with FE2O3_NEEDS_RECORDS a user name is written to `out`, and its length to `out_len`, and
 *   `fe2o3_scram_lines_find` and `fe2o3_scram_lines_all_have` write `line`.
 * - A call that succeeds writes its text to the beginning of `out`, and the text's length to `out_len`. The rest of `out`
 *   stays as it was. There is no zero at the end of the text.
 * - Each call returns, never aborts, and keeps no pointer. It allocates by malloc and frees all of it. If an allocation
 *   fails it returns FE2O3_OUT_OF_MEMORY.
 *
 * What a wrapper in C around each call does, which is tested and not proved: it wipes the memory that the call has
 * allocated, the stack that it has used, and the registers that it may have changed.
 *
 * What they do not promise: your own copies of secrets are not wiped. Records, keys, the structs of clients that have
 * answered, passwords and messages of PLAIN are yours: wipe them by fe2o3_wipe. Comparisons are not guaranteed to take
 * constant time. The library has no random numbers: you pass 32 fresh random bytes for each nonce. */
#ifndef FE2O3_SASL_H
#define FE2O3_SASL_H

#include <stddef.h>
#include <stdint.h>

#ifdef __cplusplus
extern "C" {
#endif

/* An empty text: a pointer and its length, as two arguments or in an initializer of a struct. */
#define FE2O3_NONE (const uint8_t *)"", 0

/* The hash of a SCRAM mechanism, of a record, and of keys. */
enum fe2o3_scram_version {
    /* SCRAM-SHA-1. */
    FE2O3_SHA_1 = 1,
    /* SCRAM-SHA-256. */
    FE2O3_SHA_256 = 256,
    /* SCRAM-SHA-512. */
    FE2O3_SHA_512 = 512
};

/* The mechanism of a client on a connection. */
enum fe2o3_mechanism {
    /* SCRAM with the hash of the login. */
    FE2O3_SCRAM = 0,
    /* PLAIN (RFC 4616). */
    FE2O3_PLAIN = 1,
    /* ANONYMOUS (RFC 4505). */
    FE2O3_ANONYMOUS = 2,
    /* EXTERNAL (RFC 4422, appendix A). */
    FE2O3_EXTERNAL = 3,
    /* ANONYMOUS with the user name of the login as its initial response: trace information (RFC 4505, section 2), or
     * the empty text. The client also answers one empty challenge by it. */
    FE2O3_ANONYMOUS_AS = 4,
    /* EXTERNAL with the user name of the login as its initial response: the authorization identity, or the empty text
     * for the user whom the transport has authenticated. The client also answers one empty challenge by it. */
    FE2O3_EXTERNAL_AS = 5
};

/* What a client logs in with. */
enum fe2o3_secret {
    /* The password. */
    FE2O3_BY_PASSWORD = 0,
    /* The keys. */
    FE2O3_BY_KEYS = 1,
    /* The keys if they are of the server's salt and iteration count, otherwise the password. A struct of zeros has no keys
     * yet: then the password. */
    FE2O3_BY_PASSWORD_AND_KEYS = 2
};

/* The form of a password. */
enum fe2o3_password_form {
    /* The password as the user typed it, which has to be printable ASCII. */
    FE2O3_TYPED = 0,
    /* The password as you prepared it (fe2o3_saslprep): any text, used without change. */
    FE2O3_PREPARED = 1
};

/* What a client says of the channel under an exchange, such as TLS (RFC 5802, section 6). */
enum fe2o3_channel_use {
    /* The client does not support channel binding, or has no channel: its GS2 header is `n,,`. */
    FE2O3_CHANNEL_ABSENT = 0,
    /* The client has a channel, but was offered no mechanism with `-PLUS`: its GS2 header is `y,,`. The client rejects
     * what is no extension in the place of one, and a server that offers `-PLUS` has to reject `y,,`, as the servers here
     * do. Nobody on the way can then remove `-PLUS` from the offer unnoticed. A server that offers `-PLUS` and accepts
     * `y,,` does not protect against that: log in to it by FE2O3_CHANNEL_BOUND only. */
    FE2O3_CHANNEL_NOT_OFFERED = 1,
    /* The client binds its channel, by a mechanism with `-PLUS`: its GS2 header is `p=` and the kind. */
    FE2O3_CHANNEL_BOUND = 2
};

/* A kind of channel binding. Both sides have to use one kind: a client selects it, and cannot ask a server which kinds it
 * has. */
enum fe2o3_channel_kind {
    /* `tls-unique` (RFC 5929, section 3): the first Finished message of the TLS handshake. Only for TLS 1.2 and older,
     * and only with the extended master secret (RFC 7627). */
    FE2O3_TLS_UNIQUE = 1,
    /* `tls-server-end-point` (RFC 5929, section 4): the hash of the server's certificate. It does not protect against
     * someone who has the server's private key. */
    FE2O3_TLS_SERVER_END_POINT = 2,
    /* `tls-exporter` (RFC 9266): 32 bytes of exported keying material. For TLS 1.3, and for TLS 1.2 with the extended
     * master secret. */
    FE2O3_TLS_EXPORTER = 3
};

/* Which password fe2o3_plain_verify tests for the one of a message. User names are compared as received. */
enum fe2o3_plain_passwords {
    /* The password as typed, which has to be printable ASCII. Every other password is rejected. */
    FE2O3_PLAIN_PASSWORDS_TYPED = 0,
    /* The password as received, as a prepared text. For clients that prepare their passwords. */
    FE2O3_PLAIN_PASSWORDS_PREPARED = 1,
    /* The text that SASLprep prepares the password to, with unassigned code points allowed. A password that SASLprep
     * rejects, or whose prepared text is empty, is rejected. */
    FE2O3_PLAIN_PASSWORDS_SASLPREP = 2
};

/* What fe2o3_saslprep does with code points that Unicode 3.2 does not assign. */
enum fe2o3_unassigned {
    /* Rejects unassigned code points: the call returns FE2O3_UNASSIGNED_CODE_POINT. */
    FE2O3_UNASSIGNED_REFUSED = 0,
    /* Allows unassigned code points, and leaves them unchanged. */
    FE2O3_UNASSIGNED_ALLOWED = 1
};

/* What a server offers: a sum of these values. */
enum fe2o3_offer {
    /* SCRAM-SHA-512. */
    FE2O3_OFFER_SCRAM_SHA_512 = 1,
    /* SCRAM-SHA-256. */
    FE2O3_OFFER_SCRAM_SHA_256 = 2,
    /* SCRAM-SHA-1, for clients that have no other hash. */
    FE2O3_OFFER_SCRAM_SHA_1 = 4,
    /* PLAIN, which sends the password in clear. */
    FE2O3_OFFER_PLAIN = 8,
    /* ANONYMOUS. */
    FE2O3_OFFER_ANONYMOUS = 16,
    /* EXTERNAL, if `external_authcid` is not empty. */
    FE2O3_OFFER_EXTERNAL = 32
};

/* What else a server does: a sum of these values. */
enum fe2o3_server_flag {
    /* SCRAM also accepts the GS2 header `y,,`: see the field `accept_cbind_flag_y` of struct
     * fe2o3_scram_rules. */
    FE2O3_ACCEPT_CBIND_FLAG_Y = 64,
    /* PLAIN tests the password as received, also a non-ASCII one. Clients prepare their passwords. */
    FE2O3_PLAIN_PREPARED = 128,
    /* PLAIN tests the text that SASLprep prepares the password to. Not with FE2O3_PLAIN_PREPARED. */
    FE2O3_PLAIN_SASLPREP = 256,
    /* SCRAM and PLAIN answer an init without an initial response by an empty challenge. The client's
     * response is then the initial response (RFC 4422, section 5). Without this value such an init fails. */
    FE2O3_INITIAL_RESPONSE_BY_CHALLENGE = 512,
    /* SCRAM sends the server's signature in a challenge, and the outcome OK follows the client's empty
     * response (RFC 4422, section 5). For clients that do not read the data of an outcome. */
    FE2O3_SIGNATURE_BY_CHALLENGE = 1024,
    /* SCRAM is strict. It reads messages by the grammar of RFC 5802, section 7: see the field `strict` of
     * struct fe2o3_scram_rules. */
    FE2O3_STRICT = 2048,
    /* SCRAM rejects what is no extension in the place of one, and nothing more: see the field
     * `reject_misplaced` of struct fe2o3_scram_rules. A server with `channels` does so in any case. */
    FE2O3_REJECT_MISPLACED = 4096
};

/* How far a login on a connection is. */
enum fe2o3_progress {
    /* The login goes on: the other side has to send more. */
    FE2O3_IN_PROGRESS = 0,
    /* The login is complete. */
    FE2O3_AUTHENTICATED = 1,
    /* The login has failed, and you have to close the connection. */
    FE2O3_FAILED = 2
};

/* What the other side of a connection has to send next. */
enum fe2o3_expected {
    /* The protocol header. */
    FE2O3_EXPECTED_HEADER = 0,
    /* The list of mechanisms. */
    FE2O3_EXPECTED_MECHANISMS = 1,
    /* The init. */
    FE2O3_EXPECTED_INIT = 2,
    /* The challenge, or already the outcome. */
    FE2O3_EXPECTED_CHALLENGE = 3,
    /* The response. */
    FE2O3_EXPECTED_RESPONSE = 4,
    /* The outcome. */
    FE2O3_EXPECTED_OUTCOME = 5,
    /* The server's signature in a challenge, or already the outcome. Only for a client with `signature_by_challenge`. */
    FE2O3_EXPECTED_SIGNATURE_CHALLENGE = 6
};

/* How far the exchange of a SCRAM client is. Other values count as FE2O3_SCRAM_CLIENT_INITIAL. */
enum fe2o3_scram_client_state {
    /* The client has sent nothing. */
    FE2O3_SCRAM_CLIENT_INITIAL = 0,
    /* The client has sent the client-first message. */
    FE2O3_SCRAM_CLIENT_FIRST_SENT = 1,
    /* The client has sent the client-final message, and expects the server's signature. */
    FE2O3_SCRAM_CLIENT_FINAL_SENT = 2,
    /* The login is complete, and the server authenticated. */
    FE2O3_SCRAM_CLIENT_COMPLETE = 3,
    /* The server was authenticated by a challenge, and the client expects an outcome without data. */
    FE2O3_SCRAM_CLIENT_SIGNATURE_VERIFIED = 4
};

/* How far the exchange of a SCRAM server is. Other values count as FE2O3_SCRAM_SERVER_INITIAL. A challenge is open in
 * five of these states. */
enum fe2o3_scram_server_state {
    /* No challenge is open, and no user is authenticated. */
    FE2O3_SCRAM_SERVER_INITIAL = 0,
    /* A challenge is open, to a client whose GS2 header is `n,,`. */
    FE2O3_SCRAM_SERVER_CHALLENGE_OPEN = 1,
    /* The user is authenticated. */
    FE2O3_SCRAM_SERVER_AUTHENTICATED = 2,
    /* A challenge is open, to a client whose GS2 header is `y,,`. */
    FE2O3_SCRAM_SERVER_CHALLENGE_OPEN_CBIND_FLAG_Y = 3,
    /* The server's signature was sent to the user in a challenge. The user is authenticated once the client has answered
     * it. Only on a connection. */
    FE2O3_SCRAM_SERVER_SIGNATURE_SENT = 4,
    /* An empty challenge was sent for an init without an initial response. `first` is the name of the mechanism, and
     * `nonce` the 32 bytes of the init's nonce. Only on a connection. */
    FE2O3_SCRAM_SERVER_INITIAL_RESPONSE_ASKED = 5,
    /* A challenge is open, to a client that binds the channel by `tls-unique`. */
    FE2O3_SCRAM_SERVER_CHALLENGE_OPEN_TLS_UNIQUE = 7,
    /* A challenge is open, to a client that binds the channel by `tls-server-end-point`. */
    FE2O3_SCRAM_SERVER_CHALLENGE_OPEN_TLS_SERVER_END_POINT = 8,
    /* A challenge is open, to a client that binds the channel by `tls-exporter`. */
    FE2O3_SCRAM_SERVER_CHALLENGE_OPEN_TLS_EXPORTER = 9
};

/* Why a server answered a frame by the outcome Auth, for its log only: the peer receives that outcome, without data, for
 * each of them. Where SCRAM rejects the text of a message for another reason, the number is the status of that error:
 * FE2O3_SERVER_UTF8_ERROR and those after it. */
enum fe2o3_rejection {
    /* The last frame was not answered by Auth. */
    FE2O3_REJECTION_NONE = 0,
    /* The init names a mechanism that the server does not offer. */
    FE2O3_REJECTION_MECHANISM_NOT_OFFERED = 101,
    /* The init of a mechanism that needs an initial response has none. */
    FE2O3_REJECTION_NO_INITIAL_RESPONSE = 102,
    /* The initial response is no message of PLAIN that is accepted for a test of its password. */
    FE2O3_REJECTION_INVALID_MESSAGE = 103,
    /* The client's channel binding is not one that the server accepts (RFC 5802, section 6): someone may be between the
     * two. */
    FE2O3_REJECTION_CHANNEL = 104,
    /* No record of the user was passed, for any hash. */
    FE2O3_REJECTION_UNKNOWN_USER = 105,
    /* No record of the user was passed for the hash of the exchange, and one for another hash was. */
    FE2O3_REJECTION_NO_RECORD_FOR_HASH = 106,
    /* The user of SCRAM may not act for the identity that it names, whatever its proof is (RFC 4422, section 2). */
    FE2O3_REJECTION_NO_RIGHT = 107,
    /* The proof of SCRAM does not meet the record: the password is wrong, or you passed a mock record. */
    FE2O3_REJECTION_WRONG_PROOF = 108,
    /* The message of PLAIN does not have the password of the tested record, the user has none, or may not act for the
     * identity. */
    FE2O3_REJECTION_WRONG_PASSWORD = 109,
    /* The init of EXTERNAL asks for another name than the one that the transport authenticated. */
    FE2O3_REJECTION_OTHER_IDENTITY = 110,
    /* An init arrives where the server waits for the response that completes the init before it. */
    FE2O3_REJECTION_UNEXPECTED_INIT = 111,
    /* A response arrives where no mechanism waits for one, or it is not empty where only an empty one is expected. */
    FE2O3_REJECTION_UNEXPECTED_RESPONSE = 112,
    /* None of the others. No call writes it. */
    FE2O3_REJECTION_OTHER = 113
};

/* The error that a server sends in the place of a message (RFC 5802, section 7, `server-error-value`). */
enum fe2o3_server_error {
    /* The message is no error. */
    FE2O3_SERVER_ERROR_NONE = 0,
    /* `invalid-encoding`. */
    FE2O3_SERVER_ERROR_INVALID_ENCODING = 1,
    /* `extensions-not-supported`: the server does not support a mandatory extension. */
    FE2O3_SERVER_ERROR_EXTENSIONS_NOT_SUPPORTED = 2,
    /* `invalid-proof`: the password is wrong, or the user is unknown. */
    FE2O3_SERVER_ERROR_INVALID_PROOF = 3,
    /* `channel-bindings-dont-match`. */
    FE2O3_SERVER_ERROR_CHANNEL_BINDINGS_DONT_MATCH = 4,
    /* `server-does-support-channel-binding`: the client assumed that the server does not. */
    FE2O3_SERVER_ERROR_SERVER_DOES_SUPPORT_CHANNEL_BINDING = 5,
    /* `channel-binding-not-supported`. */
    FE2O3_SERVER_ERROR_CHANNEL_BINDING_NOT_SUPPORTED = 6,
    /* `unsupported-channel-binding-type`. */
    FE2O3_SERVER_ERROR_UNSUPPORTED_CHANNEL_BINDING_TYPE = 7,
    /* `unknown-user`. */
    FE2O3_SERVER_ERROR_UNKNOWN_USER = 8,
    /* `invalid-username-encoding`: the user name is not UTF-8, or SASLprep rejects it. */
    FE2O3_SERVER_ERROR_INVALID_USERNAME_ENCODING = 9,
    /* `no-resources`. */
    FE2O3_SERVER_ERROR_NO_RESOURCES = 10,
    /* `other-error`, and every value that RFC 5802 does not name, also the empty one. */
    FE2O3_SERVER_ERROR_OTHER_ERROR = 11
};

/* The frames of the SASL layer, by their descriptors (AMQP 1.0, part 5, section 5.3.3). */
enum fe2o3_frame_kind {
    /* The list of mechanisms. */
    FE2O3_KIND_MECHANISMS = 64,
    /* The init. */
    FE2O3_KIND_INIT = 65,
    /* The challenge. */
    FE2O3_KIND_CHALLENGE = 66,
    /* The response. */
    FE2O3_KIND_RESPONSE = 67,
    /* The outcome. */
    FE2O3_KIND_OUTCOME = 68
};

/* The code of an outcome (AMQP 1.0, part 5, section 5.3.3.6). */
enum fe2o3_sasl_code {
    /* The login succeeded. */
    FE2O3_CODE_OK = 0,
    /* The credentials are wrong. */
    FE2O3_CODE_AUTH = 1,
    /* A system error. */
    FE2O3_CODE_SYS = 2,
    /* A permanent system error. */
    FE2O3_CODE_SYS_PERM = 3,
    /* A temporary system error. */
    FE2O3_CODE_SYS_TEMP = 4
};
