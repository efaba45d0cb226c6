/* SCRAM (RFC 5802, RFC 7677) and the SASL layer of AMQP 1.0. Written by tools/generate/header.py.
 *
 * A call returns a status: FE2O3_OK, or why it failed. There is nothing to initialize and nothing to free. The state of
 * an exchange is a struct that you allocate, and the library keeps nothing between calls.
 *
 * Protocols other than AMQP, such as IMAP, SMTP, XMPP and Kafka, carry the messages of SASL themselves. For them SCRAM,
 * PLAIN and EXTERNAL have calls over messages. ANONYMOUS needs none: its message is trace information, and the server
 * accepts any (RFC 4505, section 2).
 *
 * What you have to ensure, since no call can test it:
 *
 * - Each pointer is valid for as many bytes as its type, or the length after it, says, and for no more than
 *   PTRDIFF_MAX. It may be null, or any value, if the length after it is 0, also in a struct. `keys` of a login may be null:
 *   there are none. No other pointer is null.
 * - What a call writes to (`out`, its length, each struct that is not const) does not overlap its other arguments. What
 *   a call only reads may overlap, and other threads may read it meanwhile.
 * - A struct that a call writes to is used by one call at a time. Any thread may call, but no signal handler.
 * - A struct is set to zeros before its first use: by its FE2O3_.._INIT, or by `memset`. All zeros is a client that has
 *   sent nothing, a server without an open challenge, a connection that has received nothing, no keys, or no options.
 * - malloc, realloc and free are those of C, and there is enough stack. A call uses and clears at most 96 KiB of it.
 *
 * Numbers, bytes, and lengths inside structs may have any value. So any bit pattern of a struct without pointers is
 * legal, even one that the library never wrote, or wrote for another login: every call defines its result, and none
 * harms memory. But anyone who can write to a client's struct can write there that the server is authenticated.
 *
 * What the calls promise:
 *
 * - A call that fails changes nothing, with three exceptions: with FE2O3_ROOM_TOO_SMALL `out_len` says how many bytes
 *   suffice, with FE2O3_NEEDS_RECORDS a user name is written to `out`, and its length to `out_len`, and
 *   `fe2o3_scram_lines_find` and `fe2o3_scram_lines_all_have` write `line`.
 * - A call that succeeds writes its text to the beginning of `out`, and the text's length to `out_len`. The rest of `out`
 *   stays as it was. There is no zero at the end of the text.
 * - Each call returns, never aborts, and keeps no pointer. It allocates by malloc and frees all of it. If an allocation
 *   fails it returns FE2O3_OUT_OF_MEMORY.
 *
 * What a wrapper in C around each call does, which is tested and not proved: it wipes the memory that the call has
 * allocated, the stack that it has used, and the registers that it may have changed.
 *
 * What they do not promise: your own copies of secrets are not wiped. Records, keys, the structs of clients that have
 * answered, passwords and messages of PLAIN are yours: wipe them by fe2o3_wipe. Comparisons are not guaranteed to take
 * constant time. The library has no random numbers: you pass 32 fresh random bytes for each nonce. */
#ifndef FE2O3_SASL_H
#define FE2O3_SASL_H

#include <stddef.h>
#include <stdint.h>

#ifdef __cplusplus
extern "C" {
#endif

/* An empty text: a pointer and its length, as two arguments or in an initializer of a struct. */
#define FE2O3_NONE (const uint8_t *)"", 0

/* The hash of a SCRAM mechanism, of a record, and of keys. */
enum fe2o3_scram_version {
    /* SCRAM-SHA-1. */
    FE2O3_SHA_1 = 1,
    /* SCRAM-SHA-256. */
    FE2O3_SHA_256 = 256,
    /* SCRAM-SHA-512. */
    FE2O3_SHA_512 = 512
};

/* The mechanism of a client on a connection. */
enum fe2o3_mechanism {
    /* SCRAM with the hash of the login. */
    FE2O3_SCRAM = 0,
    /* PLAIN (RFC 4616). */
    FE2O3_PLAIN = 1,
    /* ANONYMOUS (RFC 4505). */
    FE2O3_ANONYMOUS = 2,
    /* EXTERNAL (RFC 4422, appendix A). */
    FE2O3_EXTERNAL = 3,
    /* ANONYMOUS with the user name of the login as its initial response: trace information (RFC 4505, section 2), or
     * the empty text. The client also answers one empty challenge by it. */
    FE2O3_ANONYMOUS_AS = 4,
    /* EXTERNAL with the user name of the login as its initial response: the authorization identity, or the empty text
     * for the user whom the transport has authenticated. The client also answers one empty challenge by it. */
    FE2O3_EXTERNAL_AS = 5
};

/* What a client logs in with. */
enum fe2o3_secret {
    /* The password. */
    FE2O3_BY_PASSWORD = 0,
    /* The keys. */
    FE2O3_BY_KEYS = 1,
    /* The keys if they are of the server's salt and iteration count, otherwise the password. A struct of zeros has no keys
     * yet: then the password. */
    FE2O3_BY_PASSWORD_AND_KEYS = 2
};

/* The form of a password. */
enum fe2o3_password_form {
    /* The password as the user typed it, which has to be printable ASCII. */
    FE2O3_TYPED = 0,
    /* The password as you prepared it (fe2o3_saslprep): any text, used without change. */
    FE2O3_PREPARED = 1
};

/* What a client says of the channel under an exchange, such as TLS (RFC 5802, section 6). */
enum fe2o3_channel_use {
    /* The client does not support channel binding, or has no channel: its GS2 header is `n,,`. */
    FE2O3_CHANNEL_ABSENT = 0,
    /* The client has a channel, but was offered no mechanism with `-PLUS`: its GS2 header is `y,,`. The client rejects
     * what is no extension in the place of one, and a server that offers `-PLUS` has to reject `y,,`, as the servers here
     * do. Nobody on the way can then remove `-PLUS` from the offer unnoticed. A server that offers `-PLUS` and accepts
     * `y,,` does not protect against that: log in to it by FE2O3_CHANNEL_BOUND only. */
    FE2O3_CHANNEL_NOT_OFFERED = 1,
    /* The client binds its channel, by a mechanism with `-PLUS`: its GS2 header is `p=` and the kind. */
    FE2O3_CHANNEL_BOUND = 2
};

/* A kind of channel binding. Both sides have to use one kind: a client selects it, and cannot ask a server which kinds it
 * has. */
enum fe2o3_channel_kind {
    /* `tls-unique` (RFC 5929, section 3): the first Finished message of the TLS handshake. Only for TLS 1.2 and older,
     * and only with the extended master secret (RFC 7627). */
    FE2O3_TLS_UNIQUE = 1,
    /* `tls-server-end-point` (RFC 5929, section 4): the hash of the server's certificate. It does not protect against
     * someone who has the server's private key. */
    FE2O3_TLS_SERVER_END_POINT = 2,
    /* `tls-exporter` (RFC 9266): 32 bytes of exported keying material. For TLS 1.3, and for TLS 1.2 with the extended
     * master secret. */
    FE2O3_TLS_EXPORTER = 3
};

/* Which password fe2o3_plain_verify tests for the one of a message. User names are compared as received. */
enum fe2o3_plain_passwords {
    /* The password as typed, which has to be printable ASCII. Every other password is rejected. */
    FE2O3_PLAIN_PASSWORDS_TYPED = 0,
    /* The password as received, as a prepared text. For clients that prepare their passwords. */
    FE2O3_PLAIN_PASSWORDS_PREPARED = 1,
    /* The text that SASLprep prepares the password to, with unassigned code points allowed. A password that SASLprep
     * rejects, or whose prepared text is empty, is rejected. */
    FE2O3_PLAIN_PASSWORDS_SASLPREP = 2
};

/* What fe2o3_saslprep does with code points that Unicode 3.2 does not assign. */
enum fe2o3_unassigned {
    /* Rejects unassigned code points: the call returns FE2O3_UNASSIGNED_CODE_POINT. */
    FE2O3_UNASSIGNED_REFUSED = 0,
    /* Allows unassigned code points, and leaves them unchanged. */
    FE2O3_UNASSIGNED_ALLOWED = 1
};

/* What a server offers: a sum of these values. */
enum fe2o3_offer {
    /* SCRAM-SHA-512. */
    FE2O3_OFFER_SCRAM_SHA_512 = 1,
    /* SCRAM-SHA-256. */
    FE2O3_OFFER_SCRAM_SHA_256 = 2,
    /* SCRAM-SHA-1, for clients that have no other hash. */
    FE2O3_OFFER_SCRAM_SHA_1 = 4,
    /* PLAIN, which sends the password in clear. */
    FE2O3_OFFER_PLAIN = 8,
    /* ANONYMOUS. */
    FE2O3_OFFER_ANONYMOUS = 16,
    /* EXTERNAL, if `external_authcid` is not empty. */
    FE2O3_OFFER_EXTERNAL = 32
};

/* What else a server does: a sum of these values. */
enum fe2o3_server_flag {
    /* SCRAM also accepts the GS2 header `y,,`: see the field `accept_cbind_flag_y` of struct
     * fe2o3_scram_rules. */
    FE2O3_ACCEPT_CBIND_FLAG_Y = 64,
    /* PLAIN tests the password as received, also a non-ASCII one. Clients prepare their passwords. */
    FE2O3_PLAIN_PREPARED = 128,
    /* PLAIN tests the text that SASLprep prepares the password to. Not with FE2O3_PLAIN_PREPARED. */
    FE2O3_PLAIN_SASLPREP = 256,
    /* SCRAM and PLAIN answer an init without an initial response by an empty challenge. The client's
     * response is then the initial response (RFC 4422, section 5). Without this value such an init fails. */
    FE2O3_INITIAL_RESPONSE_BY_CHALLENGE = 512,
    /* SCRAM sends the server's signature in a challenge, and the outcome OK follows the client's empty
     * response (RFC 4422, section 5). For clients that do not read the data of an outcome. */
    FE2O3_SIGNATURE_BY_CHALLENGE = 1024,
    /* SCRAM is strict. It reads messages by the grammar of RFC 5802, section 7: see the field `strict` of
     * struct fe2o3_scram_rules. */
    FE2O3_STRICT = 2048,
    /* SCRAM rejects what is no extension in the place of one, and nothing more: see the field
     * `reject_misplaced` of struct fe2o3_scram_rules. A server with `channels` does so in any case. */
    FE2O3_REJECT_MISPLACED = 4096
};

/* How far a login on a connection is. */
enum fe2o3_progress {
    /* The login goes on: the other side has to send more. */
    FE2O3_IN_PROGRESS = 0,
    /* The login is complete. */
    FE2O3_AUTHENTICATED = 1,
    /* The login has failed, and you have to close the connection. */
    FE2O3_FAILED = 2
};

/* What the other side of a connection has to send next. */
enum fe2o3_expected {
    /* The protocol header. */
    FE2O3_EXPECTED_HEADER = 0,
    /* The list of mechanisms. */
    FE2O3_EXPECTED_MECHANISMS = 1,
    /* The init. */
    FE2O3_EXPECTED_INIT = 2,
    /* The challenge, or already the outcome. */
    FE2O3_EXPECTED_CHALLENGE = 3,
    /* The response. */
    FE2O3_EXPECTED_RESPONSE = 4,
    /* The outcome. */
    FE2O3_EXPECTED_OUTCOME = 5,
    /* The server's signature in a challenge, or already the outcome. Only for a client with `signature_by_challenge`. */
    FE2O3_EXPECTED_SIGNATURE_CHALLENGE = 6
};

/* How far the exchange of a SCRAM client is. Other values count as FE2O3_SCRAM_CLIENT_INITIAL. */
enum fe2o3_scram_client_state {
    /* The client has sent nothing. */
    FE2O3_SCRAM_CLIENT_INITIAL = 0,
    /* The client has sent the client-first message. */
    FE2O3_SCRAM_CLIENT_FIRST_SENT = 1,
    /* The client has sent the client-final message, and expects the server's signature. */
    FE2O3_SCRAM_CLIENT_FINAL_SENT = 2,
    /* The login is complete, and the server authenticated. */
    FE2O3_SCRAM_CLIENT_COMPLETE = 3,
    /* The server was authenticated by a challenge, and the client expects an outcome without data. */
    FE2O3_SCRAM_CLIENT_SIGNATURE_VERIFIED = 4
};

/* How far the exchange of a SCRAM server is. Other values count as FE2O3_SCRAM_SERVER_INITIAL. A challenge is open in
 * five of these states. */
enum fe2o3_scram_server_state {
    /* No challenge is open, and no user is authenticated. */
    FE2O3_SCRAM_SERVER_INITIAL = 0,
    /* A challenge is open, to a client whose GS2 header is `n,,`. */
    FE2O3_SCRAM_SERVER_CHALLENGE_OPEN = 1,
    /* The user is authenticated. */
    FE2O3_SCRAM_SERVER_AUTHENTICATED = 2,
    /* A challenge is open, to a client whose GS2 header is `y,,`. */
    FE2O3_SCRAM_SERVER_CHALLENGE_OPEN_CBIND_FLAG_Y = 3,
    /* The server's signature was sent to the user in a challenge. The user is authenticated once the client has answered
     * it. Only on a connection. */
    FE2O3_SCRAM_SERVER_SIGNATURE_SENT = 4,
    /* An empty challenge was sent for an init without an initial response. `first` is the name of the mechanism, and
     * `nonce` the 32 bytes of the init's nonce. Only on a connection. */
    FE2O3_SCRAM_SERVER_INITIAL_RESPONSE_ASKED = 5,
    /* A challenge is open, to a client that binds the channel by `tls-unique`. */
    FE2O3_SCRAM_SERVER_CHALLENGE_OPEN_TLS_UNIQUE = 7,
    /* A challenge is open, to a client that binds the channel by `tls-server-end-point`. */
    FE2O3_SCRAM_SERVER_CHALLENGE_OPEN_TLS_SERVER_END_POINT = 8,
    /* A challenge is open, to a client that binds the channel by `tls-exporter`. */
    FE2O3_SCRAM_SERVER_CHALLENGE_OPEN_TLS_EXPORTER = 9
};

/* Why a server answered a frame by the outcome Auth, for its log only: the peer receives that outcome, without data, for
 * each of them. Where SCRAM rejects the text of a message for another reason, the number is the status of that error:
 * FE2O3_SERVER_UTF8_ERROR and those after it. */
enum fe2o3_rejection {
    /* The last frame was not answered by Auth. */
    FE2O3_REJECTION_NONE = 0,
    /* The init names a mechanism that the server does not offer. */
    FE2O3_REJECTION_MECHANISM_NOT_OFFERED = 101,
    /* The init of a mechanism that needs an initial response has none. */
    FE2O3_REJECTION_NO_INITIAL_RESPONSE = 102,
    /* The initial response is no message of PLAIN that is accepted for a test of its password. */
    FE2O3_REJECTION_INVALID_MESSAGE = 103,
    /* The client's channel binding is not one that the server accepts (RFC 5802, section 6): someone may be between the
     * two. */
    FE2O3_REJECTION_CHANNEL = 104,
    /* No record of the user was passed, for any hash. */
    FE2O3_REJECTION_UNKNOWN_USER = 105,
    /* No record of the user was passed for the hash of the exchange, and one for another hash was. */
    FE2O3_REJECTION_NO_RECORD_FOR_HASH = 106,
    /* The user of SCRAM may not act for the identity that it names, whatever its proof is (RFC 4422, section 2). */
    FE2O3_REJECTION_NO_RIGHT = 107,
    /* The proof of SCRAM does not meet the record: the password is wrong, or you passed a mock record. */
    FE2O3_REJECTION_WRONG_PROOF = 108,
    /* The message of PLAIN does not have the password of the tested record, the user has none, or may not act for the
     * identity. */
    FE2O3_REJECTION_WRONG_PASSWORD = 109,
    /* The init of EXTERNAL asks for another name than the one that the transport authenticated. */
    FE2O3_REJECTION_OTHER_IDENTITY = 110,
    /* An init arrives where the server waits for the response that completes the init before it. */
    FE2O3_REJECTION_UNEXPECTED_INIT = 111,
    /* A response arrives where no mechanism waits for one, or it is not empty where only an empty one is expected. */
    FE2O3_REJECTION_UNEXPECTED_RESPONSE = 112,
    /* None of the others. No call writes it. */
    FE2O3_REJECTION_OTHER = 113
};

/* The error that a server sends in the place of a message (RFC 5802, section 7, `server-error-value`). */
enum fe2o3_server_error {
    /* The message is no error. */
    FE2O3_SERVER_ERROR_NONE = 0,
    /* `invalid-encoding`. */
    FE2O3_SERVER_ERROR_INVALID_ENCODING = 1,
    /* `extensions-not-supported`: the server does not support a mandatory extension. */
    FE2O3_SERVER_ERROR_EXTENSIONS_NOT_SUPPORTED = 2,
    /* `invalid-proof`: the password is wrong, or the user is unknown. */
    FE2O3_SERVER_ERROR_INVALID_PROOF = 3,
    /* `channel-bindings-dont-match`. */
    FE2O3_SERVER_ERROR_CHANNEL_BINDINGS_DONT_MATCH = 4,
    /* `server-does-support-channel-binding`: the client assumed that the server does not. */
    FE2O3_SERVER_ERROR_SERVER_DOES_SUPPORT_CHANNEL_BINDING = 5,
    /* `channel-binding-not-supported`. */
    FE2O3_SERVER_ERROR_CHANNEL_BINDING_NOT_SUPPORTED = 6,
    /* `unsupported-channel-binding-type`. */
    FE2O3_SERVER_ERROR_UNSUPPORTED_CHANNEL_BINDING_TYPE = 7,
    /* `unknown-user`. */
    FE2O3_SERVER_ERROR_UNKNOWN_USER = 8,
    /* `invalid-username-encoding`: the user name is not UTF-8, or SASLprep rejects it. */
    FE2O3_SERVER_ERROR_INVALID_USERNAME_ENCODING = 9,
    /* `no-resources`. */
    FE2O3_SERVER_ERROR_NO_RESOURCES = 10,
    /* `other-error`, and every value that RFC 5802 does not name, also the empty one. */
    FE2O3_SERVER_ERROR_OTHER_ERROR = 11
};

/* The frames of the SASL layer, by their descriptors (AMQP 1.0, part 5, section 5.3.3). */
enum fe2o3_frame_kind {
    /* The list of mechanisms. */
    FE2O3_KIND_MECHANISMS = 64,
    /* The init. */
    FE2O3_KIND_INIT = 65,
    /* The challenge. */
    FE2O3_KIND_CHALLENGE = 66,
    /* The response. */
    FE2O3_KIND_RESPONSE = 67,
    /* The outcome. */
    FE2O3_KIND_OUTCOME = 68
};

/* The code of an outcome (AMQP 1.0, part 5, section 5.3.3.6). */
enum fe2o3_sasl_code {
    /* The login succeeded. */
    FE2O3_CODE_OK = 0,
    /* The credentials are wrong. */
    FE2O3_CODE_AUTH = 1,
    /* A system error. */
    FE2O3_CODE_SYS = 2,
    /* A permanent system error. */
    FE2O3_CODE_SYS_PERM = 3,
    /* A temporary system error. */
    FE2O3_CODE_SYS_TEMP = 4
};

/* The length in bytes of the salt of a new record and of a mock record, unless you choose another one. */
#define FE2O3_DEFAULT_SALT_LEN 16

/* The iteration count of a new record and of a mock record, unless you choose another one. */
#define FE2O3_DEFAULT_ITERATIONS 4096

/* The structs, for fe2o3_size. */
enum fe2o3_size_of {
    FE2O3_SIZE_OF_LOGIN = 0,
    FE2O3_SIZE_OF_SCRAM_CLIENT = 1,
    FE2O3_SIZE_OF_SCRAM_KEYS = 2,
    FE2O3_SIZE_OF_SCRAM_SERVER = 3,
    FE2O3_SIZE_OF_SCRAM_RECORD = 4,
    FE2O3_SIZE_OF_CONNECTION = 5,
    FE2O3_SIZE_OF_SASL_LOGIN = 6,
    FE2O3_SIZE_OF_SASL_CLIENT = 7,
    FE2O3_SIZE_OF_SASL_FRAME_VIEW = 8,
    FE2O3_SIZE_OF_SASL_SERVER_CONFIG = 9,
    FE2O3_SIZE_OF_SASL_SERVER = 10,
    FE2O3_SIZE_OF_SCRAM_RULES = 11
};

/* What a call returns. */
enum fe2o3_status {
    /* The call succeeded. */
    FE2O3_OK = 0,
    /* An allocation failed. Nothing has changed, and you can repeat the call. */
    FE2O3_OUT_OF_MEMORY = 1,
    /* `out` is too small. Nothing has changed, and `out_len` says how many bytes suffice. */
    FE2O3_ROOM_TOO_SMALL = 2,
    /* A text is not UTF-8. */
    FE2O3_NOT_UTF8 = 3,
    /* The version is none of enum fe2o3_scram_version. */
    FE2O3_NO_SUCH_VERSION = 4,
    /* A text is longer than the array that holds it, an identity to act for has more than 256 bytes, or the salts of mock
     * records have more than 64. */
    FE2O3_TOO_LONG = 5,
    /* The typed password is not printable ASCII. */
    FE2O3_NOT_PRINTABLE = 6,
    /* The iteration count is 0. */
    FE2O3_ZERO_ITERATIONS = 7,
    /* The secret is none of enum fe2o3_secret. */
    FE2O3_NO_SUCH_SECRET = 8,
    /* The struct holds no keys. */
    FE2O3_NO_KEYS = 9,
    /* The keys, or the record on a line, are of another version. */
    FE2O3_OTHER_VERSION = 10,
    /* The password is not that of the record. */
    FE2O3_OTHER_PASSWORD = 11,
    /* The mechanism is none of enum fe2o3_mechanism, or the offer of a server is empty or not a sum of values of enum
     * fe2o3_offer. */
    FE2O3_NO_SUCH_MECHANISM = 12,
    /* The connection has ended: its `progress` is not FE2O3_IN_PROGRESS. */
    FE2O3_ENDED = 13,
    /* The struct of the connection has a value that no call writes. */
    FE2O3_INVALID_SNAPSHOT = 14,
    /* The message of PLAIN claims no user name, or the user name for a message of PLAIN is empty. */
    FE2O3_NAMES_NO_USER = 15,
    /* The server needs the records of the user whose name is in `out`. Nothing has changed: look the user up, and repeat
     * the call with the same bytes. */
    FE2O3_NEEDS_RECORDS = 16,
    /* The message is not UTF-8. */
    FE2O3_CLIENT_UTF8_ERROR = 20,
    /* The server-first message has fewer than three parts. */
    FE2O3_CLIENT_INSUFFICIENT_PARTS = 21,
    /* The server-first message begins with `m=`, a mandatory extension. */
    FE2O3_CLIENT_EXTENSION_NOT_SUPPORTED = 22,
    /* The first part of the server-first message does not begin with `r=`. */
    FE2O3_CLIENT_NONCE_NOT_FOUND = 23,
    /* The nonce of the server-first message does not begin with the client's nonce. */
    FE2O3_CLIENT_CLIENT_NONCE_MISMATCH = 24,
    /* The second part of the server-first message does not begin with `s=`. */
    FE2O3_CLIENT_SALT_NOT_FOUND = 25,
    /* A salt or a signature is not base64. */
    FE2O3_CLIENT_BASE64_DECODE_ERROR = 26,
    /* The third part of the server-first message does not begin with `i=`. */
    FE2O3_CLIENT_ITERATION_COUNT_NOT_FOUND = 27,
    /* The iteration count is not a number from 1 to 4294967295. */
    FE2O3_CLIENT_ITERATION_COUNT_PARSE_ERROR = 28,
    /* The iteration count is below the client's minimum. */
    FE2O3_CLIENT_ITERATION_COUNT_TOO_SMALL = 29,
    /* The iteration count is above the client's maximum. */
    FE2O3_CLIENT_ITERATION_COUNT_TOO_LARGE = 30,
    /* The password is not printable ASCII. */
    FE2O3_CLIENT_NORMALIZE_ERROR = 31,
    /* The client has only keys, and the message names another salt or iteration count than theirs. A man in the middle
     * can cause this: it is no reason to forget the keys. */
    FE2O3_CLIENT_STALE_KEYS = 32,
    /* Never returned, since HMAC takes keys of every length. */
    FE2O3_CLIENT_HMAC_ERROR_INVALID_LENGTH = 33,
    /* Never returned by the client, which XORs only digests of one hash. */
    FE2O3_CLIENT_XOR_LENGTH_MISMATCH = 34,
    /* The client does not expect the message in this state. */
    FE2O3_CLIENT_ILLEGAL_CLIENT_STATE = 35,
    /* The server-final message does not begin with `v=`, or has another signature. */
    FE2O3_CLIENT_SERVER_SIGNATURE_MISMATCH = 36,
    /* A part in the place of an extension is none (RFC 5802, section 7): after the iteration count, or after the
     * signature. Only a client that is strict, has a channel (also one that says `y,,`) or sends an authorization
     * identity returns it. */
    FE2O3_CLIENT_MISPLACED_ATTRIBUTE = 37,
    /* The message is not UTF-8. */
    FE2O3_SERVER_UTF8_ERROR = 40,
    /* The client-first message does not begin with a GS2 header that the server accepts: `n,,`, and by its rules `y,,`,
     * `p=` with the kind of a channel, or `a=` with an identity. */
    FE2O3_SERVER_CANNOT_PARSE_GS2_HEADER = 41,
    /* The client-first message does not name a user: the first part after the header does not begin with `n=`, or goes
     * on with a text that escapes no user name. */
    FE2O3_SERVER_CANNOT_PARSE_USERNAME = 42,
    /* The second part of the client-first message is absent or does not begin with `r=`. */
    FE2O3_SERVER_CANNOT_PARSE_CLIENT_NONCE = 43,
    /* Never returned, since HMAC takes keys of every length. */
    FE2O3_SERVER_HMAC_ERROR_INVALID_LENGTH = 44,
    /* The proof is not as long as a digest. */
    FE2O3_SERVER_XOR_LENGTH_MISMATCH = 45,
    /* Never returned by a server, which has records and no password. */
    FE2O3_SERVER_NORMALIZE_ERROR = 46,
    /* The client-final message does not begin with `c=`, or its second part is absent or does not
     * begin with `r=`. */
    FE2O3_SERVER_CANNOT_PARSE_CLIENT_FINAL_MESSAGE = 47,
    /* The channel binding has another GS2 header than the client-first message, or other data than the server's channel.
     */
    FE2O3_SERVER_INVALID_CHANNEL_BINDING = 48,
    /* A channel binding or a proof is not base64. */
    FE2O3_SERVER_BASE64_DECODE_ERROR = 49,
    /* The nonce is not that of the challenge. */
    FE2O3_SERVER_INCORRECT_CLIENT_FINAL_NONCE = 50,
    /* The last part of the client-final message does not begin with `p=`. */
    FE2O3_SERVER_PROOF_NOT_FOUND_IN_CLIENT_FINAL = 51,
    /* The proof does not meet the stored key, or the user may not act for the identity that the client named. */
    FE2O3_SERVER_AUTHENTICATION_FAILED = 52,
    /* No challenge is open. */
    FE2O3_SERVER_ILLEGAL_AUTHENTICATOR_STATE = 53,
    /* A part in the place of an extension is none (RFC 5802, section 7): after the nonce of the client-first message, or
     * between the nonce and the proof of the client-final message. Only a server that tests extensions returns it
     * (`ServerRules::is_strict`), and one that accepts the GS2 header `y,,`, to a client that sends it. */
    FE2O3_SERVER_MISPLACED_ATTRIBUTE = 54,
    /* The text does not have five fields: parts are missing or left over. */
    FE2O3_RECORD_PARTS_MISMATCH = 60,
    /* The first field is not the name of a known mechanism. */
    FE2O3_RECORD_UNKNOWN_MECHANISM = 61,
    /* The second field is not a number from 1 to 4294967295 in decimal without a sign or leading zeros. */
    FE2O3_RECORD_ITERATION_COUNT_PARSE_ERROR = 62,
    /* The salt or a key is not base64. */
    FE2O3_RECORD_BASE64_DECODE_ERROR = 63,
    /* A key is not as long as a digest of the mechanism. */
    FE2O3_RECORD_KEY_LENGTH_MISMATCH = 64,
    /* The last line does not end with a line feed. */
    FE2O3_LINE_FEED_MISSING = 65,
    /* The line has no space. */
    FE2O3_SPACE_MISSING = 66,
    /* The text before the last space of the line is not an escaped user name. */
    FE2O3_INVALID_NAME = 67,
    /* No line has a record of this version for this user. */
    FE2O3_NO_SUCH_USER = 68,
    /* The user name contains a line feed, or the iteration count is 0. */
    FE2O3_NOT_WRITABLE = 69,
    /* The peer sent another protocol header than that of SASL. */
    FE2O3_PROTOCOL_HEADER_MISMATCH = 70,
    /* The frame has fewer than 8 or more than 512 bytes. */
    FE2O3_FRAME_SIZE = 71,
    /* The peer sent another frame than the expected one. */
    FE2O3_UNEXPECTED_FRAME = 72,
    /* The reply does not fit into a frame of 512 bytes. */
    FE2O3_REPLY_TOO_LARGE = 73,
    /* The frame cannot be parsed. */
    FE2O3_MALFORMED_FRAME = 74,
    /* The frame has another type or data offset than a SASL frame. */
    FE2O3_NO_SASL_FRAME = 75,
    /* A size inside the frame exceeds 32 bits. */
    FE2O3_FRAME_TOO_LARGE = 76,
    /* The client cannot answer this frame, the server does not offer this mechanism, or the login names an identity to
     * act for and its mechanism is ANONYMOUS or EXTERNAL. */
    FE2O3_NOT_IMPLEMENTED = 77,
    /* The server rejected the login: the credentials are wrong. */
    FE2O3_REFUSED_AUTH = 81,
    /* The server rejected the login because of a system error. */
    FE2O3_REFUSED_SYS = 82,
    /* The server rejected the login because of a permanent system error. */
    FE2O3_REFUSED_SYS_PERM = 83,
    /* The server rejected the login because of a temporary system error. */
    FE2O3_REFUSED_SYS_TEMP = 84,
    /* The argument `unassigned` is none of enum fe2o3_unassigned, a form none of enum fe2o3_password_form, `passwords`
     * none of enum fe2o3_plain_passwords, or the flags of a server no sum of values of enum fe2o3_server_flag. */
    FE2O3_NO_SUCH_CHOICE = 85,
    /* The prepared text contains a character that RFC 4013, section 2.3, prohibits, or a word for a message of PLAIN
     * (RFC 4616, section 2) or an identity to act for (RFC 4422, section 3.4.1) contains a zero byte. */
    FE2O3_PROHIBITED_CHARACTER = 86,
    /* The prepared text mixes right-to-left and left-to-right characters, or does not begin and end with a
     * right-to-left one (RFC 3454, section 6). */
    FE2O3_MIXED_DIRECTIONS = 87,
    /* The text, or the prepared text, contains a code point that Unicode 3.2 does not assign. */
    FE2O3_UNASSIGNED_CODE_POINT = 88,
    /* The server sent an error in the place of its signature, such as `e=invalid-proof` for a wrong password.
     * fe2o3_scram_server_error says which. */
    FE2O3_SERVER_ERROR = 89,
    /* The other side ended its stream before the login was complete. */
    FE2O3_END_OF_INPUT = 90,
    /* The data of a channel are empty or have more than 64 bytes (RFC 5802, section 7). */
    FE2O3_CHANNEL_DATA_LENGTH = 91,
    /* The use of a channel is none of enum fe2o3_channel_use, or its kind none of enum fe2o3_channel_kind. */
    FE2O3_NO_SUCH_CHANNEL = 92,
    /* The password for a message of PLAIN is empty (RFC 4616, section 2). */
    FE2O3_EMPTY_PASSWORD = 93
};

/* ---- The library ---- */

/* A text that the library lends for as long as it is loaded. */
struct fe2o3_text {
    /* The bytes. The last one is zero. */
    const uint8_t *bytes;
    size_t bytes_len;
};
/* All zeros. */
#define FE2O3_TEXT_INIT { NULL, 0 }

/* Returns the version of the library: 10000 times the major, 100 times the minor, and the patch number. */
uint32_t fe2o3_version(void);

/* Returns how many bytes a struct has in the library. `which` is one of enum fe2o3_size_of; other numbers return 0.
 * If your own `sizeof` differs, your header is of another version. */
size_t fe2o3_size(uint32_t which);

/* Writes the text of a status to `text`. It ends with a zero byte and stays valid for as long as the library is
 * loaded. */
void fe2o3_status_text(uint32_t status, struct fe2o3_text *text);

/* ---- Secrets ---- */

/* Overwrites memory by zeros. Unlike a `memset` before the end of a block, it is never dropped by a compiler.
 * Call it for each struct, password and message with a secret, once you no longer need it.
 *
 * This function is written in C, and not proved. */
void fe2o3_wipe(void *memory, size_t len);

/* ---- Passwords ---- */

/* Writes the text that SASLprep (RFC 4013) prepares `text` to. Printable ASCII is prepared to itself; other ASCII is
 * rejected.
 *
 * Prepare a non-ASCII password before you store or use it, and pass the result where a prepared password is expected.
 * `unassigned` is FE2O3_UNASSIGNED_REFUSED for a text that is stored, and FE2O3_UNASSIGNED_ALLOWED for one that is
 * only compared with stored texts (RFC 3454, section 7).
 *
 * The errors are, in this order: FE2O3_NO_SUCH_CHOICE for another `unassigned`; FE2O3_NOT_UTF8;
 * FE2O3_PROHIBITED_CHARACTER; FE2O3_MIXED_DIRECTIONS; FE2O3_UNASSIGNED_CODE_POINT; and FE2O3_ROOM_TOO_SMALL. */
uint32_t fe2o3_saslprep(
    const uint8_t *text,
    size_t text_len,
    uint32_t unassigned,
    uint8_t *out,
    size_t out_size,
    size_t *out_len);

/* ---- Records, which a server stores in place of passwords ---- */

/* What a server stores of a password: a SCRAM record (RFC 5802, section 3). */
struct fe2o3_scram_record {
    /* The hash of the mechanism: one of enum fe2o3_scram_version. */
    uint32_t version;
    /* The iteration count. */
    uint32_t iterations;
    /* The number of bytes of `salt` in use, at most 128. */
    uint32_t salt_len;
    /* The salt. */
    uint8_t salt[128];
    /* The StoredKey, with as many bytes as a digest of the hash. */
    uint8_t stored_key[64];
    /* The ServerKey, with as many bytes as a digest of the hash. */
    uint8_t server_key[64];
};
/* All zeros. */
#define FE2O3_SCRAM_RECORD_INIT { 0, 0, 0, { 0 }, { 0 }, { 0 } }

/* Computes the record of a password. `form` is one of enum fe2o3_password_form. A client logs in with exactly the text
 * of which the record was made.
 *
 * `salt` is random bytes, fresh for each record, at most 128: 16 suffice. For SCRAM-SHA-256 some clients of MongoDB
 * require 28.
 *
 * The errors are, in this order: FE2O3_NO_SUCH_VERSION; FE2O3_NO_SUCH_CHOICE for another `form`; FE2O3_NOT_UTF8;
 * FE2O3_TOO_LONG for a salt of more than 128 bytes; FE2O3_NOT_PRINTABLE for a typed password that is not printable
 * ASCII; and FE2O3_ZERO_ITERATIONS. */
uint32_t fe2o3_scram_record_make(
    uint32_t version,
    uint32_t form,
    const uint8_t *password,
    size_t password_len,
    const uint8_t *salt,
    size_t salt_len,
    uint32_t iterations,
    struct fe2o3_scram_record *kept);

/* Makes a record of the fields that another server stores: the salt, the iteration count, the StoredKey and the
 * ServerKey (RFC 5802, section 3), each as bytes, not in base64.
 *
 * The errors are, in this order: FE2O3_NO_SUCH_VERSION; FE2O3_TOO_LONG for a salt of more than 128 bytes;
 * FE2O3_ZERO_ITERATIONS; and FE2O3_RECORD_KEY_LENGTH_MISMATCH if a key has another length than a digest of the hash. */
uint32_t fe2o3_scram_record_from_fields(
    uint32_t version,
    const uint8_t *salt,
    size_t salt_len,
    uint32_t iterations,
    const uint8_t *stored_key,
    size_t stored_key_len,
    const uint8_t *server_key,
    size_t server_key_len,
    struct fe2o3_scram_record *kept);

/* Computes a mock record for a name that the server does not know, or that has no record of this hash. The server then
 * answers unknown users like known ones. The login then fails at its proof. It is for the calls over messages:
 * `fe2o3_sasl_server_receive` makes mock records itself, by `mock_secret` of its configuration.
 *
 * `secret` is 32 random bytes, one value for all names, kept as long as the records. `salt_len`, at most 64, and
 * `iterations` are those of the server's other records. An iteration count of 0 is not rejected here.
 *
 * The errors are, in this order: FE2O3_NO_SUCH_VERSION; FE2O3_NOT_UTF8 for the name; and FE2O3_TOO_LONG for a
 * `salt_len` above 64. */
uint32_t fe2o3_scram_record_mock(
    uint32_t version,
    const uint8_t *secret,
    size_t secret_len,
    const uint8_t *username,
    size_t username_len,
    size_t salt_len,
    uint32_t iterations,
    struct fe2o3_scram_record *kept);

/* Parses the text of a record, as PostgreSQL writes it (RFC 5803, section 2).
 *
 * The errors are, in this order: FE2O3_NOT_UTF8; the fault of the text, such as FE2O3_RECORD_PARTS_MISMATCH; and
 * FE2O3_TOO_LONG for a salt of more than 128 bytes. */
uint32_t fe2o3_scram_record_parse(const uint8_t *text, size_t text_len, struct fe2o3_scram_record *kept);

/* Writes the text of a record, as PostgreSQL reads it (RFC 5803, section 2): at most 384 bytes.
 *
 * The errors are, in this order: FE2O3_NO_SUCH_VERSION, and FE2O3_TOO_LONG for a `salt_len` above 128, if the struct
 * holds no record; and FE2O3_ROOM_TOO_SMALL. */
uint32_t fe2o3_scram_record_text(
    const struct fe2o3_scram_record *kept,
    uint8_t *out,
    size_t out_size,
    size_t *out_len);

/* Compares a password, for instance one received by PLAIN, with a record: FE2O3_OK if it is the record's,
 * FE2O3_OTHER_PASSWORD if not. `form` is one of enum fe2o3_password_form. The call hashes as often as the record's
 * iteration count says, so pass only your own records.
 *
 * The errors are, in this order: FE2O3_NO_SUCH_VERSION, and FE2O3_TOO_LONG for a `salt_len` above 128, if the struct
 * holds no record; FE2O3_NO_SUCH_CHOICE for another `form`; FE2O3_NOT_UTF8; and FE2O3_OTHER_PASSWORD. */
uint32_t fe2o3_scram_record_verify(
    const struct fe2o3_scram_record *kept,
    uint32_t form,
    const uint8_t *password,
    size_t password_len);

/* Computes the record of a salted password (RFC 5802, section 3), which you computed as `Hi(password, salt,
 * iterations)`. The record is then that of fe2o3_scram_record_make. The call cannot test that the salted password is
 * of this salt and count. `salt` is random bytes, fresh for each record, at most 128: 16 suffice.
 *
 * The errors are, in this order: FE2O3_NO_SUCH_VERSION; FE2O3_RECORD_KEY_LENGTH_MISMATCH if the salted password has
 * another length than a digest of the hash; FE2O3_TOO_LONG for a salt of more than 128 bytes; and
 * FE2O3_ZERO_ITERATIONS. */
uint32_t fe2o3_scram_record_of_salted(
    uint32_t version,
    const uint8_t *salted,
    size_t salted_len,
    const uint8_t *salt,
    size_t salt_len,
    uint32_t iterations,
    struct fe2o3_scram_record *kept);

/* Compares a salted password (RFC 5802, section 3) with a record: FE2O3_OK if it is the record's, FE2O3_OTHER_PASSWORD
 * if not, and for each one if the record's iteration count is 0. A server that receives a password, for instance by
 * PLAIN, computes it as `Hi(password, salt, iterations)` with the salt and the count of the record. For a non-ASCII
 * password prepare it first (fe2o3_saslprep).
 *
 * The errors are, in this order: FE2O3_NO_SUCH_VERSION, and FE2O3_TOO_LONG for a `salt_len` above 128, if the struct
 * holds no record; and FE2O3_RECORD_KEY_LENGTH_MISMATCH if the salted password has another length than a digest of the
 * hash. The keys are compared over their whole length, whatever the bytes are; no claim is made about time. */
uint32_t fe2o3_scram_record_verify_salted(
    const struct fe2o3_scram_record *kept,
    const uint8_t *salted,
    size_t salted_len);

/* Finds the record of a user in a text that has a line for each record: the name with each comma as `=2C` and each
 * equals sign as `=3D`, a space, the text of the record, and a line feed. Of several lines for a name and version,
 * the first counts.
 *
 * If nothing is found, `line` is the number of the line that cannot be parsed, counted from 1, or 0 if every line
 * can.
 *
 * The errors are, in this order: FE2O3_NO_SUCH_VERSION; FE2O3_NOT_UTF8 for the name or the text; the fault of the
 * first line that cannot be parsed; and FE2O3_NO_SUCH_USER, or FE2O3_TOO_LONG for a salt of more than 128 bytes. */
uint32_t fe2o3_scram_lines_find(
    const uint8_t *lines,
    size_t lines_len,
    const uint8_t *username,
    size_t username_len,
    uint32_t version,
    size_t *line,
    struct fe2o3_scram_record *kept);

/* Writes 1 to `all` if each user of a text has a record of this version, and 0 if one has none. The text is one that
 * `fe2o3_scram_lines_find` reads. Offer only hashes by which all users can log in: a client selects the strongest hash that
 * is offered, whether its user has a record of it or not. A text without users has 1 for every version.
 *
 * If the text cannot be parsed, `line` is the number of the first line that cannot, counted from 1. It is 0 after the other
 * errors, except FE2O3_OUT_OF_MEMORY, which leaves it unchanged.
 *
 * The errors are, in this order: FE2O3_NO_SUCH_VERSION; FE2O3_NOT_UTF8; and the fault of the first line that cannot
 * be parsed. */
uint32_t fe2o3_scram_lines_all_have(
    const uint8_t *lines,
    size_t lines_len,
    uint32_t version,
    size_t *line,
    uint32_t *all);

/* Writes the line of a user and a record, with its line feed, as `fe2o3_scram_lines_find` reads it.
 *
 * The errors are, in this order: FE2O3_NOT_UTF8 for the name; FE2O3_NO_SUCH_VERSION, and FE2O3_TOO_LONG for a `salt_len`
 * above 128, if the struct holds no record; FE2O3_NOT_WRITABLE if the name contains a line feed or the iteration count
 * is 0; and FE2O3_ROOM_TOO_SMALL. */
uint32_t fe2o3_scram_line(
    const uint8_t *username,
    size_t username_len,
    const struct fe2o3_scram_record *kept,
    uint8_t *out,
    size_t out_size,
    size_t *out_len);

/* ---- Keys, which a client can cache in place of a password ---- */

/* The keys that a client can cache in place of its password. They are secret: they suffice to log in. */
struct fe2o3_scram_keys {
    /* The hash of the mechanism: one of enum fe2o3_scram_version, or 0 if the struct holds no keys. */
    uint32_t version;
    /* The iteration count for which the keys were derived. */
    uint32_t iterations;
    /* The number of bytes of `salt` in use, at most 128. */
    uint32_t salt_len;
    /* The salt for which the keys were derived. */
    uint8_t salt[128];
    /* The ClientKey, with as many bytes as a digest of the hash. */
    uint8_t client_key[64];
    /* The ServerKey, with as many bytes as a digest of the hash. */
    uint8_t server_key[64];
};
/* All zeros. */
#define FE2O3_SCRAM_KEYS_INIT { 0, 0, 0, { 0 }, { 0 }, { 0 } }

/* Derives the keys of a password, for a server that uses this salt and iteration count. `form` is one of enum
 * fe2o3_password_form.
 *
 * The errors are those of `fe2o3_scram_record_make`, in the same order. */
uint32_t fe2o3_scram_keys_make(
    uint32_t version,
    uint32_t form,
    const uint8_t *password,
    size_t password_len,
    const uint8_t *salt,
    size_t salt_len,
    uint32_t iterations,
    struct fe2o3_scram_keys *keys);

/* Computes the keys of a salted password (RFC 5802, section 3), for a server that uses this salt and iteration count.
 * You computed it as `Hi(password, salt, iterations)`, for example with OpenSSL's PKCS5_PBKDF2_HMAC, of which the
 * output is as long as a digest. The keys are then those of fe2o3_scram_keys_make. The call cannot test that the
 * salted password is of this salt and count.
 *
 * The errors are, in this order: FE2O3_NO_SUCH_VERSION; FE2O3_RECORD_KEY_LENGTH_MISMATCH if the salted password has
 * another length than a digest of the hash; FE2O3_TOO_LONG for a salt of more than 128 bytes; and
 * FE2O3_ZERO_ITERATIONS. */
uint32_t fe2o3_scram_keys_of_salted(
    uint32_t version,
    const uint8_t *salted,
    size_t salted_len,
    const uint8_t *salt,
    size_t salt_len,
    uint32_t iterations,
    struct fe2o3_scram_keys *keys);

/* ---- A SCRAM client, over messages ---- */

/* A user and a secret. You lend the struct to each call of an exchange, always with the same values. */
struct fe2o3_login {
    /* The hash of the mechanism: one of enum fe2o3_scram_version. */
    uint32_t version;
    /* What the client logs in with: one of enum fe2o3_secret. */
    uint32_t secret;
    /* The form of the password: one of enum fe2o3_password_form. */
    uint32_t form;
    /* The minimum iteration count that the client accepts. RFC 7677 requires at least 4096. */
    uint32_t min_iterations;
    /* The maximum iteration count that the client accepts. */
    uint32_t max_iterations;
    /* The user name, without escapes. */
    const uint8_t *username;
    size_t username_len;
    /* The identity that the client acts for, without escapes (RFC 4422, section 2), of 256 bytes at most. If empty, the
     * client acts for itself. The server decides whether the user may act for it.
     *
     * - SCRAM sends it in the GS2 header (RFC 5802, section 7). A client that names one tests the extensions like one
     *   that has a channel.
     * - PLAIN sends it as the first part of its message (RFC 4616, section 2), by `fe2o3_sasl_client_receive`. A client
     *   that names one tests its words like a strict one.
     * - ANONYMOUS and EXTERNAL do not send it: with one this call returns FE2O3_NOT_IMPLEMENTED. FE2O3_EXTERNAL_AS sends
     *   `username` as the identity. */
    const uint8_t *acts_for;
    size_t acts_for_len;
    /* The password. */
    const uint8_t *password;
    size_t password_len;
    /* The keys of an earlier login, or a struct of zeros. You can replace them between the calls of an exchange: after
     * FE2O3_CLIENT_STALE_KEYS repeat the call with keys of the salt and the count that the server names. */
    const struct fe2o3_scram_keys *keys;
    /* Whether the client accepts the server's signature in a challenge too, before an outcome without data (RFC 4422,
     * section 5). 0 means that the signature has to come in the outcome. Any other value accepts it in both. Only
     * `fe2o3_sasl_client_receive` uses this field. */
    uint32_t signature_by_challenge;
    /* Whether the client is strict: it reads messages by the grammar of RFC 5802, section 7. 0 is no, any other value
     * yes. The server's part of the nonce has to be printable and not empty (FE2O3_CLIENT_CLIENT_NONCE_MISMATCH), the
     * iteration count without a sign or leading zeros (FE2O3_CLIENT_ITERATION_COUNT_PARSE_ERROR), and what follows the
     * count or the signature an extension (FE2O3_CLIENT_MISPLACED_ATTRIBUTE). A client that has a channel or names an
     * identity tests the extensions in any case.
     *
     * A strict client sends a user name and a password by PLAIN only if a message can have them (RFC 4616, section 2).
     * Otherwise the call returns FE2O3_NAMES_NO_USER or FE2O3_EMPTY_PASSWORD for an empty one, and
     * FE2O3_PROHIBITED_CHARACTER for a zero byte. */
    uint32_t strict;
    /* What the client says of its channel (RFC 5802, section 6): one of enum fe2o3_channel_use. */
    uint32_t channel_use;
    /* The kind of the channel that is bound: one of enum fe2o3_channel_kind. Only for FE2O3_CHANNEL_BOUND. */
    uint32_t channel_kind;
    /* The number of bytes of `channel_data` in use, from 1 to 64. Only for FE2O3_CHANNEL_BOUND. */
    uint32_t channel_data_len;
    /* The data of the channel that is bound, which identify it. You have them from TLS. Only for FE2O3_CHANNEL_BOUND.
     */
    uint8_t channel_data[64];
};
/* All zeros. */
#define FE2O3_LOGIN_INIT { 0, 0, 0, 0, 0, NULL, 0, NULL, 0, NULL, 0, NULL, 0, 0, 0, 0, 0, { 0 } }

/* The state of a SCRAM client between calls. All zeros is a client that has sent nothing.
 *
 * A call that succeeds writes zeros to every field that its new state does not use, and after every length. The
 * struct never holds a password, and it holds keys only in `keys`. */
struct fe2o3_scram_client {
    /* How far the exchange is: one of enum fe2o3_scram_client_state. */
    uint32_t state;
    /* The number of bytes of `signature` in use. */
    uint32_t signature_len;
    /* The nonce of the client-first message. */
    uint8_t nonce[32];
    /* The ServerSignature that the client expects. */
    uint8_t signature[64];
    /* The keys with which the client-final message was computed. */
    struct fe2o3_scram_keys keys;
};
/* All zeros. */
#define FE2O3_SCRAM_CLIENT_INIT { 0, 0, { 0 }, { 0 }, { 0, 0, 0, { 0 }, { 0 }, { 0 } } }

/* Writes the client-first message. This starts a new exchange, whatever the state of the client is. `nonce` is 32
 * fresh random bytes. With FE2O3_CHANNEL_BOUND name the mechanism with `-PLUS` to the server, such as
 * SCRAM-SHA-256-PLUS (RFC 5802, section 6). The whole login is tested, also the secret, which this message does not use.
 *
 * The faults of a login are, in this order: FE2O3_NO_SUCH_VERSION; FE2O3_NOT_UTF8 for the user name; FE2O3_NOT_UTF8,
 * FE2O3_PROHIBITED_CHARACTER for a zero byte, and FE2O3_TOO_LONG for the identity; FE2O3_NO_SUCH_CHANNEL and
 * FE2O3_CHANNEL_DATA_LENGTH; FE2O3_NO_SUCH_SECRET; FE2O3_NO_SUCH_CHOICE and FE2O3_NOT_UTF8 for the password;
 * FE2O3_NO_KEYS and FE2O3_OTHER_VERSION for the keys. After these comes FE2O3_ROOM_TOO_SMALL. */
uint32_t fe2o3_scram_client_first(
    const struct fe2o3_login *login,
    struct fe2o3_scram_client *client,
    const uint8_t nonce[32],
    uint8_t *out,
    size_t out_size,
    size_t *out_len);

/* Answers the server-first message with the client-final message. `out` needs 128 bytes more than the server-first
 * message has, or 256 more if the client binds a channel, and another 1024 if it names an identity to act for. This is
 * tested before anything is hashed.
 *
 * The errors are, in this order: FE2O3_ROOM_TOO_SMALL, FE2O3_CLIENT_UTF8_ERROR, the faults of the login,
 * FE2O3_CLIENT_ILLEGAL_CLIENT_STATE, and the other faults of the message. */
uint32_t fe2o3_scram_client_final(
    const struct fe2o3_login *login,
    struct fe2o3_scram_client *client,
    const uint8_t *server_first,
    size_t server_first_len,
    uint8_t *out,
    size_t out_size,
    size_t *out_len);

/* Verifies the server-final message. Only FE2O3_OK means that the login is complete and the server authenticated.
 *
 * The message may be an error of the server, such as `e=invalid-proof` for a wrong password. The call then returns
 * FE2O3_SERVER_ERROR, and fe2o3_scram_server_error says which error it is. After every other status than FE2O3_OK the
 * server has not proved that it knows the user's keys. FE2O3_CLIENT_MISPLACED_ATTRIBUTE comes before
 * FE2O3_CLIENT_SERVER_SIGNATURE_MISMATCH, so a forged message can cause either.
 *
 * The faults of the login come first, then FE2O3_CLIENT_ILLEGAL_CLIENT_STATE, and then those of the message. */
uint32_t fe2o3_scram_client_verify(
    const struct fe2o3_login *login,
    struct fe2o3_scram_client *client,
    const uint8_t *server_final,
    size_t server_final_len);

/* Writes the keys of a complete login, for the next login to the same server. As long as the server keeps its salt
 * and iteration count, a login by keys needs no password and no PBKDF2. The keys are secret: they suffice to log in.
 *
 * The errors are, in this order: FE2O3_CLIENT_ILLEGAL_CLIENT_STATE unless a login is complete; and FE2O3_NO_KEYS if
 * the struct had no room for its salt. */
uint32_t fe2o3_scram_client_get_keys(const struct fe2o3_scram_client *client, struct fe2o3_scram_keys *keys);

/* ---- A SCRAM server, over messages ---- */

/* The state of a SCRAM server between calls. All zeros is a server without an open challenge.
 *
 * A call that succeeds writes zeros to every field that its new state does not use, and after every length. The
 * struct never holds a password or a key of a record. */
struct fe2o3_scram_server {
    /* How far the exchange is: one of enum fe2o3_scram_server_state. */
    uint32_t state;
    /* The hash of the open challenge: one of enum fe2o3_scram_version. */
    uint32_t version;
    /* The number of bytes of `user` in use. */
    uint32_t user_len;
    /* The number of bytes of `bare` in use. */
    uint32_t bare_len;
    /* The number of bytes of `nonce` in use. */
    uint32_t nonce_len;
    /* The number of bytes of `first` in use. */
    uint32_t first_len;
    /* The number of bytes of `acts_for` in use, or 0 if the client acts for itself. */
    uint32_t acts_for_len;
    /* Why the last frame was answered by the outcome Auth, for the server's log only: one of enum fe2o3_rejection, or the
     * error of a SCRAM message, one of enum fe2o3_status. Written by `fe2o3_sasl_server_receive`. */
    uint32_t rejection;
    /* The user name, without escapes. It is authenticated in the state FE2O3_SCRAM_SERVER_AUTHENTICATED only; before, the
     * client claims it. */
    uint8_t user[256];
    /* The client-first message without its GS2 header. */
    uint8_t bare[1024];
    /* The nonces of both sides. */
    uint8_t nonce[512];
    /* The server-first message. */
    uint8_t first[1024];
    /* The identity that the client acts for, without escapes (RFC 5802, section 5.1). While a challenge is open the client
     * only names it; afterwards the user may act for it. */
    uint8_t acts_for[256];
};
/* All zeros. */
#define FE2O3_SCRAM_SERVER_INIT { 0, 0, 0, 0, 0, 0, 0, 0, { 0 }, { 0 }, { 0 }, { 0 }, { 0 } }

/* What identifies the channel of a server (RFC 5802, section 6). All zeros is a server that binds no channel. */
struct fe2o3_server_channels {
    /* Whether the server binds channels: by a mechanism with `-PLUS` it accepts only clients that bind the channel, by a
     * kind of which the struct has data (RFC 5802, section 6). 0 is no, and the data are then not used. Any other value
     * is yes. Without data of any kind such a mechanism accepts no client. */
    uint32_t binds_channel;
    /* The number of bytes of `tls_unique` in use, at most 64, or 0 if the server does not accept this kind. */
    uint32_t tls_unique_len;
    /* The data of `tls-unique` (RFC 5929, section 3): the first Finished message of the TLS handshake. Only for TLS 1.2
     * and older, and only with the extended master secret (RFC 7627). */
    uint8_t tls_unique[64];
    /* The number of bytes of `tls_server_end_point` in use, at most 64, or 0 if the server does not accept this kind.
     */
    uint32_t tls_server_end_point_len;
    /* The data of `tls-server-end-point` (RFC 5929, section 4): the hash of the server's certificate. */
    uint8_t tls_server_end_point[64];
    /* The number of bytes of `tls_exporter` in use, at most 64, or 0 if the server does not accept this kind. */
    uint32_t tls_exporter_len;
    /* The data of `tls-exporter` (RFC 9266): 32 bytes of exported keying material. For TLS 1.3, and for TLS 1.2 with
     * the extended master secret. */
    uint8_t tls_exporter[64];
};
/* All zeros. */
#define FE2O3_SERVER_CHANNELS_INIT { 0, 0, { 0 }, 0, { 0 }, 0, { 0 } }

/* What a SCRAM server accepts, where RFC 5802 leaves it a choice. You lend the struct to each call of an exchange,
 * always with the same values. */
struct fe2o3_scram_rules {
    /* Whether the GS2 header may be `y,,` too: the client supports channel binding, and was offered no mechanism with
     * `-PLUS` (RFC 5802, section 6). 0 is no, any other value yes. Only for a server that offers no such mechanism. It
     * has no effect if the server binds channels. */
    uint32_t accept_cbind_flag_y;
    /* Whether the server is strict: it reads messages by the grammar of RFC 5802, section 7. 0 is no, any other value
     * yes. A user name has to be of one or more characters and without NUL (FE2O3_SERVER_CANNOT_PARSE_USERNAME), a nonce
     * printable and not empty (FE2O3_SERVER_CANNOT_PARSE_CLIENT_NONCE), and what follows the nonce an extension
     * (FE2O3_SERVER_MISPLACED_ATTRIBUTE). A server that binds channels or accepts identities tests the extensions in any
     * case. */
    uint32_t strict;
    /* The server's channel, if it is of the mechanism with `-PLUS`. */
    struct fe2o3_server_channels channels;
    /* Whether a client may name an identity to act for (RFC 5802, section 5.1). 0 is no, any other value yes. The identity
     * is of one or more characters and without NUL (FE2O3_SERVER_CANNOT_PARSE_GS2_HEADER), and such a server tests the
     * extensions like a strict one. By itself the option lets each user name only itself. */
    uint32_t accept_authzid;
    /* Whether the server rejects what is no extension in the place of one (FE2O3_SERVER_MISPLACED_ATTRIBUTE), like a strict
     * one, and nothing more: an empty user name is accepted. 0 is no, any other value yes. A server that binds channels
     * rejects it in any case. If you offer a mechanism with `-PLUS` beside one without it, set the field for both, and
     * accept `y,,` by neither. Then nobody on the way can make a client that has a channel log in without binding it,
     * whatever library the client is of. */
    uint32_t reject_misplaced;
    /* The identities that the claimed user may act for besides itself (RFC 4422, section 2), without escapes, with a zero
     * byte after each but the last, which may have one too. It is read with the client-final message: look up the
     * identities of the user (`fe2o3_scram_server_claimed_user`), or only whether it may act for the one that
     * the client names (`fe2o3_scram_server_claimed_identity`). A user who may not act for the identity gets
     * FE2O3_SERVER_AUTHENTICATION_FAILED, like one with a wrong password. */
    const uint8_t *identities;
    size_t identities_len;
};
/* All zeros. */
#define FE2O3_SCRAM_RULES_INIT { 0, 0, { 0, 0, { 0 }, 0, { 0 }, 0, { 0 } }, 0, 0, NULL, 0 }

/* Writes the user name that a client-first message claims, without escapes. Nobody is authenticated yet: use it only
 * to look up the record.
 *
 * `rules` are those for `fe2o3_scram_server_first` (RFC 5802, section 5.1). If the server binds channels, the GS2 header
 * has to be one that `fe2o3_scram_server_first` accepts. Otherwise `n,,` and `y,,` are both accepted here, whatever the
 * rules say.
 *
 * The errors are those of `fe2o3_scram_server_first` from FE2O3_CHANNEL_DATA_LENGTH to
 * FE2O3_SERVER_MISPLACED_ATTRIBUTE, in the same order, and then FE2O3_ROOM_TOO_SMALL. */
uint32_t fe2o3_scram_server_claimed_user(
    const struct fe2o3_scram_rules *rules,
    const uint8_t *client_first,
    size_t client_first_len,
    uint8_t *out,
    size_t out_size,
    size_t *out_len);

/* Writes the identity that a client-first message names to act for, without escapes, or 0 bytes if the client acts for
 * itself. It is only claimed, like the user's name: use it only to look up whether the user may act for it. The message is
 * read like by `fe2o3_scram_server_claimed_user`, and the errors are the same. */
uint32_t fe2o3_scram_server_claimed_identity(
    const struct fe2o3_scram_rules *rules,
    const uint8_t *client_first,
    size_t client_first_len,
    uint8_t *out,
    size_t out_size,
    size_t *out_len);

/* Answers a client-first message with the server-first message (RFC 5802, section 5.1). This starts a new exchange,
 * whatever the state of the server is.
 *
 * Pass the same rules to `fe2o3_scram_server_final`. Rules of zeros are those of a server without options. `kept` is the
 * record of the claimed user (`fe2o3_scram_server_claimed_user`), or a mock record (`fe2o3_scram_record_mock`) for an
 * unknown one. `nonce` is 32 fresh random bytes.
 *
 * If the server binds channels, the GS2 header has to be `p=` with the name of a kind whose data the rules have
 * (section 6). Otherwise it has to be `n,,`, or `y,,` if the rules accept that. It may name an identity to act for, as
 * `n,a=NAME,`, if the rules accept that.
 *
 * The errors are, in this order:
 *
 * - FE2O3_CHANNEL_DATA_LENGTH if the rules bind channels, and data have more than 64 bytes,
 * - FE2O3_SERVER_UTF8_ERROR,
 * - FE2O3_SERVER_CANNOT_PARSE_GS2_HEADER if the rules do not accept the header, or its identity is empty, has NUL or a
 *   wrong escape,
 * - FE2O3_SERVER_CANNOT_PARSE_USERNAME and FE2O3_SERVER_CANNOT_PARSE_CLIENT_NONCE,
 * - the same two of a strict server, if the name is empty or has NUL, or the nonce is empty or not printable,
 * - FE2O3_SERVER_MISPLACED_ATTRIBUTE of a server that is strict, has `reject_misplaced`, binds channels or accepts
 *   identities,
 * - FE2O3_NO_SUCH_VERSION and FE2O3_TOO_LONG if `kept` holds no record,
 * - FE2O3_TOO_LONG if a text of the challenge does not fit into the struct,
 * - FE2O3_ROOM_TOO_SMALL. */
uint32_t fe2o3_scram_server_first(
    const struct fe2o3_scram_rules *rules,
    const struct fe2o3_scram_record *kept,
    struct fe2o3_scram_server *server,
    const uint8_t nonce[32],
    const uint8_t *client_first,
    size_t client_first_len,
    uint8_t *out,
    size_t out_size,
    size_t *out_len);

/* Answers a client-final message with the server-final message, if its proof is right (RFC 5802, section 5.1). Only
 * FE2O3_OK means that the user is authenticated.
 *
 * `rules` and `kept` are those that `fe2o3_scram_server_first` was called with. `out` needs 90 bytes, which is tested
 * before anything is hashed. If the server binds channels, the message has to have the GS2 header of the exchange and
 * the server's data of its kind (section 6).
 *
 * The errors are, in this order:
 *
 * - FE2O3_CHANNEL_DATA_LENGTH if the rules bind channels, and data have more than 64 bytes,
 * - FE2O3_ROOM_TOO_SMALL if `out` has fewer than 90 bytes,
 * - FE2O3_SERVER_ILLEGAL_AUTHENTICATOR_STATE if no challenge is open for these rules: none is open, or it is to a
 *   client that binds a channel by a kind of which the rules have no data, or the rules bind channels and its client
 *   binds none,
 * - FE2O3_NO_SUCH_VERSION and FE2O3_TOO_LONG if `kept` holds no record,
 * - FE2O3_SERVER_UTF8_ERROR, FE2O3_SERVER_CANNOT_PARSE_CLIENT_FINAL_MESSAGE and FE2O3_SERVER_BASE64_DECODE_ERROR,
 * - FE2O3_SERVER_INVALID_CHANNEL_BINDING if the message has another GS2 header than the exchange, or other data than
 *   the rules,
 * - FE2O3_SERVER_CANNOT_PARSE_CLIENT_FINAL_MESSAGE and FE2O3_SERVER_INCORRECT_CLIENT_FINAL_NONCE,
 * - FE2O3_SERVER_PROOF_NOT_FOUND_IN_CLIENT_FINAL and FE2O3_SERVER_BASE64_DECODE_ERROR, of the proof,
 * - FE2O3_SERVER_MISPLACED_ATTRIBUTE of a server that is strict, has `reject_misplaced`, binds channels or accepts
 *   identities, or whose client said `y,,`,
 * - FE2O3_SERVER_XOR_LENGTH_MISMATCH if the proof is not as long as a digest,
 * - FE2O3_SERVER_AUTHENTICATION_FAILED if the proof is wrong, or the user may not act for the identity that the client
 *   named (RFC 4422, section 2). */
uint32_t fe2o3_scram_server_final(
    const struct fe2o3_scram_rules *rules,
    const struct fe2o3_scram_record *kept,
    struct fe2o3_scram_server *server,
    const uint8_t *client_final,
    size_t client_final_len,
    uint8_t *out,
    size_t out_size,
    size_t *out_len);

/* Writes the name of the authenticated user, without escapes. Returns FE2O3_SERVER_ILLEGAL_AUTHENTICATOR_STATE if no
 * user is authenticated. */
uint32_t fe2o3_scram_server_authenticated_user(
    const struct fe2o3_scram_server *server,
    uint8_t *out,
    size_t out_size,
    size_t *out_len);

/* Writes the identity that the authenticated user acts for, without escapes, or 0 bytes if the user acts for itself (RFC
 * 4422, section 2). The user may act for it. Returns FE2O3_SERVER_ILLEGAL_AUTHENTICATOR_STATE if no user is
 * authenticated. */
uint32_t fe2o3_scram_server_acts_for(
    const struct fe2o3_scram_server *server,
    uint8_t *out,
    size_t out_size,
    size_t *out_len);

/* ---- Errors that a server sends in the place of a message ---- */

/* Returns which error of the server a message is, or 0 (FE2O3_SERVER_ERROR_NONE) if it is none. The result is one of
 * enum fe2o3_server_error.
 *
 * A server may send an error in the place of any message, such as `e=invalid-proof` after a wrong password (RFC 5802,
 * section 7). A value that RFC 5802 does not name is FE2O3_SERVER_ERROR_OTHER_ERROR. The message is not authenticated:
 * anyone who can alter the connection can write it. */
uint32_t fe2o3_scram_server_error(const uint8_t *message, size_t message_len);

/* Writes the name of a server's error to `text`, as RFC 5802 spells it. `error` is one of enum fe2o3_server_error. The
 * text ends with a zero byte and stays valid for as long as the library is loaded. */
void fe2o3_scram_server_error_text(uint32_t error, struct fe2o3_text *text);

/* Writes the message by which a server reports to its client why a call failed with this status: `e=` and a name (RFC
 * 5802, section 7). The status is one that a call of the server over messages returned, or FE2O3_NO_SUCH_USER.
 *
 * An unknown user, a mock record and a wrong proof have one message, `e=invalid-proof`. A status that no name of RFC 5802
 * describes has `e=other-error`. `unknown-user`, `extensions-not-supported`, and the errors of channel binding
 * other than `channel-bindings-dont-match` are never written. */
uint32_t fe2o3_scram_server_error_message(uint32_t status, uint8_t *out, size_t out_size, size_t *out_len);

/* ---- PLAIN and EXTERNAL, over messages ---- */

/* Writes the message by which a client logs in with PLAIN (RFC 4616, section 2): the identity that the client acts for,
 * which is empty if it acts for itself, the user name and the password, with a zero byte between them. The message has
 * the password in clear, so send it over TLS only. Prepare a non-ASCII password first (`fe2o3_saslprep`).
 *
 * Returns, in this order, FE2O3_NOT_UTF8 if a word is not UTF-8, FE2O3_NAMES_NO_USER if the user name is empty,
 * FE2O3_EMPTY_PASSWORD if the password is, FE2O3_PROHIBITED_CHARACTER if a word contains a zero byte, and
 * FE2O3_TOO_LONG if the identity has more than 256 bytes. */
uint32_t fe2o3_plain_message(
    const uint8_t *acts_for,
    size_t acts_for_len,
    const uint8_t *username,
    size_t username_len,
    const uint8_t *password,
    size_t password_len,
    uint8_t *out,
    size_t out_size,
    size_t *out_len);

/* Writes the user name that a message of PLAIN claims (RFC 4616, section 2). Nobody is authenticated yet: use it only
 * to look up the record for `fe2o3_plain_verify`.
 *
 * Returns FE2O3_NAMES_NO_USER for a message that `fe2o3_plain_verify` rejects whatever its other arguments are: one that
 * is not UTF-8 in three parts, whose user name is empty, or whose password does not have 1 to 1024 bytes. */
uint32_t fe2o3_plain_claimed_user(
    const uint8_t *message,
    size_t message_len,
    uint8_t *out,
    size_t out_size,
    size_t *out_len);

/* Writes the identity that a message of PLAIN asks to act for (RFC 4616, section 2), or 0 bytes if its user acts for
 * itself. It is only claimed, like the user's name: use it only to look up whether the user may act for it. The errors are
 * those of `fe2o3_plain_claimed_user`. */
uint32_t fe2o3_plain_claimed_identity(
    const uint8_t *message,
    size_t message_len,
    uint8_t *out,
    size_t out_size,
    size_t *out_len);

/* Tests a message of PLAIN against the record of the user that it claims (RFC 4616). Only FE2O3_OK means that this
 * user (`fe2o3_plain_claimed_user`) is authenticated, and may act for the identity that the message asks for
 * (`fe2o3_plain_claimed_identity`). PLAIN sends the password in clear, so use it over TLS only.
 *
 * `records` are those of the claimed user, of any hashes. The first one that can be read counts, so put mock records
 * last. For an unknown user pass a mock record (`fe2o3_scram_record_mock`), or none: the password is then hashed with
 * SHA-256 and this iteration count, as often as for a known user with this count, and rejected. `passwords` is one of
 * enum fe2o3_plain_passwords.
 *
 * `accept_authzid` says whether a message may name an identity other than its user. 0 is no, any other value yes.
 * `identities` are those that the user may act for besides itself (RFC 4422, section 2), with a zero byte after each but
 * the last, which may have one too.
 *
 * Returns, in this order, FE2O3_NO_SUCH_CHOICE if `passwords` is none of the enum, FE2O3_NOT_UTF8 if the identities
 * are not UTF-8, and FE2O3_SERVER_AUTHENTICATION_FAILED for every message that does not log in: a wrong password, an
 * unknown user, an identity that the user may not act for, or no acceptable message. */
uint32_t fe2o3_plain_verify(
    const struct fe2o3_scram_record *records,
    size_t records_count,
    uint32_t passwords,
    uint32_t iterations,
    uint32_t accept_authzid,
    const uint8_t *identities,
    size_t identities_len,
    const uint8_t *message,
    size_t message_len);

/* Tests a message of EXTERNAL (RFC 4422, appendix A) against the name that the transport authenticated, such as the
 * subject of a client's TLS certificate. Only FE2O3_OK means that this user is authenticated: the message is empty or
 * equals `authcid`.
 *
 * Returns FE2O3_SERVER_AUTHENTICATION_FAILED for every other message, and for each message if `authcid` is empty: then
 * the transport authenticated no one. Returns FE2O3_NOT_UTF8 if `authcid` is not UTF-8. The message of a client is the
 * identity itself, so there is no call that writes it. */
uint32_t fe2o3_external_verify(const uint8_t *authcid, size_t authcid_len, const uint8_t *message, size_t message_len);

/* ---- The client's side of a connection, over bytes ---- */

/* One side of a connection between calls. All zeros is a connection that has received nothing and accepts no extended
 * headers. */
struct fe2o3_connection {
    /* How far the login is: one of enum fe2o3_progress.
     *
     * After an outcome frame, a client has FE2O3_AUTHENTICATED if the code is FE2O3_CODE_OK and, for SCRAM, the frame
     * holds the expected ServerSignature, or has no data and a challenge held it before (`signature_by_challenge`). The
     * other mechanisms do not authenticate the server. Otherwise it has FE2O3_FAILED. A server has FE2O3_AUTHENTICATED
     * once it writes an outcome with FE2O3_CODE_OK, and FE2O3_FAILED once it writes another one. */
    uint32_t progress;
    /* Why the login failed: a status, such as FE2O3_REFUSED_AUTH for an outcome with FE2O3_CODE_AUTH, or
     * FE2O3_CLIENT_SERVER_SIGNATURE_MISMATCH for a server that is not authenticated. FE2O3_OK unless `progress` is
     * FE2O3_FAILED. */
    uint32_t why;
    /* What the other side has to send next: one of enum fe2o3_expected. */
    uint32_t expected;
    /* The number of bytes of `held` in use. */
    uint32_t held_len;
    /* The part of the expected header or frame that has been received. After a login that failed with
     * FE2O3_PROTOCOL_HEADER_MISMATCH, the 8 bytes that were received in the place of the header of SASL:
     * `AMQP 2 1 0 0` for a server that requires TLS first, `AMQP 0 1 0 0` for a client that begins AMQP without SASL.
     */
    uint8_t held[512];
    /* Whether this side accepts frames with an extended header (AMQP 1.0, part 2, section 2.3.1): 0 is no, any other
     * value yes. Set it before the first call. The side then reads such a frame without that header. The limit of 512
     * bytes is that of the frame as received. Otherwise a data offset above 2 ends the login with FE2O3_NO_SASL_FRAME,
     * as one below 2 or after the end of the frame does in any case. A call that receives bytes writes 0 or 1. */
    uint32_t extended_headers;
};
/* All zeros. */
#define FE2O3_CONNECTION_INIT { 0, 0, 0, 0, { 0 }, 0 }

/* How a client logs in on a connection. You lend the struct to each call, always with the same values. */
struct fe2o3_sasl_login {
    /* One of enum fe2o3_mechanism. FE2O3_SCRAM uses the hash of `login`. */
    uint32_t mechanism;
    /* The hostname of the init frame. If empty, the init has none. */
    const uint8_t *hostname;
    size_t hostname_len;
    /* The user and the secret. PLAIN uses the name, the password, `acts_for` and `strict`. FE2O3_ANONYMOUS_AS and
     * FE2O3_EXTERNAL_AS use the name, which may be empty. ANONYMOUS and EXTERNAL use nothing of it. These four return
     * FE2O3_NOT_IMPLEMENTED for an `acts_for` that is not empty. */
    struct fe2o3_login login;
};
/* All zeros. */
#define FE2O3_SASL_LOGIN_INIT { 0, NULL, 0, { 0, 0, 0, 0, 0, NULL, 0, NULL, 0, NULL, 0, NULL, 0, 0, 0, 0, 0, { 0 } } }

/* The client's side of a connection between calls. All zeros is a connection that has received nothing. */
struct fe2o3_sasl_client {
    /* The connection. */
    struct fe2o3_connection connection;
    /* The SCRAM client. After the login it holds the keys (`fe2o3_scram_client_get_keys`). For FE2O3_ANONYMOUS_AS and
     * FE2O3_EXTERNAL_AS its `state` is FE2O3_SCRAM_CLIENT_FIRST_SENT after the init, until the response. */
    struct fe2o3_scram_client scram;
};
/* All zeros. */
#define FE2O3_SASL_CLIENT_INIT { { 0, 0, 0, 0, { 0 }, 0 }, { 0, 0, { 0 }, { 0 }, { 0, 0, 0, { 0 }, { 0 }, { 0 } } } }

/* Writes the SASL protocol header, with which a client begins a connection. */
uint32_t fe2o3_sasl_client_open(uint8_t *out, size_t out_size, size_t *out_len);

/* Takes received bytes, to the end of the expected header or frame, and writes the bytes to send, at most 512. `out`
 * needs 512 bytes, which is tested before anything is hashed. `nonce` is 32 fresh random bytes, or any bytes if
 * `fe2o3_sasl_wants_nonce` returns 0.
 *
 * FE2O3_OK does not mean that the login succeeds: look at `progress` and `why` of the connection. `taken` is how many
 * bytes were used. While `progress` is FE2O3_IN_PROGRESS, pass the rest in the next call; after the login it belongs
 * to AMQP.
 *
 * The errors are, in this order: FE2O3_ROOM_TOO_SMALL; FE2O3_ENDED; FE2O3_INVALID_SNAPSHOT for a struct that no call
 * has written; FE2O3_NOT_UTF8 for the hostname; the faults of the login, for SCRAM as in `fe2o3_scram_client_first`;
 * and FE2O3_INVALID_SNAPSHOT for a part of a frame that is not expected. Each leaves the struct unchanged. */
uint32_t fe2o3_sasl_client_receive(
    const struct fe2o3_sasl_login *login,
    struct fe2o3_sasl_client *client,
    const uint8_t *bytes,
    size_t bytes_len,
    const uint8_t nonce[32],
    size_t *taken,
    uint8_t *out,
    size_t out_size,
    size_t *out_len);

/* ---- The server's side of a connection, over bytes ---- */

/* What a server offers, and the records of one user. You lend the struct to each call. */
struct fe2o3_sasl_server_config {
    /* The offered mechanisms: a sum of values of enum fe2o3_offer. PLAIN sends the password in clear, so offer it
     * over TLS only. */
    uint32_t mechanisms;
    /* What else the server does: a sum of values of enum fe2o3_server_flag. PLAIN rejects every password that is not
     * printable ASCII, unless the sum has FE2O3_PLAIN_PREPARED or FE2O3_PLAIN_SASLPREP. By the latter it also rejects a
     * password that SASLprep rejects or prepares to the empty text. With FE2O3_SIGNATURE_BY_CHALLENGE SCRAM's outcome
     * OK follows the client's empty response to a challenge. With FE2O3_INITIAL_RESPONSE_BY_CHALLENGE an init for SCRAM
     * or PLAIN without an initial response is answered by an empty challenge, and the response is the initial response.
     * With FE2O3_STRICT SCRAM is strict, as by the field `strict` of struct fe2o3_scram_rules, and with
     * FE2O3_REJECT_MISPLACED as by its field `reject_misplaced`. */
    uint32_t flags;
    /* The iteration count of mock records. PLAIN hashes the password of an unknown user as often. Pass the count of your
     * store's records. */
    uint32_t iterations;
    /* The length of the salts of mock records, in bytes, at most 64. Pass the length of your store's salts. Without a
     * `mock_secret` it plays no part. */
    uint32_t mock_salt_len;
    /* The secret of mock authentication: at least 32 random bytes, one value for all names, kept as long as the records.
     * With it SCRAM answers a name that has no record of its hash like any other, by a mock record. The login then fails at
     * its proof. If empty, there is no mock authentication: SCRAM rejects the init of such a name at once, and a client can
     * tell known users from unknown ones. */
    const uint8_t *mock_secret;
    size_t mock_secret_len;
    /* Whether `username`, `records` and `identities` are what your store has of the user whom the bytes claim. 0 is no,
     * any other value yes. If it is 0 and the bytes claim a user, `fe2o3_sasl_server_receive` returns
     * FE2O3_NEEDS_RECORDS. If they claim none, these fields are only tested for UTF-8. */
    uint32_t looked_up;
    /* The name of the user whose records these are, without escapes. */
    const uint8_t *username;
    size_t username_len;
    /* The records that your store has of the user, of any hashes, and none for an unknown user. SCRAM uses the first record
     * of its hash. PLAIN tests the password against the first record that can be read.
     *
     * If no record can be read, PLAIN hashes the password all the same, and rejects the login. It then uses the first of
     * SHA-256, SHA-512 and SHA-1 by which SCRAM is offered, or SHA-256 if SCRAM is not offered. So let the records of each
     * user begin with that hash. */
    const struct fe2o3_scram_record *records;
    size_t records_count;
    /* The name of the client that the transport has authenticated, for instance by a certificate. EXTERNAL accepts
     * it. If empty, EXTERNAL is not offered, and an init for it fails with FE2O3_REFUSED_AUTH. */
    const uint8_t *external_authcid;
    size_t external_authcid_len;
    /* The server's channel. If it binds channels, SCRAM is also offered with `-PLUS`, by the same hashes, and before
     * the other mechanisms. SCRAM without `-PLUS` then rejects the GS2 header `y,,` (RFC 5802, section 6), whatever
     * FE2O3_ACCEPT_CBIND_FLAG_Y says. Both reject what is no extension in the place of one, as with
     * FE2O3_REJECT_MISPLACED. So a client of SCRAM that has a channel binds this one, or does not log in. */
    struct fe2o3_server_channels channels;
    /* Whether a client of SCRAM or PLAIN may name an identity to act for (RFC 5802, section 5.1; RFC 4616, section 2), as
     * by the field `accept_authzid` of struct fe2o3_scram_rules. 0 is no, any other value yes. Without it a message of
     * PLAIN may still name its own user. */
    uint32_t accept_authzid;
    /* The identities that the user may act for besides itself (RFC 4422, section 2), without escapes, with a zero byte
     * after each but the last, which may have one too. After the login `fe2o3_scram_server_acts_for` returns the one that
     * the user acts for. */
    const uint8_t *identities;
    size_t identities_len;
};
/* All zeros. */
#define FE2O3_SASL_SERVER_CONFIG_INIT { 0, 0, 0, 0, NULL, 0, 0, NULL, 0, NULL, 0, NULL, 0, { 0, 0, { 0 }, 0, { 0 }, 0, \
    { 0 } }, 0, NULL, 0 }

/* The server's side of a connection between calls. All zeros is a connection that has received nothing. */
struct fe2o3_sasl_server {
    /* The connection. */
    struct fe2o3_connection connection;
    /* The SCRAM server. After a login by any mechanism it holds the authenticated user
     * (`fe2o3_scram_server_authenticated_user`), and after one by SCRAM or PLAIN the identity that the user acts for
     * (`fe2o3_scram_server_acts_for`). ANONYMOUS has no user. */
    struct fe2o3_scram_server scram;
};
/* All zeros. */
#define FE2O3_SASL_SERVER_INIT { { 0, 0, 0, 0, { 0 }, 0 }, { 0, 0, 0, 0, 0, 0, 0, 0, { 0 }, { 0 }, { 0 }, { 0 }, { 0 } \
    } }

/* Takes received bytes, to the end of the expected header or frame, and writes the bytes to send, at most 520. `out`
 * needs 520 bytes, which is tested before anything is hashed. `nonce` is 32 fresh random bytes, or any bytes if
 * `fe2o3_sasl_wants_nonce` returns 0.
 *
 * Call it first with `looked_up` 0. If the bytes complete a frame that claims a user, it takes nothing, writes the name
 * to `out`, at most 512 bytes, and returns FE2O3_NEEDS_RECORDS. Nobody is authenticated yet: use the name only to look
 * the user up. Put what your store has of the user into `config`, set `looked_up`, and repeat the call with the same
 * bytes.
 *
 * An init for SCRAM or PLAIN claims the user of its initial response, and so does the response to an empty challenge. The
 * response to a challenge of SCRAM claims the user of that challenge, `user` of the field `scram` while its `state` says
 * that a challenge is open. You can look that user up before, and set `looked_up` at once.
 *
 * FE2O3_OK does not mean that the login succeeds: look at `progress` and `why` of the connection. `taken` is how many
 * bytes were used. While `progress` is FE2O3_IN_PROGRESS, pass the rest in the next call; after the login it belongs to
 * AMQP.
 *
 * A call that returns an error changes neither `server` nor `taken`. The errors are, in this order:
 *
 * - FE2O3_ROOM_TOO_SMALL if `out` has fewer than 520 bytes,
 * - FE2O3_NEEDS_RECORDS,
 * - FE2O3_ENDED and FE2O3_INVALID_SNAPSHOT of the connection,
 * - FE2O3_NO_SUCH_MECHANISM if `mechanisms` is no sum of values of enum fe2o3_offer,
 * - FE2O3_NO_SUCH_CHOICE if `flags` is no sum of values of enum fe2o3_server_flag,
 * - FE2O3_NOT_UTF8 for `username`, `external_authcid` and `identities`,
 * - FE2O3_CHANNEL_DATA_LENGTH if the server binds channels, and data have more than 64 bytes,
 * - FE2O3_TOO_LONG if `mock_secret` is not empty, and `mock_salt_len` is above 64,
 * - FE2O3_NO_SUCH_MECHANISM if nothing would be offered,
 * - FE2O3_INVALID_SNAPSHOT if no connection of a server has this struct,
 * - FE2O3_TOO_LONG if a name or a message does not fit into the struct. Close the connection then. */
uint32_t fe2o3_sasl_server_receive(
    const struct fe2o3_sasl_server_config *config,
    struct fe2o3_sasl_server *server,
    const uint8_t *bytes,
    size_t bytes_len,
    const uint8_t nonce[32],
    size_t *taken,
    uint8_t *out,
    size_t out_size,
    size_t *out_len);

/* ---- Both sides of a connection, before a call, and at the end of the stream ---- */

/* Returns 1 if the next call of `fe2o3_sasl_client_receive` or `fe2o3_sasl_server_receive` may use its nonce: a client
 * that expects the list of mechanisms, or a server that expects an init. Otherwise returns 0. The call then gives the
 * same result with every nonce, which is tested and not proved, and you need no fresh random bytes. */
uint32_t fe2o3_sasl_wants_nonce(const struct fe2o3_connection *connection);

/* Writes the body of the frame that `bytes` complete with the part that `connection` holds, without the four bytes of
 * the frame's size: at most 508 bytes. The body has no extended header if `connection` accepts these. `out_len` is 0 if
 * the bytes complete no frame. Nothing is taken: pass the same bytes to `fe2o3_sasl_client_receive` or
 * `fe2o3_sasl_server_receive` after that.
 *
 * `expected` of the connection is the frame that has to come next. Parse the body with `fe2o3_sasl_view_frame`: a server
 * reads in it the mechanism and the hostname of an init, and a client the additional data of an outcome. Pass a list of
 * mechanisms to `fe2o3_sasl_offers`.
 *
 * The errors are, in this order: FE2O3_ENDED; FE2O3_INVALID_SNAPSHOT for a struct that no call has written; and
 * FE2O3_ROOM_TOO_SMALL. */
uint32_t fe2o3_sasl_peek_frame(
    const struct fe2o3_connection *connection,
    const uint8_t *bytes,
    size_t bytes_len,
    uint8_t *out,
    size_t out_size,
    size_t *out_len);

/* Ends a login after the other side has ended its stream (end of file). A login in progress fails with
 * FE2O3_END_OF_INPUT. Otherwise nothing changes. */
void fe2o3_sasl_end_of_input(struct fe2o3_connection *connection);

/* ---- The body of a frame ---- */

/* The content of a frame body. Its pointers point into that body. */
struct fe2o3_sasl_frame_view {
    /* Which frame it is: one of enum fe2o3_frame_kind. */
    uint32_t kind;
    /* The code of an outcome: one of enum fe2o3_sasl_code. Zero for other frames. */
    uint32_t code;
    /* 1 if there is a message, otherwise 0. */
    uint32_t has_message;
    /* 1 if there is a hostname, otherwise 0. */
    uint32_t has_hostname;
    /* The number of mechanisms in a list of mechanisms. */
    size_t count;
    /* The number of bytes of the body that the frame takes. Bytes after it are not read. */
    size_t taken;
    /* The mechanism of an init. */
    const uint8_t *mechanism;
    size_t mechanism_len;
    /* The initial response, the challenge, the response, or the additional data of an outcome. */
    const uint8_t *message;
    size_t message_len;
    /* The hostname of an init. */
    const uint8_t *hostname;
    size_t hostname_len;
};
/* All zeros. */
#define FE2O3_SASL_FRAME_VIEW_INIT { 0, 0, 0, 0, 0, 0, NULL, 0, NULL, 0, NULL, 0 }

/* Parses a frame body, without the four bytes of the frame's size. It allocates no memory.
 *
 * Returns FE2O3_MALFORMED_FRAME or FE2O3_NO_SASL_FRAME for a body that holds no frame. */
uint32_t fe2o3_sasl_view_frame(const uint8_t *body, size_t body_len, struct fe2o3_sasl_frame_view *view);

/* Tests whether a frame body is a list of mechanisms with `mechanism` in it. The errors are, in this order:
 * FE2O3_NOT_UTF8 for `mechanism`; those of `fe2o3_sasl_view_frame`; FE2O3_UNEXPECTED_FRAME for another frame; and
 * FE2O3_NOT_IMPLEMENTED if the list lacks it. */
uint32_t fe2o3_sasl_offers(const uint8_t *body, size_t body_len, const uint8_t *mechanism, size_t mechanism_len);

#ifdef __cplusplus
}
#endif

#endif
