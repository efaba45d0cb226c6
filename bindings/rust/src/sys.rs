//! What the library exports, as its C header declares it. Written by tools/generate/header.py.

/// The call succeeded.
pub const OK: u32 = 0;

/// An allocation failed. Nothing has changed, and you can repeat the call.
pub const OUT_OF_MEMORY: u32 = 1;

/// `out` is too small. Nothing has changed, and `out_len` says how many bytes suffice.
pub const ROOM_TOO_SMALL: u32 = 2;

/// A text is not UTF-8.
pub const NOT_UTF8: u32 = 3;

/// The version is none of the `scram_version` constants.
pub const NO_SUCH_VERSION: u32 = 4;

/// A text is longer than the array that holds it, an identity to act for has more than 256 bytes, or the salts of mock
/// records have more than 64.
pub const TOO_LONG: u32 = 5;

/// The typed password is not printable ASCII.
pub const NOT_PRINTABLE: u32 = 6;

/// The iteration count is 0.
pub const ZERO_ITERATIONS: u32 = 7;

/// The secret is none of the `secret` constants.
pub const NO_SUCH_SECRET: u32 = 8;

/// The struct holds no keys.
pub const NO_KEYS: u32 = 9;

/// The keys, or the record on a line, are of another version.
pub const OTHER_VERSION: u32 = 10;

/// The password is not that of the record.
pub const OTHER_PASSWORD: u32 = 11;

/// The mechanism is none of the `mechanism` constants, or the offer of a server is empty or not a sum of values of enum
/// fe2o3_offer.
pub const NO_SUCH_MECHANISM: u32 = 12;

/// The connection has ended: its `progress` is not IN_PROGRESS.
pub const ENDED: u32 = 13;

/// The struct of the connection has a value that no call writes.
pub const INVALID_SNAPSHOT: u32 = 14;

/// The message of PLAIN claims no user name, or the user name for a message of PLAIN is empty.
pub const NAMES_NO_USER: u32 = 15;

/// The server needs the records of the user whose name is in `out`. Nothing has changed: look the user up, and repeat
/// the call with the same bytes.
pub const NEEDS_RECORDS: u32 = 16;

/// The message is not UTF-8.
pub const CLIENT_UTF8_ERROR: u32 = 20;

/// The server-first message has fewer than three parts.
pub const CLIENT_INSUFFICIENT_PARTS: u32 = 21;

/// The server-first message begins with `m=`, a mandatory extension.
pub const CLIENT_EXTENSION_NOT_SUPPORTED: u32 = 22;

/// The first part of the server-first message does not begin with `r=`.
pub const CLIENT_NONCE_NOT_FOUND: u32 = 23;

/// The nonce of the server-first message does not begin with the client's nonce.
pub const CLIENT_CLIENT_NONCE_MISMATCH: u32 = 24;

/// The second part of the server-first message does not begin with `s=`.
pub const CLIENT_SALT_NOT_FOUND: u32 = 25;

/// A salt or a signature is not base64.
pub const CLIENT_BASE64_DECODE_ERROR: u32 = 26;

/// The third part of the server-first message does not begin with `i=`.
pub const CLIENT_ITERATION_COUNT_NOT_FOUND: u32 = 27;

/// The iteration count is not a number from 1 to 4294967295.
pub const CLIENT_ITERATION_COUNT_PARSE_ERROR: u32 = 28;

/// The iteration count is below the client's minimum.
pub const CLIENT_ITERATION_COUNT_TOO_SMALL: u32 = 29;

/// The iteration count is above the client's maximum.
pub const CLIENT_ITERATION_COUNT_TOO_LARGE: u32 = 30;

/// The password is not printable ASCII.
pub const CLIENT_NORMALIZE_ERROR: u32 = 31;

/// The client has only keys, and the message names another salt or iteration count than theirs. A man in the middle can
/// cause this: it is no reason to forget the keys.
pub const CLIENT_STALE_KEYS: u32 = 32;

/// Never returned, since HMAC takes keys of every length.
pub const CLIENT_HMAC_ERROR_INVALID_LENGTH: u32 = 33;

/// Never returned by the client, which XORs only digests of one hash.
pub const CLIENT_XOR_LENGTH_MISMATCH: u32 = 34;

/// The client does not expect the message in this state.
pub const CLIENT_ILLEGAL_CLIENT_STATE: u32 = 35;

/// The server-final message does not begin with `v=`, or has another signature.
pub const CLIENT_SERVER_SIGNATURE_MISMATCH: u32 = 36;

/// A part in the place of an extension is none (RFC 5802, section 7): after the iteration count, or after the
/// signature. Only a client that is strict, has a channel (also one that says `y,,`) or sends an authorization identity
/// returns it.
pub const CLIENT_MISPLACED_ATTRIBUTE: u32 = 37;

/// The message is not UTF-8.
pub const SERVER_UTF8_ERROR: u32 = 40;

/// The client-first message does not begin with a GS2 header that the server accepts: `n,,`, and by its rules `y,,`,
/// `p=` with the kind of a channel, or `a=` with an identity.
pub const SERVER_CANNOT_PARSE_GS2_HEADER: u32 = 41;

/// The client-first message does not name a user: the first part after the header does not begin with `n=`, or goes on
/// with a text that escapes no user name.
pub const SERVER_CANNOT_PARSE_USERNAME: u32 = 42;

/// The second part of the client-first message is absent or does not begin with `r=`.
pub const SERVER_CANNOT_PARSE_CLIENT_NONCE: u32 = 43;

/// Never returned, since HMAC takes keys of every length.
pub const SERVER_HMAC_ERROR_INVALID_LENGTH: u32 = 44;

/// The proof is not as long as a digest.
pub const SERVER_XOR_LENGTH_MISMATCH: u32 = 45;

/// Never returned by a server, which has records and no password.
pub const SERVER_NORMALIZE_ERROR: u32 = 46;

/// The client-final message does not begin with `c=`, or its second part is absent or does not begin with `r=`.
pub const SERVER_CANNOT_PARSE_CLIENT_FINAL_MESSAGE: u32 = 47;

/// The channel binding has another GS2 header than the client-first message, or other data than the server's channel.
pub const SERVER_INVALID_CHANNEL_BINDING: u32 = 48;

/// A channel binding or a proof is not base64.
pub const SERVER_BASE64_DECODE_ERROR: u32 = 49;

/// The nonce is not that of the challenge.
pub const SERVER_INCORRECT_CLIENT_FINAL_NONCE: u32 = 50;

/// The last part of the client-final message does not begin with `p=`.
pub const SERVER_PROOF_NOT_FOUND_IN_CLIENT_FINAL: u32 = 51;

/// The proof does not meet the stored key, or the user may not act for the identity that the client named.
pub const SERVER_AUTHENTICATION_FAILED: u32 = 52;

/// No challenge is open.
pub const SERVER_ILLEGAL_AUTHENTICATOR_STATE: u32 = 53;

/// A part in the place of an extension is none (RFC 5802, section 7): after the nonce of the client-first message, or
/// between the nonce and the proof of the client-final message. Only a server that tests extensions returns it
/// (`ServerRules::is_strict`), and one that accepts the GS2 header `y,,`, to a client that sends it.
pub const SERVER_MISPLACED_ATTRIBUTE: u32 = 54;

/// The text does not have five fields: parts are missing or left over.
pub const RECORD_PARTS_MISMATCH: u32 = 60;

/// The first field is not the name of a known mechanism.
pub const RECORD_UNKNOWN_MECHANISM: u32 = 61;

/// The second field is not a number from 1 to 4294967295 in decimal without a sign or leading zeros.
pub const RECORD_ITERATION_COUNT_PARSE_ERROR: u32 = 62;

/// The salt or a key is not base64.
pub const RECORD_BASE64_DECODE_ERROR: u32 = 63;

/// A key is not as long as a digest of the mechanism.
pub const RECORD_KEY_LENGTH_MISMATCH: u32 = 64;

/// The last line does not end with a line feed.
pub const LINE_FEED_MISSING: u32 = 65;

/// The line has no space.
pub const SPACE_MISSING: u32 = 66;

/// The text before the last space of the line is not an escaped user name.
pub const INVALID_NAME: u32 = 67;

/// No line has a record of this version for this user.
pub const NO_SUCH_USER: u32 = 68;

/// The user name contains a line feed, or the iteration count is 0.
pub const NOT_WRITABLE: u32 = 69;

/// The peer sent another protocol header than that of SASL.
pub const PROTOCOL_HEADER_MISMATCH: u32 = 70;

/// The frame has fewer than 8 or more than 512 bytes.
pub const FRAME_SIZE: u32 = 71;

/// The peer sent another frame than the expected one.
pub const UNEXPECTED_FRAME: u32 = 72;

/// The reply does not fit into a frame of 512 bytes.
pub const REPLY_TOO_LARGE: u32 = 73;

/// The frame cannot be parsed.
pub const MALFORMED_FRAME: u32 = 74;

/// The frame has another type or data offset than a SASL frame.
pub const NO_SASL_FRAME: u32 = 75;

/// A size inside the frame exceeds 32 bits.
pub const FRAME_TOO_LARGE: u32 = 76;

/// The client cannot answer this frame, the server does not offer this mechanism, or the login names an identity to act
/// for and its mechanism is ANONYMOUS or EXTERNAL.
pub const NOT_IMPLEMENTED: u32 = 77;

/// The server rejected the login: the credentials are wrong.
pub const REFUSED_AUTH: u32 = 81;

/// The server rejected the login because of a system error.
pub const REFUSED_SYS: u32 = 82;

/// The server rejected the login because of a permanent system error.
pub const REFUSED_SYS_PERM: u32 = 83;

/// The server rejected the login because of a temporary system error.
pub const REFUSED_SYS_TEMP: u32 = 84;

/// The argument `unassigned` is none of the `unassigned` constants, a form none of the `password_form` constants,
/// `passwords` none of the `plain_passwords` constants, or the flags of a server no sum of values of the `server_flag`
/// constants.
pub const NO_SUCH_CHOICE: u32 = 85;

/// The prepared text contains a character that RFC 4013, section 2.3, prohibits, or a word for a message of PLAIN (RFC
/// 4616, section 2) or an identity to act for (RFC 4422, section 3.4.1) contains a zero byte.
pub const PROHIBITED_CHARACTER: u32 = 86;

/// The prepared text mixes right-to-left and left-to-right characters, or does not begin and end with a right-to-left
/// one (RFC 3454, section 6).
pub const MIXED_DIRECTIONS: u32 = 87;

/// The text, or the prepared text, contains a code point that Unicode 3.2 does not assign.
pub const UNASSIGNED_CODE_POINT: u32 = 88;

/// The server sent an error in the place of its signature, such as `e=invalid-proof` for a wrong password.
/// fe2o3_scram_server_error says which.
pub const SERVER_ERROR: u32 = 89;

/// The other side ended its stream before the login was complete.
pub const END_OF_INPUT: u32 = 90;

/// The data of a channel are empty or have more than 64 bytes (RFC 5802, section 7).
pub const CHANNEL_DATA_LENGTH: u32 = 91;

/// The use of a channel is none of the `channel_use` constants, or its kind none of the `channel_kind` constants.
pub const NO_SUCH_CHANNEL: u32 = 92;

/// The password for a message of PLAIN is empty (RFC 4616, section 2).
pub const EMPTY_PASSWORD: u32 = 93;

/// The length in bytes of the salt of a new record and of a mock record, unless you choose another one.
pub const DEFAULT_SALT_LEN: usize = 16;

/// The iteration count of a new record and of a mock record, unless you choose another one.
pub const DEFAULT_ITERATIONS: u32 = 4096;

/// `scram_version`: SCRAM-SHA-1.
pub const SHA_1: u32 = 1;

/// `scram_version`: SCRAM-SHA-256.
pub const SHA_256: u32 = 256;

/// `scram_version`: SCRAM-SHA-512.
pub const SHA_512: u32 = 512;

/// `mechanism`: SCRAM with the hash of the login.
pub const SCRAM: u32 = 0;

/// `mechanism`: PLAIN (RFC 4616).
pub const PLAIN: u32 = 1;

/// `mechanism`: ANONYMOUS (RFC 4505).
pub const ANONYMOUS: u32 = 2;

/// `mechanism`: EXTERNAL (RFC 4422, appendix A).
pub const EXTERNAL: u32 = 3;

/// `mechanism`: ANONYMOUS with the user name of the login as its initial response: trace information (RFC 4505, section
/// 2), or the empty text. The client also answers one empty challenge by it.
pub const ANONYMOUS_AS: u32 = 4;

/// `mechanism`: EXTERNAL with the user name of the login as its initial response: the authorization identity, or the
/// empty text for the user whom the transport has authenticated. The client also answers one empty challenge by it.
pub const EXTERNAL_AS: u32 = 5;

/// `secret`: The password.
pub const BY_PASSWORD: u32 = 0;

/// `secret`: The keys.
pub const BY_KEYS: u32 = 1;

/// `secret`: The keys if they are of the server's salt and iteration count, otherwise the password. A struct of zeros
/// has no keys yet: then the password.
pub const BY_PASSWORD_AND_KEYS: u32 = 2;

/// `password_form`: The password as the user typed it, which has to be printable ASCII.
pub const TYPED: u32 = 0;

/// `password_form`: The password as you prepared it (fe2o3_saslprep): any text, used without change.
pub const PREPARED: u32 = 1;

/// `channel_use`: The client does not support channel binding, or has no channel: its GS2 header is `n,,`.
pub const CHANNEL_ABSENT: u32 = 0;

/// `channel_use`: The client has a channel, but was offered no mechanism with `-PLUS`: its GS2 header is `y,,`. The
/// client rejects what is no extension in the place of one, and a server that offers `-PLUS` has to reject `y,,`, as
/// the servers here do. Nobody on the way can then remove `-PLUS` from the offer unnoticed. A server that offers
/// `-PLUS` and accepts `y,,` does not protect against that: log in to it by CHANNEL_BOUND only.
pub const CHANNEL_NOT_OFFERED: u32 = 1;

/// `channel_use`: The client binds its channel, by a mechanism with `-PLUS`: its GS2 header is `p=` and the kind.
pub const CHANNEL_BOUND: u32 = 2;

/// `channel_kind`: `tls-unique` (RFC 5929, section 3): the first Finished message of the TLS handshake. Only for TLS
/// 1.2 and older, and only with the extended master secret (RFC 7627).
pub const TLS_UNIQUE: u32 = 1;

/// `channel_kind`: `tls-server-end-point` (RFC 5929, section 4): the hash of the server's certificate. It does not
/// protect against someone who has the server's private key.
pub const TLS_SERVER_END_POINT: u32 = 2;

/// `channel_kind`: `tls-exporter` (RFC 9266): 32 bytes of exported keying material. For TLS 1.3, and for TLS 1.2 with
/// the extended master secret.
pub const TLS_EXPORTER: u32 = 3;

/// `plain_passwords`: The password as typed, which has to be printable ASCII. Every other password is rejected.
pub const PLAIN_PASSWORDS_TYPED: u32 = 0;

/// `plain_passwords`: The password as received, as a prepared text. For clients that prepare their passwords.
pub const PLAIN_PASSWORDS_PREPARED: u32 = 1;

/// `plain_passwords`: The text that SASLprep prepares the password to, with unassigned code points allowed. A password
/// that SASLprep rejects, or whose prepared text is empty, is rejected.
pub const PLAIN_PASSWORDS_SASLPREP: u32 = 2;

/// `unassigned`: Rejects unassigned code points: the call returns UNASSIGNED_CODE_POINT.
pub const UNASSIGNED_REFUSED: u32 = 0;

/// `unassigned`: Allows unassigned code points, and leaves them unchanged.
pub const UNASSIGNED_ALLOWED: u32 = 1;

/// `offer`: SCRAM-SHA-512.
pub const OFFER_SCRAM_SHA_512: u32 = 1;

/// `offer`: SCRAM-SHA-256.
pub const OFFER_SCRAM_SHA_256: u32 = 2;

/// `offer`: SCRAM-SHA-1, for clients that have no other hash.
pub const OFFER_SCRAM_SHA_1: u32 = 4;

/// `offer`: PLAIN, which sends the password in clear.
pub const OFFER_PLAIN: u32 = 8;

/// `offer`: ANONYMOUS.
pub const OFFER_ANONYMOUS: u32 = 16;

/// `offer`: EXTERNAL, if `external_authcid` is not empty.
pub const OFFER_EXTERNAL: u32 = 32;

/// `server_flag`: SCRAM also accepts the GS2 header `y,,`: see the field `accept_cbind_flag_y` of struct
/// fe2o3_scram_rules.
pub const ACCEPT_CBIND_FLAG_Y: u32 = 64;

/// `server_flag`: PLAIN tests the password as received, also a non-ASCII one. Clients prepare their passwords.
pub const PLAIN_PREPARED: u32 = 128;

/// `server_flag`: PLAIN tests the text that SASLprep prepares the password to. Not with PLAIN_PREPARED.
pub const PLAIN_SASLPREP: u32 = 256;

/// `server_flag`: SCRAM and PLAIN answer an init without an initial response by an empty challenge. The client's
/// response is then the initial response (RFC 4422, section 5). Without this value such an init fails.
pub const INITIAL_RESPONSE_BY_CHALLENGE: u32 = 512;

/// `server_flag`: SCRAM sends the server's signature in a challenge, and the outcome OK follows the client's empty
/// response (RFC 4422, section 5). For clients that do not read the data of an outcome.
pub const SIGNATURE_BY_CHALLENGE: u32 = 1024;

/// `server_flag`: SCRAM is strict. It reads messages by the grammar of RFC 5802, section 7: see the field `strict` of
/// struct fe2o3_scram_rules.
pub const STRICT: u32 = 2048;

/// `server_flag`: SCRAM rejects what is no extension in the place of one, and nothing more: see the field
/// `reject_misplaced` of struct fe2o3_scram_rules. A server with `channels` does so in any case.
pub const REJECT_MISPLACED: u32 = 4096;

/// `progress`: The login goes on: the other side has to send more.
pub const IN_PROGRESS: u32 = 0;

/// `progress`: The login is complete.
pub const AUTHENTICATED: u32 = 1;

/// `progress`: The login has failed, and you have to close the connection.
pub const FAILED: u32 = 2;

/// `expected`: The protocol header.
pub const EXPECTED_HEADER: u32 = 0;

/// `expected`: The list of mechanisms.
pub const EXPECTED_MECHANISMS: u32 = 1;

/// `expected`: The init.
pub const EXPECTED_INIT: u32 = 2;

/// `expected`: The challenge, or already the outcome.
pub const EXPECTED_CHALLENGE: u32 = 3;

/// `expected`: The response.
pub const EXPECTED_RESPONSE: u32 = 4;

/// `expected`: The outcome.
pub const EXPECTED_OUTCOME: u32 = 5;

/// `expected`: The server's signature in a challenge, or already the outcome. Only for a client with
/// `signature_by_challenge`.
pub const EXPECTED_SIGNATURE_CHALLENGE: u32 = 6;

/// `scram_client_state`: The client has sent nothing.
pub const SCRAM_CLIENT_INITIAL: u32 = 0;

/// `scram_client_state`: The client has sent the client-first message.
pub const SCRAM_CLIENT_FIRST_SENT: u32 = 1;

/// `scram_client_state`: The client has sent the client-final message, and expects the server's signature.
pub const SCRAM_CLIENT_FINAL_SENT: u32 = 2;

/// `scram_client_state`: The login is complete, and the server authenticated.
pub const SCRAM_CLIENT_COMPLETE: u32 = 3;

/// `scram_client_state`: The server was authenticated by a challenge, and the client expects an outcome without data.
pub const SCRAM_CLIENT_SIGNATURE_VERIFIED: u32 = 4;

/// `scram_server_state`: No challenge is open, and no user is authenticated.
pub const SCRAM_SERVER_INITIAL: u32 = 0;

/// `scram_server_state`: A challenge is open, to a client whose GS2 header is `n,,`.
pub const SCRAM_SERVER_CHALLENGE_OPEN: u32 = 1;

/// `scram_server_state`: The user is authenticated.
pub const SCRAM_SERVER_AUTHENTICATED: u32 = 2;

/// `scram_server_state`: A challenge is open, to a client whose GS2 header is `y,,`.
pub const SCRAM_SERVER_CHALLENGE_OPEN_CBIND_FLAG_Y: u32 = 3;

/// `scram_server_state`: The server's signature was sent to the user in a challenge. The user is authenticated once the
/// client has answered it. Only on a connection.
pub const SCRAM_SERVER_SIGNATURE_SENT: u32 = 4;

/// `scram_server_state`: An empty challenge was sent for an init without an initial response. `first` is the name of
/// the mechanism, and `nonce` the 32 bytes of the init's nonce. Only on a connection.
pub const SCRAM_SERVER_INITIAL_RESPONSE_ASKED: u32 = 5;

/// `scram_server_state`: A challenge is open, to a client that binds the channel by `tls-unique`.
pub const SCRAM_SERVER_CHALLENGE_OPEN_TLS_UNIQUE: u32 = 7;

/// `scram_server_state`: A challenge is open, to a client that binds the channel by `tls-server-end-point`.
pub const SCRAM_SERVER_CHALLENGE_OPEN_TLS_SERVER_END_POINT: u32 = 8;

/// `scram_server_state`: A challenge is open, to a client that binds the channel by `tls-exporter`.
pub const SCRAM_SERVER_CHALLENGE_OPEN_TLS_EXPORTER: u32 = 9;

/// `rejection`: The last frame was not answered by Auth.
pub const REJECTION_NONE: u32 = 0;

/// `rejection`: The init names a mechanism that the server does not offer.
pub const REJECTION_MECHANISM_NOT_OFFERED: u32 = 101;

/// `rejection`: The init of a mechanism that needs an initial response has none.
pub const REJECTION_NO_INITIAL_RESPONSE: u32 = 102;

/// `rejection`: The initial response is no message of PLAIN that is accepted for a test of its password.
pub const REJECTION_INVALID_MESSAGE: u32 = 103;

/// `rejection`: The client's channel binding is not one that the server accepts (RFC 5802, section 6): someone may be
/// between the two.
pub const REJECTION_CHANNEL: u32 = 104;

/// `rejection`: No record of the user was passed, for any hash.
pub const REJECTION_UNKNOWN_USER: u32 = 105;

/// `rejection`: No record of the user was passed for the hash of the exchange, and one for another hash was.
pub const REJECTION_NO_RECORD_FOR_HASH: u32 = 106;

/// `rejection`: The user of SCRAM may not act for the identity that it names, whatever its proof is (RFC 4422, section
/// 2).
pub const REJECTION_NO_RIGHT: u32 = 107;

/// `rejection`: The proof of SCRAM does not meet the record: the password is wrong, or you passed a mock record.
pub const REJECTION_WRONG_PROOF: u32 = 108;

/// `rejection`: The message of PLAIN does not have the password of the tested record, the user has none, or may not act
/// for the identity.
pub const REJECTION_WRONG_PASSWORD: u32 = 109;

/// `rejection`: The init of EXTERNAL asks for another name than the one that the transport authenticated.
pub const REJECTION_OTHER_IDENTITY: u32 = 110;

/// `rejection`: An init arrives where the server waits for the response that completes the init before it.
pub const REJECTION_UNEXPECTED_INIT: u32 = 111;

/// `rejection`: A response arrives where no mechanism waits for one, or it is not empty where only an empty one is
/// expected.
pub const REJECTION_UNEXPECTED_RESPONSE: u32 = 112;

/// `rejection`: None of the others. No call writes it.
pub const REJECTION_OTHER: u32 = 113;

/// `server_error`: The message is no error.
pub const SERVER_ERROR_NONE: u32 = 0;

/// `server_error`: `invalid-encoding`.
pub const SERVER_ERROR_INVALID_ENCODING: u32 = 1;

/// `server_error`: `extensions-not-supported`: the server does not support a mandatory extension.
pub const SERVER_ERROR_EXTENSIONS_NOT_SUPPORTED: u32 = 2;

/// `server_error`: `invalid-proof`: the password is wrong, or the user is unknown.
pub const SERVER_ERROR_INVALID_PROOF: u32 = 3;

/// `server_error`: `channel-bindings-dont-match`.
pub const SERVER_ERROR_CHANNEL_BINDINGS_DONT_MATCH: u32 = 4;

/// `server_error`: `server-does-support-channel-binding`: the client assumed that the server does not.
pub const SERVER_ERROR_SERVER_DOES_SUPPORT_CHANNEL_BINDING: u32 = 5;

/// `server_error`: `channel-binding-not-supported`.
pub const SERVER_ERROR_CHANNEL_BINDING_NOT_SUPPORTED: u32 = 6;

/// `server_error`: `unsupported-channel-binding-type`.
pub const SERVER_ERROR_UNSUPPORTED_CHANNEL_BINDING_TYPE: u32 = 7;

/// `server_error`: `unknown-user`.
pub const SERVER_ERROR_UNKNOWN_USER: u32 = 8;

/// `server_error`: `invalid-username-encoding`: the user name is not UTF-8, or SASLprep rejects it.
pub const SERVER_ERROR_INVALID_USERNAME_ENCODING: u32 = 9;

/// `server_error`: `no-resources`.
pub const SERVER_ERROR_NO_RESOURCES: u32 = 10;

/// `server_error`: `other-error`, and every value that RFC 5802 does not name, also the empty one.
pub const SERVER_ERROR_OTHER_ERROR: u32 = 11;

/// `frame_kind`: The list of mechanisms.
pub const KIND_MECHANISMS: u32 = 64;

/// `frame_kind`: The init.
pub const KIND_INIT: u32 = 65;

/// `frame_kind`: The challenge.
pub const KIND_CHALLENGE: u32 = 66;

/// `frame_kind`: The response.
pub const KIND_RESPONSE: u32 = 67;

/// `frame_kind`: The outcome.
pub const KIND_OUTCOME: u32 = 68;

/// `sasl_code`: The login succeeded.
pub const CODE_OK: u32 = 0;

/// `sasl_code`: The credentials are wrong.
pub const CODE_AUTH: u32 = 1;

/// `sasl_code`: A system error.
pub const CODE_SYS: u32 = 2;

/// `sasl_code`: A permanent system error.
pub const CODE_SYS_PERM: u32 = 3;

/// `sasl_code`: A temporary system error.
pub const CODE_SYS_TEMP: u32 = 4;

/// A text that the library lends for as long as it is loaded.
#[repr(C)]
#[derive(Clone, Copy)]
pub struct Text {
    /// The bytes. The last one is zero.
    pub bytes: *const u8,
    pub bytes_len: usize,
}

/// What a server stores of a password: a SCRAM record (RFC 5802, section 3).
#[repr(C)]
#[derive(Clone, Copy)]
pub struct ScramRecord {
    /// The hash of the mechanism: one of the `scram_version` constants.
    pub version: u32,
    /// The iteration count.
    pub iterations: u32,
    /// The number of bytes of `salt` in use, at most 128.
    pub salt_len: u32,
    /// The salt.
    pub salt: [u8; 128],
    /// The StoredKey, with as many bytes as a digest of the hash.
    pub stored_key: [u8; 64],
    /// The ServerKey, with as many bytes as a digest of the hash.
    pub server_key: [u8; 64],
}

/// The keys that a client can cache in place of its password. They are secret: they suffice to log in.
#[repr(C)]
#[derive(Clone, Copy)]
pub struct ScramKeys {
    /// The hash of the mechanism: one of the `scram_version` constants, or 0 if the struct holds no keys.
    pub version: u32,
    /// The iteration count for which the keys were derived.
    pub iterations: u32,
    /// The number of bytes of `salt` in use, at most 128.
    pub salt_len: u32,
    /// The salt for which the keys were derived.
    pub salt: [u8; 128],
    /// The ClientKey, with as many bytes as a digest of the hash.
    pub client_key: [u8; 64],
    /// The ServerKey, with as many bytes as a digest of the hash.
    pub server_key: [u8; 64],
}

/// A user and a secret. You lend the struct to each call of an exchange, always with the same values.
#[repr(C)]
#[derive(Clone, Copy)]
pub struct Login {
    /// The hash of the mechanism: one of the `scram_version` constants.
    pub version: u32,
    /// What the client logs in with: one of the `secret` constants.
    pub secret: u32,
    /// The form of the password: one of the `password_form` constants.
    pub form: u32,
    /// The minimum iteration count that the client accepts. RFC 7677 requires at least 4096.
    pub min_iterations: u32,
    /// The maximum iteration count that the client accepts.
    pub max_iterations: u32,
    /// The user name, without escapes.
    pub username: *const u8,
    pub username_len: usize,
    /// The identity that the client acts for, without escapes (RFC 4422, section 2), of 256 bytes at most. If empty,
    /// the client acts for itself. The server decides whether the user may act for it.
    ///
    /// - SCRAM sends it in the GS2 header (RFC 5802, section 7). A client that names one tests the extensions like one
    ///   that has a channel.
    /// - PLAIN sends it as the first part of its message (RFC 4616, section 2), by `fe2o3_sasl_client_receive`. A
    ///   client that names one tests its words like a strict one.
    /// - ANONYMOUS and EXTERNAL do not send it: with one this call returns NOT_IMPLEMENTED. EXTERNAL_AS sends
    ///   `username` as the identity.
    pub acts_for: *const u8,
    pub acts_for_len: usize,
    /// The password.
    pub password: *const u8,
    pub password_len: usize,
    /// The keys of an earlier login, or a struct of zeros. You can replace them between the calls of an exchange: after
    /// CLIENT_STALE_KEYS repeat the call with keys of the salt and the count that the server names.
    pub keys: *const ScramKeys,
    /// Whether the client accepts the server's signature in a challenge too, before an outcome without data (RFC 4422,
    /// section 5). 0 means that the signature has to come in the outcome. Any other value accepts it in both. Only
    /// `fe2o3_sasl_client_receive` uses this field.
    pub signature_by_challenge: u32,
    /// Whether the client is strict: it reads messages by the grammar of RFC 5802, section 7. 0 is no, any other value
    /// yes. The server's part of the nonce has to be printable and not empty (CLIENT_CLIENT_NONCE_MISMATCH), the
    /// iteration count without a sign or leading zeros (CLIENT_ITERATION_COUNT_PARSE_ERROR), and what follows the count
    /// or the signature an extension (CLIENT_MISPLACED_ATTRIBUTE). A client that has a channel or names an identity
    /// tests the extensions in any case.
    ///
    /// A strict client sends a user name and a password by PLAIN only if a message can have them (RFC 4616, section 2).
    /// Otherwise the call returns NAMES_NO_USER or EMPTY_PASSWORD for an empty one, and PROHIBITED_CHARACTER for a zero
    /// byte.
    pub strict: u32,
    /// What the client says of its channel (RFC 5802, section 6): one of the `channel_use` constants.
    pub channel_use: u32,
    /// The kind of the channel that is bound: one of the `channel_kind` constants. Only for CHANNEL_BOUND.
    pub channel_kind: u32,
    /// The number of bytes of `channel_data` in use, from 1 to 64. Only for CHANNEL_BOUND.
    pub channel_data_len: u32,
    /// The data of the channel that is bound, which identify it. You have them from TLS. Only for CHANNEL_BOUND.
    pub channel_data: [u8; 64],
}

/// The state of a SCRAM client between calls. All zeros is a client that has sent nothing.
///
/// A call that succeeds writes zeros to every field that its new state does not use, and after every length. The struct
/// never holds a password, and it holds keys only in `keys`.
#[repr(C)]
#[derive(Clone, Copy)]
pub struct ScramClient {
    /// How far the exchange is: one of the `scram_client_state` constants.
    pub state: u32,
    /// The number of bytes of `signature` in use.
    pub signature_len: u32,
    /// The nonce of the client-first message.
    pub nonce: [u8; 32],
    /// The ServerSignature that the client expects.
    pub signature: [u8; 64],
    /// The keys with which the client-final message was computed.
    pub keys: ScramKeys,
}

/// The state of a SCRAM server between calls. All zeros is a server without an open challenge.
///
/// A call that succeeds writes zeros to every field that its new state does not use, and after every length. The struct
/// never holds a password or a key of a record.
#[repr(C)]
#[derive(Clone, Copy)]
pub struct ScramServer {
    /// How far the exchange is: one of the `scram_server_state` constants.
    pub state: u32,
    /// The hash of the open challenge: one of the `scram_version` constants.
    pub version: u32,
    /// The number of bytes of `user` in use.
    pub user_len: u32,
    /// The number of bytes of `bare` in use.
    pub bare_len: u32,
    /// The number of bytes of `nonce` in use.
    pub nonce_len: u32,
    /// The number of bytes of `first` in use.
    pub first_len: u32,
    /// The number of bytes of `acts_for` in use, or 0 if the client acts for itself.
    pub acts_for_len: u32,
    /// Why the last frame was answered by the outcome Auth, for the server's log only: one of the `rejection`
    /// constants, or the error of a SCRAM message, one of the `status` constants. Written by
    /// `fe2o3_sasl_server_receive`.
    pub rejection: u32,
    /// The user name, without escapes. It is authenticated in the state SCRAM_SERVER_AUTHENTICATED only; before, the
    /// client claims it.
    pub user: [u8; 256],
    /// The client-first message without its GS2 header.
    pub bare: [u8; 1024],
    /// The nonces of both sides.
    pub nonce: [u8; 512],
    /// The server-first message.
    pub first: [u8; 1024],
    /// The identity that the client acts for, without escapes (RFC 5802, section 5.1). While a challenge is open the
    /// client only names it; afterwards the user may act for it.
    pub acts_for: [u8; 256],
}

/// What identifies the channel of a server (RFC 5802, section 6). All zeros is a server that binds no channel.
#[repr(C)]
#[derive(Clone, Copy)]
pub struct ServerChannels {
    /// Whether the server binds channels: by a mechanism with `-PLUS` it accepts only clients that bind the channel, by
    /// a kind of which the struct has data (RFC 5802, section 6). 0 is no, and the data are then not used. Any other
    /// value is yes. Without data of any kind such a mechanism accepts no client.
    pub binds_channel: u32,
    /// The number of bytes of `tls_unique` in use, at most 64, or 0 if the server does not accept this kind.
    pub tls_unique_len: u32,
    /// The data of `tls-unique` (RFC 5929, section 3): the first Finished message of the TLS handshake. Only for TLS
    /// 1.2 and older, and only with the extended master secret (RFC 7627).
    pub tls_unique: [u8; 64],
    /// The number of bytes of `tls_server_end_point` in use, at most 64, or 0 if the server does not accept this kind.
    pub tls_server_end_point_len: u32,
    /// The data of `tls-server-end-point` (RFC 5929, section 4): the hash of the server's certificate.
    pub tls_server_end_point: [u8; 64],
    /// The number of bytes of `tls_exporter` in use, at most 64, or 0 if the server does not accept this kind.
    pub tls_exporter_len: u32,
    /// The data of `tls-exporter` (RFC 9266): 32 bytes of exported keying material. For TLS 1.3, and for TLS 1.2 with
    /// the extended master secret.
    pub tls_exporter: [u8; 64],
}

/// What a SCRAM server accepts, where RFC 5802 leaves it a choice. You lend the struct to each call of an exchange,
/// always with the same values.
#[repr(C)]
#[derive(Clone, Copy)]
pub struct ScramRules {
    /// Whether the GS2 header may be `y,,` too: the client supports channel binding, and was offered no mechanism with
    /// `-PLUS` (RFC 5802, section 6). 0 is no, any other value yes. Only for a server that offers no such mechanism. It
    /// has no effect if the server binds channels.
    pub accept_cbind_flag_y: u32,
    /// Whether the server is strict: it reads messages by the grammar of RFC 5802, section 7. 0 is no, any other value
    /// yes. A user name has to be of one or more characters and without NUL (SERVER_CANNOT_PARSE_USERNAME), a nonce
    /// printable and not empty (SERVER_CANNOT_PARSE_CLIENT_NONCE), and what follows the nonce an extension
    /// (SERVER_MISPLACED_ATTRIBUTE). A server that binds channels or accepts identities tests the extensions in any
    /// case.
    pub strict: u32,
    /// The server's channel, if it is of the mechanism with `-PLUS`.
    pub channels: ServerChannels,
    /// Whether a client may name an identity to act for (RFC 5802, section 5.1). 0 is no, any other value yes. The
    /// identity is of one or more characters and without NUL (SERVER_CANNOT_PARSE_GS2_HEADER), and such a server tests
    /// the extensions like a strict one. By itself the option lets each user name only itself.
    pub accept_authzid: u32,
    /// Whether the server rejects what is no extension in the place of one (SERVER_MISPLACED_ATTRIBUTE), like a strict
    /// one, and nothing more: an empty user name is accepted. 0 is no, any other value yes. A server that binds
    /// channels rejects it in any case. If you offer a mechanism with `-PLUS` beside one without it, set the field for
    /// both, and accept `y,,` by neither. Then nobody on the way can make a client that has a channel log in without
    /// binding it, whatever library the client is of.
    pub reject_misplaced: u32,
    /// The identities that the claimed user may act for besides itself (RFC 4422, section 2), without escapes, with a
    /// zero byte after each but the last, which may have one too. It is read with the client-final message: look up the
    /// identities of the user (`fe2o3_scram_server_claimed_user`), or only whether it may act for the one that the
    /// client names (`fe2o3_scram_server_claimed_identity`). A user who may not act for the identity gets
    /// SERVER_AUTHENTICATION_FAILED, like one with a wrong password.
    pub identities: *const u8,
    pub identities_len: usize,
}

/// One side of a connection between calls. All zeros is a connection that has received nothing and accepts no extended
/// headers.
#[repr(C)]
#[derive(Clone, Copy)]
pub struct Connection {
    /// How far the login is: one of the `progress` constants.
    ///
    /// After an outcome frame, a client has AUTHENTICATED if the code is CODE_OK and, for SCRAM, the frame holds the
    /// expected ServerSignature, or has no data and a challenge held it before (`signature_by_challenge`). The other
    /// mechanisms do not authenticate the server. Otherwise it has FAILED. A server has AUTHENTICATED once it writes an
    /// outcome with CODE_OK, and FAILED once it writes another one.
    pub progress: u32,
    /// Why the login failed: a status, such as REFUSED_AUTH for an outcome with CODE_AUTH, or
    /// CLIENT_SERVER_SIGNATURE_MISMATCH for a server that is not authenticated. OK unless `progress` is FAILED.
    pub why: u32,
    /// What the other side has to send next: one of the `expected` constants.
    pub expected: u32,
    /// The number of bytes of `held` in use.
    pub held_len: u32,
    /// The part of the expected header or frame that has been received. After a login that failed with
    /// PROTOCOL_HEADER_MISMATCH, the 8 bytes that were received in the place of the header of SASL: `AMQP 2 1 0 0` for
    /// a server that requires TLS first, `AMQP 0 1 0 0` for a client that begins AMQP without SASL.
    pub held: [u8; 512],
    /// Whether this side accepts frames with an extended header (AMQP 1.0, part 2, section 2.3.1): 0 is no, any other
    /// value yes. Set it before the first call. The side then reads such a frame without that header. The limit of 512
    /// bytes is that of the frame as received. Otherwise a data offset above 2 ends the login with NO_SASL_FRAME, as
    /// one below 2 or after the end of the frame does in any case. A call that receives bytes writes 0 or 1.
    pub extended_headers: u32,
}

/// How a client logs in on a connection. You lend the struct to each call, always with the same values.
#[repr(C)]
#[derive(Clone, Copy)]
pub struct SaslLogin {
    /// One of the `mechanism` constants. SCRAM uses the hash of `login`.
    pub mechanism: u32,
    /// The hostname of the init frame. If empty, the init has none.
    pub hostname: *const u8,
    pub hostname_len: usize,
    /// The user and the secret. PLAIN uses the name, the password, `acts_for` and `strict`. ANONYMOUS_AS and
    /// EXTERNAL_AS use the name, which may be empty. ANONYMOUS and EXTERNAL use nothing of it. These four return
    /// NOT_IMPLEMENTED for an `acts_for` that is not empty.
    pub login: Login,
}

/// The client's side of a connection between calls. All zeros is a connection that has received nothing.
#[repr(C)]
#[derive(Clone, Copy)]
pub struct SaslClient {
    /// The connection.
    pub connection: Connection,
    /// The SCRAM client. After the login it holds the keys (`fe2o3_scram_client_get_keys`). For ANONYMOUS_AS and
    /// EXTERNAL_AS its `state` is SCRAM_CLIENT_FIRST_SENT after the init, until the response.
    pub scram: ScramClient,
}

/// What a server offers, and the records of one user. You lend the struct to each call.
#[repr(C)]
#[derive(Clone, Copy)]
pub struct SaslServerConfig {
    /// The offered mechanisms: a sum of values of the `offer` constants. PLAIN sends the password in clear, so offer it
    /// over TLS only.
    pub mechanisms: u32,
    /// What else the server does: a sum of values of the `server_flag` constants. PLAIN rejects every password that is
    /// not printable ASCII, unless the sum has PLAIN_PREPARED or PLAIN_SASLPREP. By the latter it also rejects a
    /// password that SASLprep rejects or prepares to the empty text. With SIGNATURE_BY_CHALLENGE SCRAM's outcome OK
    /// follows the client's empty response to a challenge. With INITIAL_RESPONSE_BY_CHALLENGE an init for SCRAM or
    /// PLAIN without an initial response is answered by an empty challenge, and the response is the initial response.
    /// With STRICT SCRAM is strict, as by the field `strict` of struct fe2o3_scram_rules, and with REJECT_MISPLACED as
    /// by its field `reject_misplaced`.
    pub flags: u32,
    /// The iteration count of mock records. PLAIN hashes the password of an unknown user as often. Pass the count of
    /// your store's records.
    pub iterations: u32,
    /// The length of the salts of mock records, in bytes, at most 64. Pass the length of your store's salts. Without a
    /// `mock_secret` it plays no part.
    pub mock_salt_len: u32,
    /// The secret of mock authentication: at least 32 random bytes, one value for all names, kept as long as the
    /// records. With it SCRAM answers a name that has no record of its hash like any other, by a mock record. The login
    /// then fails at its proof. If empty, there is no mock authentication: SCRAM rejects the init of such a name at
    /// once, and a client can tell known users from unknown ones.
    pub mock_secret: *const u8,
    pub mock_secret_len: usize,
    /// Whether `username`, `records` and `identities` are what your store has of the user whom the bytes claim. 0 is
    /// no, any other value yes. If it is 0 and the bytes claim a user, `fe2o3_sasl_server_receive` returns
    /// NEEDS_RECORDS. If they claim none, these fields are only tested for UTF-8.
    pub looked_up: u32,
    /// The name of the user whose records these are, without escapes.
    pub username: *const u8,
    pub username_len: usize,
    /// The records that your store has of the user, of any hashes, and none for an unknown user. SCRAM uses the first
    /// record of its hash. PLAIN tests the password against the first record that can be read.
    ///
    /// If no record can be read, PLAIN hashes the password all the same, and rejects the login. It then uses the first
    /// of SHA-256, SHA-512 and SHA-1 by which SCRAM is offered, or SHA-256 if SCRAM is not offered. So let the records
    /// of each user begin with that hash.
    pub records: *const ScramRecord,
    pub records_count: usize,
    /// The name of the client that the transport has authenticated, for instance by a certificate. EXTERNAL accepts it.
    /// If empty, EXTERNAL is not offered, and an init for it fails with REFUSED_AUTH.
    pub external_authcid: *const u8,
    pub external_authcid_len: usize,
    /// The server's channel. If it binds channels, SCRAM is also offered with `-PLUS`, by the same hashes, and before
    /// the other mechanisms. SCRAM without `-PLUS` then rejects the GS2 header `y,,` (RFC 5802, section 6), whatever
    /// ACCEPT_CBIND_FLAG_Y says. Both reject what is no extension in the place of one, as with REJECT_MISPLACED. So a
    /// client of SCRAM that has a channel binds this one, or does not log in.
    pub channels: ServerChannels,
    /// Whether a client of SCRAM or PLAIN may name an identity to act for (RFC 5802, section 5.1; RFC 4616, section 2),
    /// as by the field `accept_authzid` of struct fe2o3_scram_rules. 0 is no, any other value yes. Without it a message
    /// of PLAIN may still name its own user.
    pub accept_authzid: u32,
    /// The identities that the user may act for besides itself (RFC 4422, section 2), without escapes, with a zero byte
    /// after each but the last, which may have one too. After the login `fe2o3_scram_server_acts_for` returns the one
    /// that the user acts for.
    pub identities: *const u8,
    pub identities_len: usize,
}

/// The server's side of a connection between calls. All zeros is a connection that has received nothing.
#[repr(C)]
#[derive(Clone, Copy)]
pub struct SaslServer {
    /// The connection.
    pub connection: Connection,
    /// The SCRAM server. After a login by any mechanism it holds the authenticated user
    /// (`fe2o3_scram_server_authenticated_user`), and after one by SCRAM or PLAIN the identity that the user acts for
    /// (`fe2o3_scram_server_acts_for`). ANONYMOUS has no user.
    pub scram: ScramServer,
}

/// The content of a frame body. Its pointers point into that body.
#[repr(C)]
#[derive(Clone, Copy)]
pub struct SaslFrameView {
    /// Which frame it is: one of the `frame_kind` constants.
    pub kind: u32,
    /// The code of an outcome: one of the `sasl_code` constants. Zero for other frames.
    pub code: u32,
    /// 1 if there is a message, otherwise 0.
    pub has_message: u32,
    /// 1 if there is a hostname, otherwise 0.
    pub has_hostname: u32,
    /// The number of mechanisms in a list of mechanisms.
    pub count: usize,
    /// The number of bytes of the body that the frame takes. Bytes after it are not read.
    pub taken: usize,
    /// The mechanism of an init.
    pub mechanism: *const u8,
    pub mechanism_len: usize,
    /// The initial response, the challenge, the response, or the additional data of an outcome.
    pub message: *const u8,
    pub message_len: usize,
    /// The hostname of an init.
    pub hostname: *const u8,
    pub hostname_len: usize,
}

/// The sizes of the structs here, in the order of the numbers of `fe2o3_size`.
pub const SIZES: [usize; 12] = [
    core::mem::size_of::<Login>(),
    core::mem::size_of::<ScramClient>(),
    core::mem::size_of::<ScramKeys>(),
    core::mem::size_of::<ScramServer>(),
    core::mem::size_of::<ScramRecord>(),
    core::mem::size_of::<Connection>(),
    core::mem::size_of::<SaslLogin>(),
    core::mem::size_of::<SaslClient>(),
    core::mem::size_of::<SaslFrameView>(),
    core::mem::size_of::<SaslServerConfig>(),
    core::mem::size_of::<SaslServer>(),
    core::mem::size_of::<ScramRules>(),
];

extern "C" {
    /// Returns the version of the library: 10000 times the major, 100 times the minor, and the patch number.
    pub fn fe2o3_version() -> u32;

    /// Returns how many bytes a struct has in the library. `which` is one of the `size_of` constants; other numbers
    /// return 0. If your own `sizeof` differs, your header is of another version.
    pub fn fe2o3_size(which: u32) -> usize;

    /// Writes the text of a status to `text`. It ends with a zero byte and stays valid for as long as the library is
    /// loaded.
    pub fn fe2o3_status_text(status: u32, text: *mut Text);

    /// Overwrites memory by zeros. Unlike a `memset` before the end of a block, it is never dropped by a compiler. Call
    /// it for each struct, password and message with a secret, once you no longer need it.
    ///
    /// This function is written in C, and not proved.
    pub fn fe2o3_wipe(memory: *mut core::ffi::c_void, len: usize);

    /// Writes the text that SASLprep (RFC 4013) prepares `text` to. Printable ASCII is prepared to itself; other ASCII
    /// is rejected.
    ///
    /// Prepare a non-ASCII password before you store or use it, and pass the result where a prepared password is
    /// expected. `unassigned` is UNASSIGNED_REFUSED for a text that is stored, and UNASSIGNED_ALLOWED for one that is
    /// only compared with stored texts (RFC 3454, section 7).
    ///
    /// The errors are, in this order: NO_SUCH_CHOICE for another `unassigned`; NOT_UTF8; PROHIBITED_CHARACTER;
    /// MIXED_DIRECTIONS; UNASSIGNED_CODE_POINT; and ROOM_TOO_SMALL.
    pub fn fe2o3_saslprep(
        text: *const u8,
        text_len: usize,
        unassigned: u32,
        out: *mut u8,
        out_size: usize,
        out_len: *mut usize) -> u32;

    /// Computes the record of a password. `form` is one of the `password_form` constants. A client logs in with exactly
    /// the text of which the record was made.
    ///
    /// `salt` is random bytes, fresh for each record, at most 128: 16 suffice. For SCRAM-SHA-256 some clients of
    /// MongoDB require 28.
    ///
    /// The errors are, in this order: NO_SUCH_VERSION; NO_SUCH_CHOICE for another `form`; NOT_UTF8; TOO_LONG for a salt
    /// of more than 128 bytes; NOT_PRINTABLE for a typed password that is not printable ASCII; and ZERO_ITERATIONS.
    pub fn fe2o3_scram_record_make(
        version: u32,
        form: u32,
        password: *const u8,
        password_len: usize,
        salt: *const u8,
        salt_len: usize,
        iterations: u32,
        kept: *mut ScramRecord) -> u32;

    /// Makes a record of the fields that another server stores: the salt, the iteration count, the StoredKey and the
    /// ServerKey (RFC 5802, section 3), each as bytes, not in base64.
    ///
    /// The errors are, in this order: NO_SUCH_VERSION; TOO_LONG for a salt of more than 128 bytes; ZERO_ITERATIONS; and
    /// RECORD_KEY_LENGTH_MISMATCH if a key has another length than a digest of the hash.
    pub fn fe2o3_scram_record_from_fields(
        version: u32,
        salt: *const u8,
        salt_len: usize,
        iterations: u32,
        stored_key: *const u8,
        stored_key_len: usize,
        server_key: *const u8,
        server_key_len: usize,
        kept: *mut ScramRecord) -> u32;

    /// Computes a mock record for a name that the server does not know, or that has no record of this hash. The server
    /// then answers unknown users like known ones. The login then fails at its proof. It is for the calls over
    /// messages: `fe2o3_sasl_server_receive` makes mock records itself, by `mock_secret` of its configuration.
    ///
    /// `secret` is 32 random bytes, one value for all names, kept as long as the records. `salt_len`, at most 64, and
    /// `iterations` are those of the server's other records. An iteration count of 0 is not rejected here.
    ///
    /// The errors are, in this order: NO_SUCH_VERSION; NOT_UTF8 for the name; and TOO_LONG for a `salt_len` above 64.
    pub fn fe2o3_scram_record_mock(
        version: u32,
        secret: *const u8,
        secret_len: usize,
        username: *const u8,
        username_len: usize,
        salt_len: usize,
        iterations: u32,
        kept: *mut ScramRecord) -> u32;

    /// Parses the text of a record, as PostgreSQL writes it (RFC 5803, section 2).
    ///
    /// The errors are, in this order: NOT_UTF8; the fault of the text, such as RECORD_PARTS_MISMATCH; and TOO_LONG for
    /// a salt of more than 128 bytes.
    pub fn fe2o3_scram_record_parse(text: *const u8, text_len: usize, kept: *mut ScramRecord) -> u32;

    /// Writes the text of a record, as PostgreSQL reads it (RFC 5803, section 2): at most 384 bytes.
    ///
    /// The errors are, in this order: NO_SUCH_VERSION, and TOO_LONG for a `salt_len` above 128, if the struct holds no
    /// record; and ROOM_TOO_SMALL.
    pub fn fe2o3_scram_record_text(
        kept: *const ScramRecord,
        out: *mut u8,
        out_size: usize,
        out_len: *mut usize) -> u32;

    /// Compares a password, for instance one received by PLAIN, with a record: OK if it is the record's, OTHER_PASSWORD
    /// if not. `form` is one of the `password_form` constants. The call hashes as often as the record's iteration count
    /// says, so pass only your own records.
    ///
    /// The errors are, in this order: NO_SUCH_VERSION, and TOO_LONG for a `salt_len` above 128, if the struct holds no
    /// record; NO_SUCH_CHOICE for another `form`; NOT_UTF8; and OTHER_PASSWORD.
    pub fn fe2o3_scram_record_verify(
        kept: *const ScramRecord,
        form: u32,
        password: *const u8,
        password_len: usize) -> u32;

    /// Computes the record of a salted password (RFC 5802, section 3), which you computed as `Hi(password, salt,
    /// iterations)`. The record is then that of fe2o3_scram_record_make. The call cannot test that the salted password
    /// is of this salt and count. `salt` is random bytes, fresh for each record, at most 128: 16 suffice.
    ///
    /// The errors are, in this order: NO_SUCH_VERSION; RECORD_KEY_LENGTH_MISMATCH if the salted password has another
    /// length than a digest of the hash; TOO_LONG for a salt of more than 128 bytes; and ZERO_ITERATIONS.
    pub fn fe2o3_scram_record_of_salted(
        version: u32,
        salted: *const u8,
        salted_len: usize,
        salt: *const u8,
        salt_len: usize,
        iterations: u32,
        kept: *mut ScramRecord) -> u32;

    /// Compares a salted password (RFC 5802, section 3) with a record: OK if it is the record's, OTHER_PASSWORD if not,
    /// and for each one if the record's iteration count is 0. A server that receives a password, for instance by PLAIN,
    /// computes it as `Hi(password, salt, iterations)` with the salt and the count of the record. For a non-ASCII
    /// password prepare it first (fe2o3_saslprep).
    ///
    /// The errors are, in this order: NO_SUCH_VERSION, and TOO_LONG for a `salt_len` above 128, if the struct holds no
    /// record; and RECORD_KEY_LENGTH_MISMATCH if the salted password has another length than a digest of the hash. The
    /// keys are compared over their whole length, whatever the bytes are; no claim is made about time.
    pub fn fe2o3_scram_record_verify_salted(kept: *const ScramRecord, salted: *const u8, salted_len: usize) -> u32;

    /// Finds the record of a user in a text that has a line for each record: the name with each comma as `=2C` and each
    /// equals sign as `=3D`, a space, the text of the record, and a line feed. Of several lines for a name and version,
    /// the first counts.
    ///
    /// If nothing is found, `line` is the number of the line that cannot be parsed, counted from 1, or 0 if every line
    /// can.
    ///
    /// The errors are, in this order: NO_SUCH_VERSION; NOT_UTF8 for the name or the text; the fault of the first line
    /// that cannot be parsed; and NO_SUCH_USER, or TOO_LONG for a salt of more than 128 bytes.
    pub fn fe2o3_scram_lines_find(
        lines: *const u8,
        lines_len: usize,
        username: *const u8,
        username_len: usize,
        version: u32,
        line: *mut usize,
        kept: *mut ScramRecord) -> u32;

    /// Writes 1 to `all` if each user of a text has a record of this version, and 0 if one has none. The text is one
    /// that `fe2o3_scram_lines_find` reads. Offer only hashes by which all users can log in: a client selects the
    /// strongest hash that is offered, whether its user has a record of it or not. A text without users has 1 for every
    /// version.
    ///
    /// If the text cannot be parsed, `line` is the number of the first line that cannot, counted from 1. It is 0 after
    /// the other errors, except OUT_OF_MEMORY, which leaves it unchanged.
    ///
    /// The errors are, in this order: NO_SUCH_VERSION; NOT_UTF8; and the fault of the first line that cannot be parsed.
    pub fn fe2o3_scram_lines_all_have(
        lines: *const u8,
        lines_len: usize,
        version: u32,
        line: *mut usize,
        all: *mut u32) -> u32;

    /// Writes the line of a user and a record, with its line feed, as `fe2o3_scram_lines_find` reads it.
    ///
    /// The errors are, in this order: NOT_UTF8 for the name; NO_SUCH_VERSION, and TOO_LONG for a `salt_len` above 128,
    /// if the struct holds no record; NOT_WRITABLE if the name contains a line feed or the iteration count is 0; and
    /// ROOM_TOO_SMALL.
    pub fn fe2o3_scram_line(
        username: *const u8,
        username_len: usize,
        kept: *const ScramRecord,
        out: *mut u8,
        out_size: usize,
        out_len: *mut usize) -> u32;

    /// Derives the keys of a password, for a server that uses this salt and iteration count. `form` is one of enum
    /// fe2o3_password_form.
    ///
    /// The errors are those of `fe2o3_scram_record_make`, in the same order.
    pub fn fe2o3_scram_keys_make(
        version: u32,
        form: u32,
        password: *const u8,
        password_len: usize,
        salt: *const u8,
        salt_len: usize,
        iterations: u32,
        keys: *mut ScramKeys) -> u32;

    /// Computes the keys of a salted password (RFC 5802, section 3), for a server that uses this salt and iteration
    /// count. You computed it as `Hi(password, salt, iterations)`, for example with OpenSSL's PKCS5_PBKDF2_HMAC, of
    /// which the output is as long as a digest. The keys are then those of fe2o3_scram_keys_make. The call cannot test
    /// that the salted password is of this salt and count.
    ///
    /// The errors are, in this order: NO_SUCH_VERSION; RECORD_KEY_LENGTH_MISMATCH if the salted password has another
    /// length than a digest of the hash; TOO_LONG for a salt of more than 128 bytes; and ZERO_ITERATIONS.
    pub fn fe2o3_scram_keys_of_salted(
        version: u32,
        salted: *const u8,
        salted_len: usize,
        salt: *const u8,
        salt_len: usize,
        iterations: u32,
        keys: *mut ScramKeys) -> u32;

    /// Writes the client-first message. This starts a new exchange, whatever the state of the client is. `nonce` is 32
    /// fresh random bytes. With CHANNEL_BOUND name the mechanism with `-PLUS` to the server, such as SCRAM-SHA-256-PLUS
    /// (RFC 5802, section 6). The whole login is tested, also the secret, which this message does not use.
    ///
    /// The faults of a login are, in this order: NO_SUCH_VERSION; NOT_UTF8 for the user name; NOT_UTF8,
    /// PROHIBITED_CHARACTER for a zero byte, and TOO_LONG for the identity; NO_SUCH_CHANNEL and CHANNEL_DATA_LENGTH;
    /// NO_SUCH_SECRET; NO_SUCH_CHOICE and NOT_UTF8 for the password; NO_KEYS and OTHER_VERSION for the keys. After
    /// these comes ROOM_TOO_SMALL.
    pub fn fe2o3_scram_client_first(
        login: *const Login,
        client: *mut ScramClient,
        nonce: *const [u8; 32],
        out: *mut u8,
        out_size: usize,
        out_len: *mut usize) -> u32;

    /// Answers the server-first message with the client-final message. `out` needs 128 bytes more than the server-first
    /// message has, or 256 more if the client binds a channel, and another 1024 if it names an identity to act for.
    /// This is tested before anything is hashed.
    ///
    /// The errors are, in this order: ROOM_TOO_SMALL, CLIENT_UTF8_ERROR, the faults of the login,
    /// CLIENT_ILLEGAL_CLIENT_STATE, and the other faults of the message.
    pub fn fe2o3_scram_client_final(
        login: *const Login,
        client: *mut ScramClient,
        server_first: *const u8,
        server_first_len: usize,
        out: *mut u8,
        out_size: usize,
        out_len: *mut usize) -> u32;

    /// Verifies the server-final message. Only OK means that the login is complete and the server authenticated.
    ///
    /// The message may be an error of the server, such as `e=invalid-proof` for a wrong password. The call then returns
    /// SERVER_ERROR, and fe2o3_scram_server_error says which error it is. After every other status than OK the server
    /// has not proved that it knows the user's keys. CLIENT_MISPLACED_ATTRIBUTE comes before
    /// CLIENT_SERVER_SIGNATURE_MISMATCH, so a forged message can cause either.
    ///
    /// The faults of the login come first, then CLIENT_ILLEGAL_CLIENT_STATE, and then those of the message.
    pub fn fe2o3_scram_client_verify(
        login: *const Login,
        client: *mut ScramClient,
        server_final: *const u8,
        server_final_len: usize) -> u32;

    /// Writes the keys of a complete login, for the next login to the same server. As long as the server keeps its salt
    /// and iteration count, a login by keys needs no password and no PBKDF2. The keys are secret: they suffice to log
    /// in.
    ///
    /// The errors are, in this order: CLIENT_ILLEGAL_CLIENT_STATE unless a login is complete; and NO_KEYS if the struct
    /// had no room for its salt.
    pub fn fe2o3_scram_client_get_keys(client: *const ScramClient, keys: *mut ScramKeys) -> u32;

    /// Writes the user name that a client-first message claims, without escapes. Nobody is authenticated yet: use it
    /// only to look up the record.
    ///
    /// `rules` are those for `fe2o3_scram_server_first` (RFC 5802, section 5.1). If the server binds channels, the GS2
    /// header has to be one that `fe2o3_scram_server_first` accepts. Otherwise `n,,` and `y,,` are both accepted here,
    /// whatever the rules say.
    ///
    /// The errors are those of `fe2o3_scram_server_first` from CHANNEL_DATA_LENGTH to SERVER_MISPLACED_ATTRIBUTE, in
    /// the same order, and then ROOM_TOO_SMALL.
    pub fn fe2o3_scram_server_claimed_user(
        rules: *const ScramRules,
        client_first: *const u8,
        client_first_len: usize,
        out: *mut u8,
        out_size: usize,
        out_len: *mut usize) -> u32;

    /// Writes the identity that a client-first message names to act for, without escapes, or 0 bytes if the client acts
    /// for itself. It is only claimed, like the user's name: use it only to look up whether the user may act for it.
    /// The message is read like by `fe2o3_scram_server_claimed_user`, and the errors are the same.
    pub fn fe2o3_scram_server_claimed_identity(
        rules: *const ScramRules,
        client_first: *const u8,
        client_first_len: usize,
        out: *mut u8,
        out_size: usize,
        out_len: *mut usize) -> u32;

    /// Answers a client-first message with the server-first message (RFC 5802, section 5.1). This starts a new
    /// exchange, whatever the state of the server is.
    ///
    /// Pass the same rules to `fe2o3_scram_server_final`. Rules of zeros are those of a server without options. `kept`
    /// is the record of the claimed user (`fe2o3_scram_server_claimed_user`), or a mock record
    /// (`fe2o3_scram_record_mock`) for an unknown one. `nonce` is 32 fresh random bytes.
    ///
    /// If the server binds channels, the GS2 header has to be `p=` with the name of a kind whose data the rules have
    /// (section 6). Otherwise it has to be `n,,`, or `y,,` if the rules accept that. It may name an identity to act
    /// for, as `n,a=NAME,`, if the rules accept that.
    ///
    /// The errors are, in this order:
    ///
    /// - CHANNEL_DATA_LENGTH if the rules bind channels, and data have more than 64 bytes,
    /// - SERVER_UTF8_ERROR,
    /// - SERVER_CANNOT_PARSE_GS2_HEADER if the rules do not accept the header, or its identity is empty, has NUL or a
    ///   wrong escape,
    /// - SERVER_CANNOT_PARSE_USERNAME and SERVER_CANNOT_PARSE_CLIENT_NONCE,
    /// - the same two of a strict server, if the name is empty or has NUL, or the nonce is empty or not printable,
    /// - SERVER_MISPLACED_ATTRIBUTE of a server that is strict, has `reject_misplaced`, binds channels or accepts
    ///   identities,
    /// - NO_SUCH_VERSION and TOO_LONG if `kept` holds no record,
    /// - TOO_LONG if a text of the challenge does not fit into the struct,
    /// - ROOM_TOO_SMALL.
    pub fn fe2o3_scram_server_first(
        rules: *const ScramRules,
        kept: *const ScramRecord,
        server: *mut ScramServer,
        nonce: *const [u8; 32],
        client_first: *const u8,
        client_first_len: usize,
        out: *mut u8,
        out_size: usize,
        out_len: *mut usize) -> u32;

    /// Answers a client-final message with the server-final message, if its proof is right (RFC 5802, section 5.1).
    /// Only OK means that the user is authenticated.
    ///
    /// `rules` and `kept` are those that `fe2o3_scram_server_first` was called with. `out` needs 90 bytes, which is
    /// tested before anything is hashed. If the server binds channels, the message has to have the GS2 header of the
    /// exchange and the server's data of its kind (section 6).
    ///
    /// The errors are, in this order:
    ///
    /// - CHANNEL_DATA_LENGTH if the rules bind channels, and data have more than 64 bytes,
    /// - ROOM_TOO_SMALL if `out` has fewer than 90 bytes,
    /// - SERVER_ILLEGAL_AUTHENTICATOR_STATE if no challenge is open for these rules: none is open, or it is to a client
    ///   that binds a channel by a kind of which the rules have no data, or the rules bind channels and its client
    ///   binds none,
    /// - NO_SUCH_VERSION and TOO_LONG if `kept` holds no record,
    /// - SERVER_UTF8_ERROR, SERVER_CANNOT_PARSE_CLIENT_FINAL_MESSAGE and SERVER_BASE64_DECODE_ERROR,
    /// - SERVER_INVALID_CHANNEL_BINDING if the message has another GS2 header than the exchange, or other data than the
    ///   rules,
    /// - SERVER_CANNOT_PARSE_CLIENT_FINAL_MESSAGE and SERVER_INCORRECT_CLIENT_FINAL_NONCE,
    /// - SERVER_PROOF_NOT_FOUND_IN_CLIENT_FINAL and SERVER_BASE64_DECODE_ERROR, of the proof,
    /// - SERVER_MISPLACED_ATTRIBUTE of a server that is strict, has `reject_misplaced`, binds channels or accepts
    ///   identities, or whose client said `y,,`,
    /// - SERVER_XOR_LENGTH_MISMATCH if the proof is not as long as a digest,
    /// - SERVER_AUTHENTICATION_FAILED if the proof is wrong, or the user may not act for the identity that the client
    ///   named (RFC 4422, section 2).
    pub fn fe2o3_scram_server_final(
        rules: *const ScramRules,
        kept: *const ScramRecord,
        server: *mut ScramServer,
        client_final: *const u8,
        client_final_len: usize,
        out: *mut u8,
        out_size: usize,
        out_len: *mut usize) -> u32;

    /// Writes the name of the authenticated user, without escapes. Returns SERVER_ILLEGAL_AUTHENTICATOR_STATE if no
    /// user is authenticated.
    pub fn fe2o3_scram_server_authenticated_user(
        server: *const ScramServer,
        out: *mut u8,
        out_size: usize,
        out_len: *mut usize) -> u32;

    /// Writes the identity that the authenticated user acts for, without escapes, or 0 bytes if the user acts for
    /// itself (RFC 4422, section 2). The user may act for it. Returns SERVER_ILLEGAL_AUTHENTICATOR_STATE if no user is
    /// authenticated.
    pub fn fe2o3_scram_server_acts_for(
        server: *const ScramServer,
        out: *mut u8,
        out_size: usize,
        out_len: *mut usize) -> u32;

    /// Returns which error of the server a message is, or 0 (SERVER_ERROR_NONE) if it is none. The result is one of the
    /// `server_error` constants.
    ///
    /// A server may send an error in the place of any message, such as `e=invalid-proof` after a wrong password (RFC
    /// 5802, section 7). A value that RFC 5802 does not name is SERVER_ERROR_OTHER_ERROR. The message is not
    /// authenticated: anyone who can alter the connection can write it.
    pub fn fe2o3_scram_server_error(message: *const u8, message_len: usize) -> u32;

    /// Writes the name of a server's error to `text`, as RFC 5802 spells it. `error` is one of the `server_error`
    /// constants. The text ends with a zero byte and stays valid for as long as the library is loaded.
    pub fn fe2o3_scram_server_error_text(error: u32, text: *mut Text);

    /// Writes the message by which a server reports to its client why a call failed with this status: `e=` and a name
    /// (RFC 5802, section 7). The status is one that a call of the server over messages returned, or NO_SUCH_USER.
    ///
    /// An unknown user, a mock record and a wrong proof have one message, `e=invalid-proof`. A status that no name of
    /// RFC 5802 describes has `e=other-error`. `unknown-user`, `extensions-not-supported`, and the errors of channel
    /// binding other than `channel-bindings-dont-match` are never written.
    pub fn fe2o3_scram_server_error_message(status: u32, out: *mut u8, out_size: usize, out_len: *mut usize) -> u32;

    /// Writes the message by which a client logs in with PLAIN (RFC 4616, section 2): the identity that the client acts
    /// for, which is empty if it acts for itself, the user name and the password, with a zero byte between them. The
    /// message has the password in clear, so send it over TLS only. Prepare a non-ASCII password first
    /// (`fe2o3_saslprep`).
    ///
    /// Returns, in this order, NOT_UTF8 if a word is not UTF-8, NAMES_NO_USER if the user name is empty, EMPTY_PASSWORD
    /// if the password is, PROHIBITED_CHARACTER if a word contains a zero byte, and TOO_LONG if the identity has more
    /// than 256 bytes.
    pub fn fe2o3_plain_message(
        acts_for: *const u8,
        acts_for_len: usize,
        username: *const u8,
        username_len: usize,
        password: *const u8,
        password_len: usize,
        out: *mut u8,
        out_size: usize,
        out_len: *mut usize) -> u32;

    /// Writes the user name that a message of PLAIN claims (RFC 4616, section 2). Nobody is authenticated yet: use it
    /// only to look up the record for `fe2o3_plain_verify`.
    ///
    /// Returns NAMES_NO_USER for a message that `fe2o3_plain_verify` rejects whatever its other arguments are: one that
    /// is not UTF-8 in three parts, whose user name is empty, or whose password does not have 1 to 1024 bytes.
    pub fn fe2o3_plain_claimed_user(
        message: *const u8,
        message_len: usize,
        out: *mut u8,
        out_size: usize,
        out_len: *mut usize) -> u32;

    /// Writes the identity that a message of PLAIN asks to act for (RFC 4616, section 2), or 0 bytes if its user acts
    /// for itself. It is only claimed, like the user's name: use it only to look up whether the user may act for it.
    /// The errors are those of `fe2o3_plain_claimed_user`.
    pub fn fe2o3_plain_claimed_identity(
        message: *const u8,
        message_len: usize,
        out: *mut u8,
        out_size: usize,
        out_len: *mut usize) -> u32;

    /// Tests a message of PLAIN against the record of the user that it claims (RFC 4616). Only OK means that this user
    /// (`fe2o3_plain_claimed_user`) is authenticated, and may act for the identity that the message asks for
    /// (`fe2o3_plain_claimed_identity`). PLAIN sends the password in clear, so use it over TLS only.
    ///
    /// `records` are those of the claimed user, of any hashes. The first one that can be read counts, so put mock
    /// records last. For an unknown user pass a mock record (`fe2o3_scram_record_mock`), or none: the password is then
    /// hashed with SHA-256 and this iteration count, as often as for a known user with this count, and rejected.
    /// `passwords` is one of the `plain_passwords` constants.
    ///
    /// `accept_authzid` says whether a message may name an identity other than its user. 0 is no, any other value yes.
    /// `identities` are those that the user may act for besides itself (RFC 4422, section 2), with a zero byte after
    /// each but the last, which may have one too.
    ///
    /// Returns, in this order, NO_SUCH_CHOICE if `passwords` is none of the enum, NOT_UTF8 if the identities are not
    /// UTF-8, and SERVER_AUTHENTICATION_FAILED for every message that does not log in: a wrong password, an unknown
    /// user, an identity that the user may not act for, or no acceptable message.
    pub fn fe2o3_plain_verify(
        records: *const ScramRecord,
        records_count: usize,
        passwords: u32,
        iterations: u32,
        accept_authzid: u32,
        identities: *const u8,
        identities_len: usize,
        message: *const u8,
        message_len: usize) -> u32;

    /// Tests a message of EXTERNAL (RFC 4422, appendix A) against the name that the transport authenticated, such as
    /// the subject of a client's TLS certificate. Only OK means that this user is authenticated: the message is empty
    /// or equals `authcid`.
    ///
    /// Returns SERVER_AUTHENTICATION_FAILED for every other message, and for each message if `authcid` is empty: then
    /// the transport authenticated no one. Returns NOT_UTF8 if `authcid` is not UTF-8. The message of a client is the
    /// identity itself, so there is no call that writes it.
    pub fn fe2o3_external_verify(
        authcid: *const u8,
        authcid_len: usize,
        message: *const u8,
        message_len: usize) -> u32;

    /// Writes the SASL protocol header, with which a client begins a connection.
    pub fn fe2o3_sasl_client_open(out: *mut u8, out_size: usize, out_len: *mut usize) -> u32;

    /// Takes received bytes, to the end of the expected header or frame, and writes the bytes to send, at most 512.
    /// `out` needs 512 bytes, which is tested before anything is hashed. `nonce` is 32 fresh random bytes, or any bytes
    /// if `fe2o3_sasl_wants_nonce` returns 0.
    ///
    /// OK does not mean that the login succeeds: look at `progress` and `why` of the connection. `taken` is how many
    /// bytes were used. While `progress` is IN_PROGRESS, pass the rest in the next call; after the login it belongs to
    /// AMQP.
    ///
    /// The errors are, in this order: ROOM_TOO_SMALL; ENDED; INVALID_SNAPSHOT for a struct that no call has written;
    /// NOT_UTF8 for the hostname; the faults of the login, for SCRAM as in `fe2o3_scram_client_first`; and
    /// INVALID_SNAPSHOT for a part of a frame that is not expected. Each leaves the struct unchanged.
    pub fn fe2o3_sasl_client_receive(
        login: *const SaslLogin,
        client: *mut SaslClient,
        bytes: *const u8,
        bytes_len: usize,
        nonce: *const [u8; 32],
        taken: *mut usize,
        out: *mut u8,
        out_size: usize,
        out_len: *mut usize) -> u32;

    /// Takes received bytes, to the end of the expected header or frame, and writes the bytes to send, at most 520.
    /// `out` needs 520 bytes, which is tested before anything is hashed. `nonce` is 32 fresh random bytes, or any bytes
    /// if `fe2o3_sasl_wants_nonce` returns 0.
    ///
    /// Call it first with `looked_up` 0. If the bytes complete a frame that claims a user, it takes nothing, writes the
    /// name to `out`, at most 512 bytes, and returns NEEDS_RECORDS. Nobody is authenticated yet: use the name only to
    /// look the user up. Put what your store has of the user into `config`, set `looked_up`, and repeat the call with
    /// the same bytes.
    ///
    /// An init for SCRAM or PLAIN claims the user of its initial response, and so does the response to an empty
    /// challenge. The response to a challenge of SCRAM claims the user of that challenge, `user` of the field `scram`
    /// while its `state` says that a challenge is open. You can look that user up before, and set `looked_up` at once.
    ///
    /// OK does not mean that the login succeeds: look at `progress` and `why` of the connection. `taken` is how many
    /// bytes were used. While `progress` is IN_PROGRESS, pass the rest in the next call; after the login it belongs to
    /// AMQP.
    ///
    /// A call that returns an error changes neither `server` nor `taken`. The errors are, in this order:
    ///
    /// - ROOM_TOO_SMALL if `out` has fewer than 520 bytes,
    /// - NEEDS_RECORDS,
    /// - ENDED and INVALID_SNAPSHOT of the connection,
    /// - NO_SUCH_MECHANISM if `mechanisms` is no sum of values of the `offer` constants,
    /// - NO_SUCH_CHOICE if `flags` is no sum of values of the `server_flag` constants,
    /// - NOT_UTF8 for `username`, `external_authcid` and `identities`,
    /// - CHANNEL_DATA_LENGTH if the server binds channels, and data have more than 64 bytes,
    /// - TOO_LONG if `mock_secret` is not empty, and `mock_salt_len` is above 64,
    /// - NO_SUCH_MECHANISM if nothing would be offered,
    /// - INVALID_SNAPSHOT if no connection of a server has this struct,
    /// - TOO_LONG if a name or a message does not fit into the struct. Close the connection then.
    pub fn fe2o3_sasl_server_receive(
        config: *const SaslServerConfig,
        server: *mut SaslServer,
        bytes: *const u8,
        bytes_len: usize,
        nonce: *const [u8; 32],
        taken: *mut usize,
        out: *mut u8,
        out_size: usize,
        out_len: *mut usize) -> u32;

    /// Returns 1 if the next call of `fe2o3_sasl_client_receive` or `fe2o3_sasl_server_receive` may use its nonce: a
    /// client that expects the list of mechanisms, or a server that expects an init. Otherwise returns 0. The call then
    /// gives the same result with every nonce, which is tested and not proved, and you need no fresh random bytes.
    pub fn fe2o3_sasl_wants_nonce(connection: *const Connection) -> u32;

    /// Writes the body of the frame that `bytes` complete with the part that `connection` holds, without the four bytes
    /// of the frame's size: at most 508 bytes. The body has no extended header if `connection` accepts these. `out_len`
    /// is 0 if the bytes complete no frame. Nothing is taken: pass the same bytes to `fe2o3_sasl_client_receive` or
    /// `fe2o3_sasl_server_receive` after that.
    ///
    /// `expected` of the connection is the frame that has to come next. Parse the body with `fe2o3_sasl_view_frame`: a
    /// server reads in it the mechanism and the hostname of an init, and a client the additional data of an outcome.
    /// Pass a list of mechanisms to `fe2o3_sasl_offers`.
    ///
    /// The errors are, in this order: ENDED; INVALID_SNAPSHOT for a struct that no call has written; and
    /// ROOM_TOO_SMALL.
    pub fn fe2o3_sasl_peek_frame(
        connection: *const Connection,
        bytes: *const u8,
        bytes_len: usize,
        out: *mut u8,
        out_size: usize,
        out_len: *mut usize) -> u32;

    /// Ends a login after the other side has ended its stream (end of file). A login in progress fails with
    /// END_OF_INPUT. Otherwise nothing changes.
    pub fn fe2o3_sasl_end_of_input(connection: *mut Connection);

    /// Parses a frame body, without the four bytes of the frame's size. It allocates no memory.
    ///
    /// Returns MALFORMED_FRAME or NO_SASL_FRAME for a body that holds no frame.
    pub fn fe2o3_sasl_view_frame(body: *const u8, body_len: usize, view: *mut SaslFrameView) -> u32;

    /// Tests whether a frame body is a list of mechanisms with `mechanism` in it. The errors are, in this order:
    /// NOT_UTF8 for `mechanism`; those of `fe2o3_sasl_view_frame`; UNEXPECTED_FRAME for another frame; and
    /// NOT_IMPLEMENTED if the list lacks it.
    pub fn fe2o3_sasl_offers(body: *const u8, body_len: usize, mechanism: *const u8, mechanism_len: usize) -> u32;
}
