/* The exports of ../exports. Nothing compares these declarations with the .rt.in files: keep them side
   by side. There a slice is a pointer and a length, and a Global is nothing. */
#ifndef EXPORTS_H
#define EXPORTS_H
#include <stddef.h>
#include <stdint.h>

#define WANT SIZE_MAX /* there was no memory */
#define REFUSED (SIZE_MAX - 1) /* any other refusal */
#define IN(name) const uint8_t *name, size_t name##_len
#define OUT(name) uint8_t *name, size_t name##_room

size_t bench_digest(uint32_t version, IN(message), OUT(out));
size_t bench_hmac(uint32_t version, IN(key), IN(input), OUT(out));
size_t bench_hi(uint32_t version, IN(password), IN(salt), uint32_t iterations, OUT(out));
size_t bench_salted(uint32_t version, IN(password), IN(salt));

size_t bench_client_first(uint32_t version, IN(username), IN(nonce), OUT(out));
size_t bench_server_first(uint32_t version, IN(username), IN(message), IN(nonce), uint32_t times, OUT(out));
size_t bench_client_final(uint32_t version, IN(nonce), IN(password), IN(message), IN(bare), uint32_t limit, OUT(out),
    OUT(signature));
size_t bench_server_final(uint32_t version, IN(message), IN(nonce), IN(bare), IN(challenge), IN(stored_key),
    IN(server_key), OUT(out));
size_t bench_validate(uint32_t version, IN(message), IN(signature));
size_t bench_auth_message(IN(first), IN(second), IN(third));
size_t bench_escape(IN(username));
size_t bench_unescape(IN(username));

size_t bench_machine(uint32_t version, uint32_t by_keys, uint32_t call, uint32_t copies, uint32_t times, OUT(out));
size_t bench_log_in(uint32_t version, uint32_t by_keys, uint32_t iterations, uint32_t times);
size_t bench_new_client(uint32_t version, uint32_t times);
size_t bench_new_keyed_client(uint32_t version, uint32_t times);
size_t bench_new_server(uint32_t version, uint32_t times);

size_t bench_record(uint32_t version, IN(password), uint32_t iterations);
size_t bench_write_record(uint32_t version, uint32_t iterations, uint32_t times, OUT(out));
size_t bench_read_record(IN(record));
size_t bench_read_lines(uint32_t version, IN(lines));
size_t bench_write_lines(uint32_t version, IN(lines), uint32_t times);
size_t bench_look_up(uint32_t version, IN(lines), IN(username), uint32_t times);

size_t bench_make_events(IN(mechanisms), uint32_t iterations, uint32_t logins, uint32_t of_server, OUT(out));
size_t bench_run_client(IN(events), uint32_t times);
size_t bench_run_server(uint32_t iterations, IN(events), uint32_t times);
size_t bench_serve_users(IN(lines), uint32_t shared, IN(events), uint32_t times);
size_t bench_audit(uint32_t iterations, IN(client_events), IN(server_events), uint32_t times);

size_t bench_view(IN(body));
size_t bench_last_symbol(IN(body));
size_t bench_walk_symbols(IN(body));
size_t bench_offers(IN(body));
size_t bench_decode(IN(bodies), uint32_t times);
size_t bench_encode(IN(bodies), uint32_t times);
size_t bench_header(void);

#endif
